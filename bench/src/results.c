#include "results.h"

const char *const way_names[WAYS] = {
    [SELECT] = "tb_select",
    [RUN] = "tb_run",
    [TRANSLATE] = "tb_translate",
    [CHECK] = "tb_check",
    [LIBXML_BYTES] = "libxml2 from bytes",
    [LIBXML_TREE] = "libxml2 parsed, compiled",
    [SQLITE_STEPS] = "SQLite, the steps",
    [SQLITE_HAND] = "SQLite by hand",
};

const char *const conversion_names[CONVERSIONS] = {
    [SHRED] = "tb_shred",
    [REBUILD] = "tb_rebuild",
    [READ] = "tb_read_tables",
};
