#include "operation.h"

const char *const operation_names[OPERATIONS] = {
    "TABLE", "SELF", "TEXT", "JOIN", "UNION", "LFP", "HAS", "DIFF", "AND",
};
