#include "query.h"

#include "document.h"

/* The codes of QRY that are used here. */
enum { SELF = 0x01, CHILD = 0x02, BELOW = 0x05, WHERE = 0x07, SOME = 0x11, NOT = 0x13 };

/* The bytes of a QRY file, and how many they are. */
#define QRY(...) .qry = {'Q', 'R', 'Y', 0, 1, __VA_ARGS__}, \
                 .qry_len = 5 + sizeof (uint8_t[]){__VA_ARGS__}

/* The SQL goes down from the document node once and brings along what has to be
 * known of the way. For the first query this was the fastest of the ways with
 * recursion that were tried. */
const struct query queries[QUERIES] = {
    {
        .xpath = ".//station",
        QRY(BELOW, SELF, CHILD, STATION),
        .sql = "WITH RECURSIVE below(node, type) AS ("
               " SELECT number, type FROM element WHERE parent = 0"
               " UNION ALL"
               " SELECT number, element.type FROM below JOIN element ON parent = node)"
               " SELECT node FROM below WHERE type = 2 ORDER BY node",
    },
    {
        .xpath = ".//station[not(remark)]",
        QRY(WHERE, BELOW, SELF, CHILD, STATION, NOT, SOME, CHILD, REMARK),
        .sql = "WITH RECURSIVE below(node, type) AS ("
               " SELECT number, type FROM element WHERE parent = 0"
               " UNION ALL"
               " SELECT number, element.type FROM below JOIN element ON parent = node)"
               " SELECT node FROM below WHERE type = 2"
               " AND NOT EXISTS (SELECT 1 FROM element WHERE parent = node AND element.type = 3)"
               " ORDER BY node",
    },
    {
        .xpath = ".//station//station",
        QRY(BELOW, BELOW, SELF, CHILD, STATION, CHILD, STATION),
        .sql = "WITH RECURSIVE below(node, type, inside) AS ("
               " SELECT number, type, 0 FROM element WHERE parent = 0"
               " UNION ALL"
               " SELECT number, element.type, inside OR below.type = 2"
               " FROM below JOIN element ON parent = node)"
               " SELECT node FROM below WHERE type = 2 AND inside ORDER BY node",
    },
    {
        .xpath = ".//group//station//remark",
        QRY(BELOW, BELOW, BELOW, SELF, CHILD, GROUP, CHILD, STATION, CHILD, REMARK),
        .sql = "WITH RECURSIVE below(node, type, inside) AS ("
               " SELECT number, type, 0 FROM element WHERE parent = 0"
               " UNION ALL"
               " SELECT number, element.type,"
               " CASE WHEN inside = 0 AND below.type = 1 THEN 1"
               " WHEN inside = 1 AND below.type = 2 THEN 2 ELSE inside END"
               " FROM below JOIN element ON parent = node)"
               " SELECT node FROM below WHERE type = 3 AND inside = 2 ORDER BY node",
    },
};
