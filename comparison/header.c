/* What include/puxerdau.h says: its lengths, held to their numbers here; its other constants, and its functions that take an answer
 * apart, handed on to `compare`. */
#include "puxerdau.h"

#define IS(constant, number) _Static_assert((constant) == (number), #constant)

IS(PUXERDAU_MAX_NODES, 1024);
IS(PUXERDAU_MAX_LINKS, 16384);
IS(PUXERDAU_LIST_MAX_NODES, 128);
IS(PUXERDAU_LIST_MAX_LINKS, 2048);
IS(PUXERDAU_MAX_THRESHOLD, 1024);
IS(PUXERDAU_STARTS_LENGTH, 1025);
IS(PUXERDAU_NEIGHBOURS_LENGTH, 32768);
IS(PUXERDAU_TEXT_LENGTH, 196621);
IS(PUXERDAU_FILE_LENGTH, 196626);
IS(PUXERDAU_LISTING_LENGTH, 146314);
IS(PUXERDAU_FRONT_LENGTH, 393241);

#define LENGTHS_OF(n)                        \
    IS(PUXERDAU_TABLE_LENGTH(n), (n) * (n)); \
    IS(PUXERDAU_HUBS_LENGTH(n), (n));        \
    IS(PUXERDAU_WALK_LENGTH(n), 2 * (n))

LENGTHS_OF(1);
LENGTHS_OF(3 + 4);
LENGTHS_OF(PUXERDAU_MAX_NODES);

/* The refusals in the order of their numbers, the routes, the verdicts, none. */
unsigned header_constant(size_t place)
{
    static const unsigned constants[] = {
        PUXERDAU_FORM, PUXERDAU_NODE_COUNT, PUXERDAU_LINK_COUNT, PUXERDAU_LINE_NODE, PUXERDAU_EQUAL_ENDS, PUXERDAU_REPEATED_LINK,
        PUXERDAU_LINE_COUNT, PUXERDAU_SHORT_LIST, PUXERDAU_NOT_SURVEY, PUXERDAU_NO_NODE, PUXERDAU_NOT_ATTAINED, PUXERDAU_SHORT_BUFFER,
        PUXERDAU_FILE_FORM, PUXERDAU_BAD_THRESHOLD,
        PUXERDAU_ITSELF, PUXERDAU_LOW, PUXERDAU_THROUGH, PUXERDAU_NO_ROUTE, PUXERDAU_LINK,
        PUXERDAU_PARTED, PUXERDAU_LONG, PUXERDAU_SHORT,
        PUXERDAU_NONE,
    };
    return constants[place];
}

#define PART(name) \
    uint64_t header_##name(uint64_t answer) { return puxerdau_##name(answer); }

PART(refusal)
PART(count)
PART(nodes)
PART(links)
PART(report)
PART(route)
PART(hub)
PART(verdict)
PART(searches)
