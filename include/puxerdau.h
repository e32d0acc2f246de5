/* Puxerdau: hop reports of a mesh of nodes and links, for C and C++.
 * SPDX-License-Identifier: Apache-2.0
 *
 * The functions are in libpuxerdau.a, whose objects are for x86-64 with the System V ABI and for nothing else. They need memcpy and memset
 * from elsewhere, and use SSE2 registers and the red zone, the 128 bytes below the stack pointer.
 *
 * A list is a pointer and then its count of entries. Every count, threshold, node number and entry is allowed: what does not fit is
 * refused. The caller owes only that each pointer, also of an empty list, is not null and is aligned for its entries; that so many
 * entries stand behind it; that a list which is written overlaps no other list of the call; that no other thread writes to a list of the
 * call, or reads one that is written, until it returns; and that PUXERDAU_STACK_BYTES of stack are free (PUXERDAU_LIST_STACK_BYTES for
 * puxerdau_list).
 *
 * What is known of the functions, and how:
 *  - Proved of their source, on its language's abstract machine: what each answers and what it leaves in every list, also where it refuses;
 *    that it stays within the lists; that it ends (the contracts of crates/archive/src/lib.rt). The lengths below are proved too.
 *  - True of the compiled functions as far as the compiler's back end is right, which is not proved: the same; and that a call allocates
 *    nothing and keeps nothing, so that threads may call at once.
 *  - Compared with a second implementation, on random input: what the compiled functions answer and leave (comparison/compare).
 *  - Measured: the stack (comparison/stack).
 * The declarations, the constants and the inline functions of this file are not proved. examples/run, comparison/stack and
 * comparison/planners use them; comparison/compare checks the constants' numbers and takes every answer apart by the functions below.
 *
 * An answer is one number of 64 bits: `code` of crates/base_answer_codes/specs/Code.antt, taken apart by the functions below. */
#ifndef PUXERDAU_H
#define PUXERDAU_H

#include <stddef.h>
#include <stdint.h>

#ifdef __cplusplus
extern "C" {
#endif

#define PUXERDAU_VERSION_MAJOR 3
#define PUXERDAU_VERSION_MINOR 0
#define PUXERDAU_VERSION_PATCH 0
#define PUXERDAU_QUOTED(x) #x
#define PUXERDAU_DOTTED(a, b, c) PUXERDAU_QUOTED(a) "." PUXERDAU_QUOTED(b) "." PUXERDAU_QUOTED(c)
#define PUXERDAU_VERSION_STRING PUXERDAU_DOTTED(PUXERDAU_VERSION_MAJOR, PUXERDAU_VERSION_MINOR, PUXERDAU_VERSION_PATCH)

/* The most nodes and links of a survey, and of a text that is listed. */
#define PUXERDAU_MAX_NODES 1024
#define PUXERDAU_MAX_LINKS 16384
#define PUXERDAU_LIST_MAX_NODES 128
#define PUXERDAU_LIST_MAX_LINKS 2048
/* The largest threshold. */
#define PUXERDAU_MAX_THRESHOLD 1024

/* Lengths that are always enough, each with the place of its proof. */

/* The lists of a survey: `reading_enough` and `importing_enough` of crates/model/proofs/Sizes.antt. */
#define PUXERDAU_STARTS_LENGTH (PUXERDAU_MAX_NODES + 1)
#define PUXERDAU_NEIGHBOURS_LENGTH (2 * PUXERDAU_MAX_LINKS)
/* Each table of n nodes (2 MiB for 1,024) and the hub list: the contract of puxerdau_build. */
#define PUXERDAU_TABLE_LENGTH(n) ((size_t)(n) * (size_t)(n))
#define PUXERDAU_HUBS_LENGTH(n) ((size_t)(n))
/* The walk list of n nodes: `walking_enough` and `built_enough` of crates/model/proofs/Sizes.antt. */
#define PUXERDAU_WALK_LENGTH(n) (2 * (size_t)(n))
/* The buffer for a survey's text, 196,621 bytes: `writing_enough` of crates/model/proofs/Sizes.antt. */
#define PUXERDAU_TEXT_LENGTH (13 + 12 * PUXERDAU_MAX_LINKS)
/* The buffer for a file, 196,626 bytes: `exporting_enough` of crates/model/proofs/Sizes.antt. */
#define PUXERDAU_FILE_LENGTH (18 + 12 * PUXERDAU_MAX_LINKS)
/* The buffer for a listing, 146,314 bytes: the contract of puxerdau_list. */
#define PUXERDAU_LISTING_LENGTH (10 + 9 * (PUXERDAU_LIST_MAX_NODES * (PUXERDAU_LIST_MAX_NODES - 1)))
/* The front of a text, 393,241 bytes: no later byte changes what reading answers or leaves. `reading_front` of
 * crates/model/proofs/Fronts.antt. */
#define PUXERDAU_FRONT_LENGTH (24 * (PUXERDAU_MAX_LINKS + 1) + 1)

/* Stack that is enough for any call but puxerdau_list, and for puxerdau_list: measured on the archive that the kit `rattle-kit-13f`
 * (`rt version`) makes. The most were 131,416 bytes, by puxerdau_read, and 385,144. */
#define PUXERDAU_STACK_BYTES 196608
#define PUXERDAU_LIST_STACK_BYTES 524288

/* A table entry, or an entry of a list of nodes, that means none. */
#define PUXERDAU_NONE 65535u

/* 0, or why the call was refused. PUXERDAU_BAD_THRESHOLD came with version 3. */
enum puxerdau_refusal_number {
    PUXERDAU_FORM = 1,          /* a survey's text is not in the stated form */
    PUXERDAU_NODE_COUNT = 2,    /* n is outside 1 to 1,024 */
    PUXERDAU_LINK_COUNT = 3,    /* m is above 16,384 */
    PUXERDAU_LINE_NODE = 4,     /* a line names a node of n or more; of a file, 0 or above n */
    PUXERDAU_EQUAL_ENDS = 5,    /* both ends of a line's link are equal */
    PUXERDAU_REPEATED_LINK = 6, /* a line's link was given before; in a file that is allowed */
    PUXERDAU_LINE_COUNT = 7,    /* a survey's text has fewer or more lines than its first line says */
    PUXERDAU_SHORT_LIST = 8,    /* a list is too short */
    PUXERDAU_NOT_SURVEY = 9,    /* the two lists are not a survey's */
    PUXERDAU_NO_NODE = 10,      /* a node is n or more */
    PUXERDAU_NOT_ATTAINED = 11, /* the report is attained by no route, or leads to no walk */
    PUXERDAU_SHORT_BUFFER = 12, /* the buffer is too short */
    PUXERDAU_FILE_FORM = 13,    /* a file is not in the stated form, or a line of it not in its place */
    PUXERDAU_BAD_THRESHOLD = 14 /* the threshold is above 1,024 */
};

/* How a report is attained. PUXERDAU_LINK came with version 2. With PUXERDAU_NO_ROUTE the report is PUXERDAU_NONE. The hub is 0 unless
 * the route is PUXERDAU_THROUGH. */
enum puxerdau_route_kind { PUXERDAU_ITSELF = 0, PUXERDAU_LOW = 1, PUXERDAU_THROUGH = 2, PUXERDAU_NO_ROUTE = 3, PUXERDAU_LINK = 4 };
enum puxerdau_verdict_kind { PUXERDAU_PARTED = 0, PUXERDAU_LONG = 1, PUXERDAU_SHORT = 2 };

/* The parts of an answer. Each is 0 in an answer that was refused, but for the refusal. */
static inline unsigned puxerdau_refusal(uint64_t answer) { return (unsigned)(answer & 65535); }
static inline uint64_t puxerdau_count(uint64_t answer) { return answer >> 16; }            /* threshold, write, export, build, list */
static inline unsigned puxerdau_nodes(uint64_t answer) { return (unsigned)(answer >> 16 & 65535); }    /* read, import */
static inline unsigned puxerdau_links(uint64_t answer) { return (unsigned)(answer >> 32 & 65535); }    /* read, import */
static inline unsigned puxerdau_report(uint64_t answer) { return (unsigned)(answer >> 16 & 65535); }   /* ask, walk */
static inline unsigned puxerdau_route(uint64_t answer) { return (unsigned)(answer >> 32 & 65535); }    /* ask, walk */
static inline unsigned puxerdau_hub(uint64_t answer) { return (unsigned)(answer >> 48); }              /* ask, walk */
static inline unsigned puxerdau_verdict(uint64_t answer) { return (unsigned)(answer >> 16 & 65535); }  /* test */
static inline unsigned puxerdau_searches(uint64_t answer) { return (unsigned)(answer >> 32 & 65535); } /* test */

/* The threshold splits nodes: it is the least degree of a high node, and all others are low. The calls that split nodes (puxerdau_build,
 * puxerdau_walk, puxerdau_test) take it since version 3. 0 means the stored table's for n nodes, which puxerdau_threshold answers and
 * earlier versions always went by. 1 to PUXERDAU_MAX_THRESHOLD are taken as they are, also above n: from n on no node is high and there are
 * no hubs. A larger number is refused 14, straight after 2. */

/* The stored table's threshold for n nodes. Refused 2. */
uint64_t puxerdau_threshold(size_t n);

/* Reads a survey's text. `starts` wants n + 1 entries and `neighbours` 2m. If refused (1 to 8), both lists are all zero; else they are zero
 * past the used entries. Answers nodes and links. */
uint64_t puxerdau_read(const uint8_t *text, size_t text_length, uint32_t *starts, size_t starts_length, uint16_t *neighbours,
                       size_t neighbours_length);

/* Writes a survey's text. If refused (2, 8, 9 or 12), the buffer is as it was; else it is as it was past the text. Answers the
 * text's length as its count. */
uint64_t puxerdau_write(size_t n, const uint32_t *starts, size_t starts_length, const uint16_t *neighbours, size_t neighbours_length,
                        uint8_t *buffer, size_t buffer_length);

/* Reads a file, which is a DIMACS edge file: a line `p edge n m` and m lines `e a b`, nodes numbered from 1, and anywhere comments, which
 * are lines that begin with `c`. A link that is repeated, either way round, is kept once. `starts` wants n + 1 entries and `neighbours` 2m,
 * by the file's m. If refused (2 to 5, 8 or 13), both lists are all zero; else they are zero past the used entries. Answers nodes, and as
 * links those that are kept. A file has no front like PUXERDAU_FRONT_LENGTH, since comments may be of any length: every byte counts. */
uint64_t puxerdau_import(const uint8_t *text, size_t text_length, uint32_t *starts, size_t starts_length, uint16_t *neighbours,
                         size_t neighbours_length);

/* Writes a file, without comments, its links as puxerdau_write orders them. If refused (2, 8, 9 or 12), the buffer is as it was; else it is
 * as it was past the file. Answers the file's length as its count. */
uint64_t puxerdau_export(size_t n, const uint32_t *starts, size_t starts_length, const uint16_t *neighbours, size_t neighbours_length,
                         uint8_t *buffer, size_t buffer_length);

/* Whether the two lists are a survey's. Refused 2, 8 or 9. */
uint64_t puxerdau_accept(size_t n, const uint32_t *starts, size_t starts_length, const uint16_t *neighbours, size_t neighbours_length);

/* Builds the tables by a threshold: n * n entries each, row by row, and n entries of `hubs` (the hubs in the order chosen, then none).
 * Linked nodes have 1 in `report`. If refused (in this order: 2, 14, 8, 9), nothing is altered; else the lists are as they were past those
 * entries. Answers the count of hubs. */
uint64_t puxerdau_build(size_t n, size_t threshold, const uint32_t *starts, size_t starts_length, const uint16_t *neighbours,
                        size_t neighbours_length, uint16_t *full, size_t full_length, uint16_t *low, size_t low_length, uint16_t *report,
                        size_t report_length, uint16_t *hubs, size_t hubs_length);

/* The report of a and b with its route, and the hub if the route goes through one. A report of 1 between different nodes is by
 * PUXERDAU_LINK, whatever the other tables hold. In tables of an earlier version a report stands as it is, also of linked nodes. Refused
 * 2, 8, 10 or 11. */
uint64_t puxerdau_ask(size_t n, const uint16_t *full, size_t full_length, const uint16_t *low, size_t low_length,
                      const uint16_t *report, size_t report_length, size_t a, size_t b);

/* Writes the walk of a and b: report + 1 nodes, then none. By PUXERDAU_LINK these are a and b; where the two lists do not link them it is
 * refused 11. The threshold is that of the tables; with another one that is not refused the walk may be refused 11, and one that is given
 * out is a chain of links of the reported length all the same. If refused (in this order: 2, 14, 8, 9, 10, 11, and 8 for a short `walk`),
 * or with no route, every entry is none. Answers as asking does, if it is not refused. */
uint64_t puxerdau_walk(size_t n, size_t threshold, const uint32_t *starts, size_t starts_length, const uint16_t *neighbours,
                       size_t neighbours_length, const uint16_t *full, size_t full_length, const uint16_t *low, size_t low_length,
                       const uint16_t *report, size_t report_length, size_t a, size_t b, uint16_t *walk, size_t walk_length);

/* The two-or-four test by a threshold. Refused, in this order, 2, 14, 8 or 9. Answers the verdict and the count of searches. */
uint64_t puxerdau_test(size_t n, size_t threshold, const uint32_t *starts, size_t starts_length, const uint16_t *neighbours,
                       size_t neighbours_length);

/* Writes the listing of a survey's text: the lines that the program `reports` prints. A text that is refused, 2 and 3 by the limits of a
 * listing, has the listing `X,` and the refusal's number. The call itself is refused only 12, and the buffer is as it was; else it is as
 * it was past the listing. Answers the listing's length as its count. */
uint64_t puxerdau_list(const uint8_t *text, size_t text_length, uint8_t *buffer, size_t buffer_length);

/* The functions above again, with their lists in two structs. The caller lends every list that a struct points to; for lists in read-only
 * memory there are the functions above. */

/* A survey of n nodes. */
struct puxerdau_survey {
    size_t n;
    uint32_t *starts;
    size_t starts_length;
    uint16_t *neighbours;
    size_t neighbours_length;
};

/* Its tables and its hub list. The caller sets the threshold before building, which splits nodes by it; a walk is then given the same. */
struct puxerdau_tables {
    size_t threshold; /* 0 for the stored table's */
    uint16_t *full;
    size_t full_length;
    uint16_t *low;
    size_t low_length;
    uint16_t *report;
    size_t report_length;
    uint16_t *hubs;
    size_t hubs_length;
};

/* Sets n too: to 0 where it is refused, so that later calls are refused 2. */
static inline uint64_t puxerdau_survey_read(struct puxerdau_survey *survey, const uint8_t *text, size_t text_length)
{
    uint64_t answer = puxerdau_read(text, text_length, survey->starts, survey->starts_length, survey->neighbours,
                                    survey->neighbours_length);
    survey->n = puxerdau_refusal(answer) == 0 ? puxerdau_nodes(answer) : 0;
    return answer;
}

static inline uint64_t puxerdau_survey_write(const struct puxerdau_survey *survey, uint8_t *buffer, size_t buffer_length)
{
    return puxerdau_write(survey->n, survey->starts, survey->starts_length, survey->neighbours, survey->neighbours_length, buffer,
                          buffer_length);
}

/* Sets n as puxerdau_survey_read does. */
static inline uint64_t puxerdau_survey_import(struct puxerdau_survey *survey, const uint8_t *text, size_t text_length)
{
    uint64_t answer = puxerdau_import(text, text_length, survey->starts, survey->starts_length, survey->neighbours,
                                      survey->neighbours_length);
    survey->n = puxerdau_refusal(answer) == 0 ? puxerdau_nodes(answer) : 0;
    return answer;
}

static inline uint64_t puxerdau_survey_export(const struct puxerdau_survey *survey, uint8_t *buffer, size_t buffer_length)
{
    return puxerdau_export(survey->n, survey->starts, survey->starts_length, survey->neighbours, survey->neighbours_length, buffer,
                           buffer_length);
}

static inline uint64_t puxerdau_survey_accept(const struct puxerdau_survey *survey)
{
    return puxerdau_accept(survey->n, survey->starts, survey->starts_length, survey->neighbours, survey->neighbours_length);
}

static inline uint64_t puxerdau_survey_build(const struct puxerdau_survey *survey, const struct puxerdau_tables *tables)
{
    return puxerdau_build(survey->n, tables->threshold, survey->starts, survey->starts_length, survey->neighbours,
                          survey->neighbours_length, tables->full, tables->full_length, tables->low, tables->low_length, tables->report,
                          tables->report_length, tables->hubs, tables->hubs_length);
}

static inline uint64_t puxerdau_survey_ask(const struct puxerdau_survey *survey, const struct puxerdau_tables *tables, size_t a, size_t b)
{
    return puxerdau_ask(survey->n, tables->full, tables->full_length, tables->low, tables->low_length, tables->report,
                        tables->report_length, a, b);
}

static inline uint64_t puxerdau_survey_walk(const struct puxerdau_survey *survey, const struct puxerdau_tables *tables, size_t a, size_t b,
                                            uint16_t *walk, size_t walk_length)
{
    return puxerdau_walk(survey->n, tables->threshold, survey->starts, survey->starts_length, survey->neighbours,
                         survey->neighbours_length, tables->full, tables->full_length, tables->low, tables->low_length, tables->report,
                         tables->report_length, a, b, walk, walk_length);
}

static inline uint64_t puxerdau_survey_test(const struct puxerdau_survey *survey, size_t threshold)
{
    return puxerdau_test(survey->n, threshold, survey->starts, survey->starts_length, survey->neighbours, survey->neighbours_length);
}

#ifdef __cplusplus
}
#endif

#endif
