/* Reads a survey from standard input, builds its tables, reports on the pairs of nodes that the arguments name, with their walks, runs
 * the two-or-four test, and writes the survey back. With the argument `file` before the pairs, the survey is read from a DIMACS edge file
 * and written as one; the pairs are numbered from 0 as ever. With `by` and a number before the pairs, that is the threshold; else, and with
 * 0, it is the stored table's. */
#include "puxerdau.h"
#include <stdio.h>
#include <stdlib.h>
#include <string.h>

enum { NODES = PUXERDAU_MAX_NODES };

static uint8_t text[PUXERDAU_FRONT_LENGTH], written[PUXERDAU_TEXT_LENGTH], exported[PUXERDAU_FILE_LENGTH];
static uint32_t starts[PUXERDAU_STARTS_LENGTH];
static uint16_t neighbours[PUXERDAU_NEIGHBOURS_LENGTH];
static uint16_t full[PUXERDAU_TABLE_LENGTH(NODES)], low[PUXERDAU_TABLE_LENGTH(NODES)], report[PUXERDAU_TABLE_LENGTH(NODES)];
static uint16_t hubs[PUXERDAU_HUBS_LENGTH(NODES)], walk[PUXERDAU_WALK_LENGTH(NODES)];

#define LENGTH(list) (sizeof(list) / sizeof *(list))

static struct puxerdau_survey survey = {0, starts, LENGTH(starts), neighbours, LENGTH(neighbours)};
static struct puxerdau_tables tables = {0, full, LENGTH(full), low, LENGTH(low), report, LENGTH(report), hubs, LENGTH(hubs)};

/* Whether a call was refused, which is printed. */
static int refused(const char *call, uint64_t answer)
{
    if (puxerdau_refusal(answer) == 0)
        return 0;
    printf("%s: refused %u\n", call, puxerdau_refusal(answer));
    return 1;
}

static void print_count(unsigned count, const char *one, const char *more) { printf("%u %s", count, count == 1 ? one : more); }

static void print_walk(size_t a, size_t b)
{
    uint64_t answer = puxerdau_survey_walk(&survey, &tables, a, b, walk, LENGTH(walk));
    if (refused("walk", answer))
        return;
    printf("walk of %zu and %zu:", a, b);
    for (size_t i = 0; i <= puxerdau_report(answer); i++)
        printf(" %u", walk[i]);
    printf("\n");
}

static void print_route(uint64_t answer)
{
    switch (puxerdau_route(answer)) {
    case PUXERDAU_LINK:
        printf(" by link");
        break;
    case PUXERDAU_LOW:
        printf(" by low nodes");
        break;
    case PUXERDAU_THROUGH:
        printf(" through hub %u", puxerdau_hub(answer));
        break;
    }
}

static void print_pair(size_t a, size_t b)
{
    uint64_t answer = puxerdau_survey_ask(&survey, &tables, a, b);
    if (refused("ask", answer))
        return;
    if (puxerdau_route(answer) == PUXERDAU_NO_ROUTE) {
        printf("%zu and %zu: no route\n", a, b);
        return;
    }
    printf("%zu and %zu: report %u", a, b, puxerdau_report(answer));
    print_route(answer);
    printf("\n");
    print_walk(a, b);
}

static int is_number(const char *word) { return *word != '\0' && word[strspn(word, "0123456789")] == '\0'; }

/* A number that is too large for strtoul becomes the largest, which is no node and no threshold either. */
static size_t number(const char *word) { return strtoul(word, NULL, 10); }

/* Whether every word is a number, and there are two for each pair. */
static int are_pairs(int count, char **words)
{
    for (int i = 0; i < count; i++)
        if (!is_number(words[i]))
            return 0;
    return count % 2 == 0;
}

/* The survey on standard input, as a text or as a file. */
static int read_survey(int is_file)
{
    size_t length = fread(text, 1, sizeof text, stdin);
    if (ferror(stdin)) {
        perror("standard input");
        return 0;
    }
    /* of a text no later byte matters */
    if (is_file && length == sizeof text) {
        fprintf(stderr, "the file has %zu bytes or more\n", length);
        return 0;
    }
    uint64_t answer = is_file ? puxerdau_survey_import(&survey, text, length) : puxerdau_survey_read(&survey, text, length);
    if (refused(is_file ? "import" : "read", answer))
        return 0;
    print_count(puxerdau_nodes(answer), "node", "nodes");
    printf(", ");
    print_count(puxerdau_links(answer), "link", "links");
    printf("\n");
    return 1;
}

static int write_survey(int is_file)
{
    uint64_t answer = is_file ? puxerdau_survey_export(&survey, exported, sizeof exported)
                              : puxerdau_survey_write(&survey, written, sizeof written);
    if (refused(is_file ? "export" : "write", answer))
        return 0;
    fwrite(is_file ? exported : written, 1, puxerdau_count(answer), stdout);
    return 1;
}

int main(int count, char **words)
{
    static const char *const verdicts[] = {[PUXERDAU_PARTED] = "parted", [PUXERDAU_LONG] = "long", [PUXERDAU_SHORT] = "short"};
    int is_file = count > 1 && strcmp(words[1], "file") == 0;
    int first = is_file ? 2 : 1;
    if (count > first + 1 && strcmp(words[first], "by") == 0 && is_number(words[first + 1])) {
        tables.threshold = number(words[first + 1]);
        first += 2;
    }
    if (!are_pairs(count - first, words + first)) {
        fprintf(stderr, "usage: survey [file] [by THRESHOLD] [NODE NODE].. < SURVEY\n");
        return 2;
    }
    if (!read_survey(is_file))
        return 1;

    uint64_t answer = puxerdau_survey_build(&survey, &tables);
    if (refused("build", answer))
        return 1;
    printf("hubs:");
    for (size_t i = 0; i < puxerdau_count(answer); i++)
        printf(" %u", hubs[i]);
    printf("\n");

    for (int i = first; i + 1 < count; i += 2)
        print_pair(number(words[i]), number(words[i + 1]));

    answer = puxerdau_survey_test(&survey, tables.threshold);
    if (refused("test", answer))
        return 1;
    printf("%s after ", verdicts[puxerdau_verdict(answer)]);
    print_count(puxerdau_searches(answer), "search", "searches");
    printf("\n");

    return write_survey(is_file) ? 0 : 1;
}
