/* Measures the stack that each call of the library uses, on inputs that need most. A call runs on a stack of its own that was filled with
 * one byte; it used what lies between its caller's frame and the lowest byte that changed. Prints the most that each call used, and fails
 * if one used as much as the header says is enough. */
#define _DEFAULT_SOURCE /* for MAP_ANONYMOUS */
#include "puxerdau.h"
#include <stdio.h>
#include <stdlib.h>
#include <string.h>
#include <sys/mman.h>
#include <ucontext.h>

enum { NODES = PUXERDAU_MAX_NODES, STACK = 1 << 20, GUARD = 4096, FILL = 0xa5 };

#define LENGTH(list) (sizeof(list) / sizeof *(list))

static uint8_t text[PUXERDAU_TEXT_LENGTH + 1], buffer[PUXERDAU_TEXT_LENGTH], listing[PUXERDAU_LISTING_LENGTH];
static uint8_t file[PUXERDAU_FILE_LENGTH];
static size_t text_length, file_length;
static uint32_t starts[PUXERDAU_STARTS_LENGTH];
static uint16_t neighbours[PUXERDAU_NEIGHBOURS_LENGTH];
static uint16_t full[PUXERDAU_TABLE_LENGTH(NODES)], low[PUXERDAU_TABLE_LENGTH(NODES)], report[PUXERDAU_TABLE_LENGTH(NODES)];
static uint16_t hubs[PUXERDAU_HUBS_LENGTH(NODES)], walk[PUXERDAU_WALK_LENGTH(NODES)];
static struct puxerdau_survey survey = {0, starts, LENGTH(starts), neighbours, LENGTH(neighbours)};
static struct puxerdau_tables tables = {0, full, LENGTH(full), low, LENGTH(low), report, LENGTH(report), hubs, LENGTH(hubs)};
static size_t from, to; /* the pair that is asked */

/* By the first all nodes with links are high, and by the second none. What is measured later has the tables by the last. */
static const size_t thresholds[] = {1, PUXERDAU_MAX_THRESHOLD, 0};

static uint64_t call_threshold(void) { return puxerdau_threshold(NODES); }
static uint64_t call_read(void) { return puxerdau_survey_read(&survey, text, text_length); }
static uint64_t call_write(void) { return puxerdau_survey_write(&survey, buffer, LENGTH(buffer)); }
static uint64_t call_import(void) { return puxerdau_survey_import(&survey, file, file_length); }
static uint64_t call_accept(void) { return puxerdau_survey_accept(&survey); }
static uint64_t call_build(void) { return puxerdau_survey_build(&survey, &tables); }
static uint64_t call_ask(void) { return puxerdau_survey_ask(&survey, &tables, from, to); }
static uint64_t call_walk(void) { return puxerdau_survey_walk(&survey, &tables, from, to, walk, LENGTH(walk)); }
static uint64_t call_test(void) { return puxerdau_survey_test(&survey, tables.threshold); }
static uint64_t call_list(void) { return puxerdau_list(text, text_length, listing, LENGTH(listing)); }

static uint64_t call_export(void)
{
    uint64_t exported = puxerdau_survey_export(&survey, file, LENGTH(file));
    file_length = puxerdau_count(exported);
    return exported;
}

struct measured {
    const char *name;
    uint64_t (*call)(void);
    size_t most;
};

/* In an order in which each call finds what it needs. */
static struct measured calls[] = {
    {"threshold", call_threshold, 0}, {"read", call_read, 0},     {"accept", call_accept, 0}, {"write", call_write, 0},
    {"export", call_export, 0},       {"import", call_import, 0}, {"build", call_build, 0},   {"ask", call_ask, 0},
    {"test", call_test, 0},           {"list", call_list, 0},
};
static struct measured link_walk = {"walk by link", call_walk, 0}, low_walk = {"walk by low nodes", call_walk, 0};
static struct measured hub_walk = {"walk through a hub", call_walk, 0};

static void require(int holds, const char *what)
{
    if (!holds) {
        printf("%s\n", what);
        exit(EXIT_FAILURE);
    }
}

static uint8_t *stack; /* STACK bytes */
static ucontext_t here, there;
static uint64_t (*called)(void);
static uint64_t answer;
static const uint8_t *frame;

static void run(void)
{
    frame = __builtin_frame_address(0);
    answer = called();
}

/* A stack above bytes that nothing may touch. */
static void map_stack(void)
{
    uint8_t *memory = mmap(NULL, GUARD + STACK, PROT_NONE, MAP_PRIVATE | MAP_ANONYMOUS, -1, 0);
    require(memory != MAP_FAILED, "no memory");
    stack = memory + GUARD;
    require(mprotect(stack, STACK, PROT_READ | PROT_WRITE) == 0, "no stack");
}

static size_t used(void)
{
    const uint8_t *lowest = stack;
    while (lowest < frame && *lowest == FILL)
        lowest++;
    return (size_t)(frame - lowest);
}

static void measure(struct measured *measured)
{
    memset(stack, FILL, STACK);
    called = measured->call;
    require(getcontext(&there) == 0, "no context");
    there.uc_stack.ss_sp = stack;
    there.uc_stack.ss_size = STACK;
    there.uc_link = &here;
    makecontext(&there, run, 0);
    require(swapcontext(&here, &there) == 0, "no switch to the context");
    if (puxerdau_refusal(answer) != 0) {
        printf("%s: refused %u\n", measured->name, puxerdau_refusal(answer));
        exit(EXIT_FAILURE);
    }
    if (measured->most < used())
        measured->most = used();
}

static void begin_text(unsigned nodes, unsigned links)
{
    text_length = (size_t)sprintf((char *)text, "S,%u,%u\n", nodes, links);
}

static void add_link(unsigned a, unsigned b)
{
    text_length += (size_t)sprintf((char *)text + text_length, "L,%u,%u\n", a, b);
}

/* Measures the walk of the pair that is asked. Answers its route. */
static unsigned measure_walk(void)
{
    unsigned route = puxerdau_route(call_ask());
    measure(route == PUXERDAU_LINK ? &link_walk : route == PUXERDAU_LOW ? &low_walk : &hub_walk);
    require(puxerdau_route(answer) == route, "a walk by another route");
    return route;
}

/* Measures all calls on the text by each threshold, and asks for the given pair. Answers the route of its walk by the last. */
static unsigned measure_calls(size_t a, size_t b)
{
    unsigned route = PUXERDAU_NO_ROUTE;
    from = a;
    to = b;
    for (size_t k = 0; k < LENGTH(thresholds); k++) {
        tables.threshold = thresholds[k];
        for (size_t i = 0; i < LENGTH(calls); i++)
            measure(&calls[i]);
        route = measure_walk();
    }
    return route;
}

/* 1,024 nodes and 16,384 links: 64 high nodes with 256 links each. */
static void measure_largest(void)
{
    begin_text(NODES, PUXERDAU_MAX_LINKS);
    for (unsigned v = 0; v < 64; v++)
        for (unsigned k = 0; k < 256; k++)
            add_link(v, 64 + (15 * v + k) % 960);
    require(measure_calls(0, NODES - 1) == PUXERDAU_THROUGH, "no walk through a hub");
    to = 64 + 255; /* the last neighbour of node 0 */
    require(measure_walk() == PUXERDAU_LINK, "no walk by link");
}

/* A path of 1,024 nodes. Its walk by low nodes has as many steps as a part of a walk can have. */
static void measure_path(void)
{
    begin_text(NODES, NODES - 1);
    for (unsigned v = 1; v < NODES; v++)
        add_link(v - 1, v);
    require(measure_calls(0, NODES - 1) == PUXERDAU_LOW, "no walk by low nodes");
    require(puxerdau_report(answer) == NODES - 1, "another walk along the path");
}

/* The path with altered tables, by which node 0 is a hub: both parts of a walk are as long as they can be. */
static void measure_altered_path(void)
{
    from = NODES - 1;
    to = NODES - 2;
    for (unsigned v = 0; v < NODES; v++)
        full[v] = (uint16_t)v;
    report[from * NODES + to] = (uint16_t)(from + to);
    require(measure_walk() == PUXERDAU_THROUGH, "no walk through the hub");
    require(puxerdau_report(answer) == from + to, "another walk through the hub");
    require(answer == call_ask(), "asking answers otherwise");
}

/* 128 nodes and 2,048 links: the largest listing, and no node is low. */
static void measure_listed(void)
{
    enum { LISTED = PUXERDAU_LIST_MAX_NODES };
    begin_text(LISTED, PUXERDAU_LIST_MAX_LINKS);
    for (unsigned v = 0; v < LISTED; v++)
        for (unsigned k = 1; k <= PUXERDAU_LIST_MAX_LINKS / LISTED; k++)
            add_link(v, (v + k) % LISTED);
    measure_calls(0, LISTED - 1);
    require(listing[0] == 'R', "another listing");
}

static int print(const struct measured *measured)
{
    size_t enough = measured->call == call_list ? PUXERDAU_LIST_STACK_BYTES : PUXERDAU_STACK_BYTES;
    printf("%-20s%8zu bytes of %zu\n", measured->name, measured->most, enough);
    return measured->most < enough;
}

int main(void)
{
    int below = 1;
    map_stack();
    measure_largest();
    measure_path();
    measure_altered_path();
    measure_listed();
    for (size_t i = 0; i < LENGTH(calls); i++)
        below &= print(&calls[i]);
    below &= print(&link_walk);
    below &= print(&low_walk);
    below &= print(&hub_walk);
    printf("%s\n", below ? "each call used less" : "not each call used less");
    return below ? EXIT_SUCCESS : EXIT_FAILURE;
}
