/* bench.c - times, stack and size of the library beside the reference, in one run: ns a step by group of commands, us a
 * load, ns a write, stack of each function, bytes of each archive. Buffers are warm; in each row a round of the library
 * and one of the reference take turns, so that a machine that slows down slows both, and each figure is the best of its
 * rounds. Usage: bench [--rounds N] [LIBRARY_ARCHIVE REFERENCE_ARCHIVE]
 *        bench --rows          the names of the steps and loads
 *        bench --once ROW      does the calls of that row once, by the library, and prints how many; for host/count.sh
 * The worst load is looked for among worst.img of the host folder or of host/port, if it is there, and images that are
 * made here; to be counted, each of these has a row of its own in --rows.
 */
#define _GNU_SOURCE
#include <pthread.h>
#include <stdio.h>
#include <stdlib.h>
#include <string.h>
#include <sys/mman.h>
#include <sys/stat.h>
#include <time.h>

#include "beside.h"
#include "bias.h"
#include "reference.h"

/* Goals of the design. */
#define GOAL_STEP_NS 2000.0
#define GOAL_STRAIGHT_LOAD_US 1000.0
#define GOAL_ANY_LOAD_US 100000.0
#define GOAL_STEP_RATIO 1.05 /* not slower, but for what a clock can't tell */
#define GOAL_LOAD_RATIO 3.0
#define GOAL_STACK 16384u

enum { DEFAULT_ROUNDS = 9, STEPS_A_ROUND = 10000, LOADS_A_ROUND = 10, WRITES_A_ROUND = 2000, MOST_ROW = 12, SIDES = 2 };
/* Blocks before a circle's jump back; ten rounds of most circles. */
enum { CIRCLE = 60, STEPS_ONCE = 10 * (CIRCLE + 1), PATH_ROOM = 4096 };

typedef struct {
    const char *name;
    bias_verdict (*load)(const uint8_t *, size_t, uint8_t *, size_t, uint8_t *, size_t);
    bias_answer (*step)(const uint8_t *, size_t, uint8_t *, size_t, uint32_t, const uint8_t *, size_t, uint8_t, uint8_t,
                        uint8_t);
    bias_verdict (*write)(uint32_t, uint32_t, uint32_t, uint32_t, uint32_t, uint32_t, const uint8_t *, size_t, uint8_t *,
                          size_t);
    bias_verdict (*write_landings)(uint32_t, uint32_t, uint32_t, uint32_t, uint32_t, uint32_t, const uint8_t *, size_t,
                                   const uint8_t *, size_t, uint8_t *, size_t);
} side;

static const side sides[SIDES] = {
    {"library", bias_load, bias_step, bias_write, bias_write_landings},
    {"reference", reference_load, reference_step, reference_write, reference_write_landings},
};

typedef uint8_t block[BIAS_BLOCK_LENGTH];

/* A program being made, and what is lent. */
static block blocks[BIAS_MOST_BLOCKS];
static uint32_t count;
static uint8_t landings[2 * BIAS_MOST_LANDINGS];
static size_t landings_len;
static uint8_t image[BIAS_MOST_IMAGE_LENGTH];
static size_t image_len;
static uint8_t marks[BIAS_MARKS_LENGTH];
static uint8_t state[BIAS_STATE_LENGTH];
static uint8_t inputs[BIAS_INPUTS_LENGTH];
static int rounds = DEFAULT_ROUNDS;
static uint32_t answers; /* so that no call is left out */

/* What is asked for: times, the rows' names, or one row's calls once. */
typedef enum { TIMES, ROWS, ONCE } purpose;
static purpose asked = TIMES;
static const char *wanted_row;
static int row_found;

static double now(void)
{
    struct timespec time;
    clock_gettime(CLOCK_MONOTONIC, &time);
    return (double)time.tv_sec * 1e9 + (double)time.tv_nsec;
}

/* ---- timing ---- */

/* Does so many calls by one side. */
typedef void (*calling)(const side *, const void *, int);

/* ns a call, for each side: their rounds take turns. */
static void time_calls(calling call, const void *what, int calls, double *figures)
{
    for (int at = 0; at < SIDES; at++)
        figures[at] = 1e18;
    for (int turn = 0; turn < SIDES * rounds; turn++) {
        const int at = turn % SIDES;
        const double begun = now();
        call(&sides[at], what, calls);
        const double taken = (now() - begun) / calls;
        if (taken < figures[at])
            figures[at] = taken;
    }
}

/* ---- programs ---- */

static void put(uint32_t at, uint8_t code, uint8_t d1, uint8_t d2, uint8_t d3)
{
    memset(blocks[at], 0, sizeof(block));
    blocks[at][0] = code;
    blocks[at][1] = d1;
    blocks[at][2] = d2;
    blocks[at][3] = d3;
}

static void put_jump(uint32_t at, uint8_t code, uint32_t to)
{
    put(at, code, (uint8_t)(to % 256), (uint8_t)(to / 256), 0);
}

/* 89: if variable 0 is less than variable 1, which it never is. */
static void put_branch(uint32_t at, uint32_t to)
{
    put(at, 0x89, 0, 1, 1);
    blocks[at][4] = (uint8_t)(to % 256);
    blocks[at][5] = (uint8_t)(to / 256);
}

static void use_image(bias_verdict verdict)
{
    if (verdict.number != BIAS_SUCCESS)
        exit(2);
    image_len = (size_t)verdict.place;
}

static void make_image(uint32_t type)
{
    use_image(reference_write(BIAS_FORMAT, type, 0, 0, 0, count, &blocks[0][0], sizeof(block) * count, image,
                              sizeof image));
}

static void make_plain_image(void)
{
    make_image(BIAS_TYPE_637);
}

/* The same with the landing blocks. */
static void make_listed_image(void)
{
    use_image(reference_write_landings(BIAS_FORMAT_LANDINGS, BIAS_TYPE_637, 0, 0, 0, count, landings, landings_len,
                                       &blocks[0][0], sizeof(block) * count, image, sizeof image));
}

/* So many landing blocks, from the first one on in equal steps. */
static void put_landings(uint32_t number, uint32_t first, uint32_t apart)
{
    for (uint32_t at = 0; at < number; at++) {
        landings[2 * at] = (uint8_t)((first + at * apart) % 256);
        landings[2 * at + 1] = (uint8_t)((first + at * apart) / 256);
    }
    landings_len = 2 * number;
}

/* ---- printing ---- */

static void print_head(const char *what, const char *unit)
{
    if (asked != TIMES)
        return;
    printf("\n%-44s %12s %12s %8s   (%s)\n", what, sides[0].name, sides[1].name, "ratio", unit);
}

static void print_row(const char *what, const double *figures)
{
    printf("%-44s %12.1f %12.1f %8.2f\n", what, figures[0], figures[1], figures[0] / figures[1]);
}

static void print_goal(const char *what, int met)
{
    printf("goal: %-60s %s\n", what, met ? "met" : "MISSED");
}

/* ---- steps ---- */

/* A group of commands: blocks that are run in a circle. */
typedef struct {
    const char *name;
    uint32_t rows;
    block row[MOST_ROW];
} group;

static const group groups[] = {
    {"NOP 50", 1, {{0x50}}},
    {"jump 55", 1, {{0x55, 1, 0}}},
    {"flags 60 62 65 66 67 68", 6,
     {{0x60, 1, 1}, {0x62, 2, 1}, {0x65, 3, 1, 2}, {0x66, 4, 1, 2}, {0x67, 5, 1, 2}, {0x68, 6, 1}}},
    {"flag jump 61", 1, {{0x61, 1, 0, 1, 0, 0}}},
    {"bit jump 6E", 1, {{0x6E, 1, 3, 1, 0, 0}}},
    {"pins 63 64 72 73", 4, {{0x63, 1, 11}, {0x64, 2, 12}, {0x72, 12, 1}, {0x73, 13, 1}}},
    {"pin jumps 70 71", 2, {{0x70, 11, 0, 1, 0, 0}, {0x71, 12, 0, 1, 0, 0}}},
    {"variables and constants 80 82 83 84 85", 5,
     {{0x80, 0, 9}, {0x82, 1, 0, 3}, {0x83, 1, 1, 3}, {0x84, 2, 1, 7}, {0x85, 3, 2, 5}}},
    {"variables 88 8A 8B 8C 8D", 6,
     {{0x80, 0, 9}, {0x88, 1, 0}, {0x8A, 2, 1, 0}, {0x8B, 3, 2, 1}, {0x8C, 4, 2, 1}, {0x8D, 5, 4, 0}}},
    {"variable jumps 81 89", 2, {{0x81, 0, 1, 0, 0, 0, 0x10, 0}, {0x89, 0, 0, 1, 0, 0}}},
    {"32 flags as bits 86", 1, {{0x86, 0, 0, 32}}},
    {"moves 0E 00 0E 01 0E 03 0E 04", 8, {{0x0E}, {0x00}, {0x0E}, {0x01}, {0x0E}, {0x03}, {0x0E}, {0x04}}},
    {"stops 0F 1F", 2, {{0x0F, 1}, {0x1F, 1, 10, 0}}},
    {"parameters 20 21 22 23", 4, {{0x20, 1, 2, 3, 4}, {0x21, 9}, {0x22, 9}, {0x23, 9}}},
    {"parameters from variables 30 31 32 33", 5, {{0x80, 0, 9}, {0x30, 0}, {0x31, 0}, {0x32, 0}, {0x33, 0}}},
    {"parameters read 40 41 42 43", 4, {{0x40, 0}, {0x41, 1}, {0x42, 2}, {0x43, 3}}},
    {"move that waits for a start 00", 1, {{0x00}}},
    {"wait for position reached 58", 1, {{0x58}}},
    {"wait 59", 1, {{0x59, 0xFF, 0xFF}}},
};

/* The group's blocks, repeated, with a jump back at the end; a jump 55 goes to the block behind it. */
static void make_circle(const group *g)
{
    for (count = 0; count < CIRCLE; count++) {
        memcpy(blocks[count], g->row[count % g->rows], sizeof(block));
        if (blocks[count][0] == 0x55)
            put_jump(count, 0x55, count + 1);
    }
    put_jump(count++, 0x55, 0);
    make_image(BIAS_TYPE_637);
}

/* A circle of a call to a return, or of returns to the start, or of starts of the PLC. */
static void make_control(uint8_t code)
{
    for (count = 0; count < CIRCLE; count++)
        put_jump(count, code, code == 0x51 ? 0 : CIRCLE + 1);
    put_jump(count++, 0x55, 0);
    put(count++, code == 0x52 ? 0x53 : 0x51, 0, 0, 0);
    make_image(BIAS_TYPE_637);
}

/* A jump by a variable to itself, at the last of so many landing blocks. */
static void make_jumps(uint32_t number)
{
    put(0, 0x80, 0, (uint8_t)number, 0);
    for (count = 1; count < number; count++)
        put_jump(count, 0x55, number);
    put(count++, 0x56, 0, 0, 0);
    put_landings(number, 1, 1);
    make_listed_image();
}

/* BIAS starts the PLC, which in a circle starts BIAS anew by a variable, at the last of the landing blocks. */
static void make_pointers(void)
{
    count = 0;
    put_jump(count++, 0x54, 2);
    put_jump(count++, 0x55, 1);
    put(count++, 0x80, 0, CIRCLE + BIAS_MOST_LANDINGS, 0);
    while (count < CIRCLE)
        put(count++, 0x5B, 0, 0, 0);
    put_jump(count++, 0x55, 3);
    while (count <= CIRCLE + BIAS_MOST_LANDINGS)
        put(count++, 0x51, 1, 0, 0);
    put_landings(BIAS_MOST_LANDINGS, CIRCLE + 1, 1);
    make_listed_image();
}

/* Steps of one task from a state on. */
typedef struct {
    const uint8_t *begin;
    uint32_t task;
} stepping;

static void do_steps(const side *s, const void *what, int steps)
{
    const stepping *from = what;
    memcpy(state, from->begin, sizeof state);
    for (int step = 0; step < steps; step++)
        answers += s->step(image, image_len, state, sizeof state, from->task, inputs, sizeof inputs, 0, 0, 0).number;
}

/* What to do with a row now: TIMES to time it, ONCE to do its calls once, ROWS for nothing more. Prints its name where
 * names are asked for. */
static purpose begin_row(const char *name)
{
    if (asked == ROWS)
        printf("%s\n", name);
    if (asked != ONCE)
        return asked;
    if (strcmp(name, wanted_row) != 0)
        return ROWS;
    row_found = 1;
    return ONCE;
}

/* Begins a row: does its calls once if they are asked for; gives whether it is to be timed. */
static int timed_row(const char *name, calling call, const void *what, int calls)
{
    const purpose now_asked = begin_row(name);
    if (now_asked == ONCE) {
        call(&sides[0], what, calls);
        printf("%d\n", calls);
    }
    return now_asked == TIMES;
}

/* The slowest group, and all groups together, for the goals. */
static double slowest_step, all_steps[SIDES];

static void bench_steps(const char *name, const uint8_t *begin, uint32_t task)
{
    double figures[SIDES];
    const stepping from = {begin, task};
    if (!timed_row(name, do_steps, &from, STEPS_ONCE))
        return;
    time_calls(do_steps, &from, STEPS_A_ROUND, figures);
    print_row(name, figures);
    if (figures[0] > slowest_step)
        slowest_step = figures[0];
    for (int at = 0; at < SIDES; at++)
        all_steps[at] += figures[at];
}

static void load_begin(uint8_t *begin)
{
    bias_verdict verdict = reference_load(image, image_len, marks, sizeof marks, begin, BIAS_STATE_LENGTH);
    if (verdict.number != BIAS_SUCCESS) {
        printf("a bench program is refused by %u at %u\n", (unsigned)verdict.number, (unsigned)verdict.place);
        exit(2);
    }
}

/* A program of two blocks: a variable is set, then it jumps back. */
static void make_pair(void)
{
    count = 0;
    put(count++, 0x80, 0, 9, 0);
    put_jump(count++, 0x55, 0);
}

/* Jumps by a variable, and starts of BIAS by one; for these BIAS has started the PLC. */
static void bench_jumps(void)
{
    uint8_t begin[BIAS_STATE_LENGTH];
    make_jumps(1);
    load_begin(begin);
    bench_steps("jump by a variable 56, 1 landing block", begin, BIAS_TASK_BIAS);
    make_jumps(BIAS_MOST_LANDINGS);
    load_begin(begin);
    bench_steps("jump by a variable 56, 64 landing blocks", begin, BIAS_TASK_BIAS);
    make_pointers();
    load_begin(begin);
    reference_step(image, image_len, begin, sizeof begin, BIAS_TASK_BIAS, inputs, sizeof inputs, 0, 0, 0);
    bench_steps("start of BIAS by a variable 5B", begin, BIAS_TASK_PLC);
}

static void bench_all_steps(void)
{
    uint8_t begin[BIAS_STATE_LENGTH];
    print_head("a step", "ns");
    make_pair();
    make_image(BIAS_TYPE_637);
    load_begin(begin);
    bench_steps("a step (80, 55)", begin, BIAS_TASK_BIAS);
    for (size_t at = 0; at < sizeof groups / sizeof groups[0]; at++) {
        make_circle(&groups[at]);
        load_begin(begin);
        bench_steps(groups[at].name, begin, BIAS_TASK_BIAS);
    }
    make_control(0x52);
    load_begin(begin);
    bench_steps("call and return 52 53", begin, BIAS_TASK_BIAS);
    make_control(0x51);
    load_begin(begin);
    bench_steps("return to the start 51", begin, BIAS_TASK_BIAS);
    make_control(0x54);
    load_begin(begin);
    bench_steps("start of the PLC 54", begin, BIAS_TASK_BIAS);
    bench_jumps();
    make_control(0x54);
    load_begin(begin);
    bench_steps("refused by 18", begin, BIAS_TASK_PLC);
    bench_steps("refused by 15", begin, 3);
    begin[BIAS_STATE_LENGTH - 1] = 1;
    bench_steps("refused by 16, last byte", begin, BIAS_TASK_BIAS);
    begin[BIAS_STATE_LENGTH - 1] = 0;
    image_len--;
    bench_steps("refused by 17, another length", begin, BIAS_TASK_BIAS);
    if (asked == TIMES)
        print_row("all of these together", all_steps);
}

/* ---- loads ---- */

static uint32_t random_state = 637;

static uint32_t next_random(void)
{
    random_state = random_state * 1664525u + 1013904223u;
    return random_state >> 8;
}

/* One block: what a load costs whatever the length of the program. */
static void make_one(void)
{
    count = 0;
    put_jump(count++, 0x55, 0);
}

static void make_straight(void)
{
    for (count = 0; count < BIAS_MOST_BLOCKS - 1; count++)
        put(count, 0x50, 0, 0, 0);
    put_jump(count++, 0x55, 0);
}

static void make_branches(void)
{
    for (count = 0; count < BIAS_MOST_BLOCKS - 1; count++)
        put_branch(count, next_random() % BIAS_MOST_BLOCKS);
    put_jump(count++, 0x55, 0);
}

/* A ladder of calls that leads to a block at every depth, begun by the PLC and mathematics, which blocks 0 and 1 start. */
enum { LADDER_LENGTH = 2 * (BIAS_MOST_DEPTH + 1) };

static void put_ladder(uint32_t ladder, uint32_t entry)
{
    put_jump(0, 0x54, ladder);
    put_jump(1, 0x90, ladder);
    for (uint32_t depth = 0; depth <= BIAS_MOST_DEPTH; depth++) {
        const uint32_t at = ladder + 2 * depth;
        if (depth < BIAS_MOST_DEPTH)
            put_jump(at, 0x52, at + 2);
        else
            put(at, 0x50, 0, 0, 0);
        put_jump(at + 1, 0x55, entry);
    }
    count = BIAS_MOST_BLOCKS;
}

/* BIAS, too, comes to the ladder, at block 2, and so to the common part at every depth. Gives the common part's first
 * block. */
static uint32_t make_ladder(uint32_t entry_from_end)
{
    const uint32_t ladder = 2, common = ladder + LADDER_LENGTH;
    /* 54 and 90 are reached by BIAS alone, so PLC and mathematics begin at the ladder. */
    put_ladder(ladder, entry_from_end ? BIAS_MOST_BLOCKS - 1 : common);
    return common;
}

static void make_calls(void)
{
    const uint32_t common = make_ladder(0);
    for (uint32_t at = common; at < BIAS_MOST_BLOCKS - 1; at++)
        put(at, 0x50, 0, 0, 0);
    put_jump(BIAS_MOST_BLOCKS - 1, 0x55, common);
}

static void make_backwards(void)
{
    const uint32_t common = make_ladder(1);
    for (uint32_t at = common; at < BIAS_MOST_BLOCKS; at++)
        put_jump(at, 0x55, at == common ? at : at - 1);
}

/* Lowest, highest, next lowest, next highest and so on. */
static void make_zigzag(void)
{
    const uint32_t common = make_ladder(0);
    uint32_t low = common, high = BIAS_MOST_BLOCKS - 1;
    while (low < high) {
        put_jump(low, 0x55, high);
        low++;
        put_jump(high, 0x55, low);
        high--;
    }
    put_jump(low, 0x55, low);
}

/* Blocks in random order, the first one first. */
static void shuffle(uint32_t *order, uint32_t first, uint32_t length)
{
    for (uint32_t at = 0; at < length; at++)
        order[at] = first + at;
    for (uint32_t at = length - 1; at > 1; at--) {
        const uint32_t other = 1 + next_random() % at, kept = order[at];
        order[at] = order[other];
        order[other] = kept;
    }
}

/* One chain through all blocks in random order. */
static void make_shuffled(void)
{
    static uint32_t order[BIAS_MOST_BLOCKS];
    const uint32_t common = make_ladder(0), length = BIAS_MOST_BLOCKS - common;
    shuffle(order, common, length);
    for (uint32_t at = 0; at < length; at++)
        put_jump(order[at], 0x55, order[at + 1 < length ? at + 1 : at]);
}

/* Each block may go to the next one and back to one that is not yet seen: zigzag with both ways open. */
static void make_both_ways(void)
{
    const uint32_t common = make_ladder(1);
    for (uint32_t at = common; at < BIAS_MOST_BLOCKS - 1; at++)
        put_branch(at, at > common + 1 ? at - 2 : common);
    put_branch(BIAS_MOST_BLOCKS - 2, BIAS_MOST_BLOCKS - 4);
    put_jump(BIAS_MOST_BLOCKS - 1, 0x55, BIAS_MOST_BLOCKS - 2);
}

/* As many landing blocks as there may be, over all blocks from one on; gives how far apart. */
static uint32_t spread_landings(uint32_t first)
{
    const uint32_t apart = (BIAS_MOST_BLOCKS - first) / BIAS_MOST_LANDINGS;
    put_landings(BIAS_MOST_LANDINGS, first, apart);
    return apart;
}

/* All blocks at all depths in three tasks: from each landing block on to a jump by a variable, which leads to all of
 * them. */
static void make_landings(void)
{
    const uint32_t common = make_ladder(0), apart = spread_landings(common);
    for (uint32_t at = common; at < BIAS_MOST_BLOCKS; at++)
        put(at, (at - common) % apart == apart - 1 || at + 1 == BIAS_MOST_BLOCKS ? 0x56 : 0x50, 0, 0, 0);
}

/* Starts of BIAS by a variable, at all depths of the two other tasks; BIAS jumps by one from each landing block. */
static void make_landed(void)
{
    enum { LADDER = 3, FIRST = LADDER + LADDER_LENGTH, COMMON = FIRST + BIAS_MOST_LANDINGS };
    put_ladder(LADDER, COMMON);
    put_jump(LADDER - 1, 0x55, LADDER - 1);
    for (uint32_t at = FIRST; at < BIAS_MOST_BLOCKS - 1; at++)
        put(at, at < COMMON ? 0x56 : 0x5B, 0, 0, 0);
    put_jump(BIAS_MOST_BLOCKS - 1, 0x55, COMMON);
    put_landings(BIAS_MOST_LANDINGS, FIRST, 1);
}

/* ---- hard images: what makes a search go far, by a seed ---- */

/* Branches and jumps from anywhere to anywhere, at all depths in three tasks. */
static void make_random(void)
{
    const uint32_t common = make_ladder(0);
    for (uint32_t at = common; at < BIAS_MOST_BLOCKS; at++) {
        const uint32_t to = common + next_random() % (BIAS_MOST_BLOCKS - common);
        if (at + 1 < BIAS_MOST_BLOCKS && next_random() % 4 != 0)
            put_branch(at, to);
        else
            put_jump(at, 0x55, to);
    }
}

/* The same with jumps by a variable among them. */
static void make_random_landings(void)
{
    make_random();
    spread_landings(2 + LADDER_LENGTH);
    for (uint32_t at = 2 + LADDER_LENGTH; at < BIAS_MOST_BLOCKS; at++)
        if (next_random() % 8 == 0)
            put(at, 0x56, 0, 0, 0);
}

/* Each block of the lower half may go to one near the far end, which leads back behind it. */
static void make_far_and_back(void)
{
    uint32_t low = make_ladder(0), high = BIAS_MOST_BLOCKS - 1;
    for (; low <= high; low++, high--) {
        put_branch(low, high - next_random() % 8);
        put_jump(high, 0x55, low + 1);
    }
}

/* A chain through all blocks in random order, whose end calls its beginning: each task goes over it once for each depth
 * in turn. Refused by 10 in the end. */
static void make_waves(void)
{
    static uint32_t order[BIAS_MOST_BLOCKS];
    const uint32_t first = 2, length = BIAS_MOST_BLOCKS - 1 - first;
    shuffle(order, first, length);
    put_jump(0, 0x54, first);
    put_jump(1, 0x90, first);
    for (uint32_t at = 0; at + 1 < length; at++)
        put_jump(order[at], 0x55, order[at + 1]);
    put_jump(order[length - 1], 0x52, first);
    put_jump(BIAS_MOST_BLOCKS - 1, 0x55, first);
    count = BIAS_MOST_BLOCKS;
}

static const struct {
    const char *name;
    void (*make)(void), (*write)(void);
} hard_images[] = {
    {"random", make_random, make_plain_image}, {"far and back", make_far_and_back, make_plain_image},
    {"shuffled", make_shuffled, make_plain_image}, {"waves", make_waves, make_plain_image},
    {"random landings", make_random_landings, make_listed_image},
};

/* Some of each kind, and behind them one that somebody may have found. */
enum { SEEDS = 3, MADE = SEEDS * (int)(sizeof hard_images / sizeof hard_images[0]), HARD_IMAGES = MADE + 1 };
enum { NAME_ROOM = 64 };
#define WORST_ROW "load, worst found"

/* Where that one may be, seen from the host folder; host/port/climb.sh puts it there. */
static const char *const worst_files[] = {"worst.img", "port/worst.img"};

/* Reads it; gives its name, or NULL where there is none. */
static const char *read_worst(const char *program)
{
    char path[PATH_ROOM];
    for (size_t at = 0; at < sizeof worst_files / sizeof worst_files[0]; at++) {
        FILE *file = beside(program, worst_files[at], path, sizeof path) ? fopen(path, "rb") : NULL;
        if (file != NULL) {
            image_len = fread(image, 1, sizeof image, file);
            fclose(file);
            return worst_files[at];
        }
    }
    return NULL;
}

/* The hard image of a number, and its name; gives 0 where there is none. */
static int make_hard(int number, const char *program, char *name)
{
    const int kind = number / SEEDS, seed = number % SEEDS + 1;
    if (number == MADE) {
        const char *const found = read_worst(program);
        snprintf(name, NAME_ROOM, "%s", found == NULL ? "" : found);
        return found != NULL;
    }
    random_state = (uint32_t)seed;
    hard_images[kind].make();
    hard_images[kind].write();
    snprintf(name, NAME_ROOM, "hard load, %s %d", hard_images[kind].name, seed);
    return 1;
}

/* ---- loads timed ---- */

static void do_loads(const side *s, const void *what, int loads)
{
    (void)what;
    for (int at = 0; at < loads; at++)
        answers += s->load(image, image_len, marks, sizeof marks, state, sizeof state).number;
}

static double worst_load, worst_load_ratio, straight_load;

/* us a load of the image as it stands. */
static void time_load(const char *name, double *figures)
{
    time_calls(do_loads, NULL, LOADS_A_ROUND, figures);
    for (int at = 0; at < SIDES; at++)
        figures[at] /= 1000.0;
    print_row(name, figures);
    if (figures[0] > worst_load)
        worst_load = figures[0];
    if (figures[0] / figures[1] > worst_load_ratio)
        worst_load_ratio = figures[0] / figures[1];
}

static void bench_load(const char *name, void (*make)(void), void (*write)(void))
{
    double figures[SIDES];
    make();
    write();
    load_begin(state);
    if (!timed_row(name, do_loads, NULL, 1))
        return;
    time_load(name, figures);
    if (make == make_straight)
        straight_load = figures[0];
}

/* Which hard image takes the library longest, by the quickest load of each; they take turns, too. */
static int hardest(const char *program)
{
    double quickest[HARD_IMAGES] = {0};
    char name[NAME_ROOM];
    int most = 0;
    for (int turn = 0; turn < HARD_IMAGES * rounds; turn++) {
        const int number = turn % HARD_IMAGES;
        if (!make_hard(number, program, name))
            continue;
        const double begun = now();
        do_loads(&sides[0], NULL, 1);
        const double taken = now() - begun;
        if (turn < HARD_IMAGES || taken < quickest[number])
            quickest[number] = taken;
    }
    for (int number = 1; number < HARD_IMAGES; number++)
        if (quickest[number] > quickest[most])
            most = number;
    return most;
}

/* The worst load. Which image that is, is told by time and so may change from run to run: to be counted, each image has
 * a row of its own. */
static void bench_worst(const char *program)
{
    double figures[SIDES];
    char name[NAME_ROOM];
    if (asked == TIMES) {
        make_hard(hardest(program), program, name);
        time_load(WORST_ROW, figures);
        printf("  (%s)\n", name);
        return;
    }
    for (int number = 0; number < HARD_IMAGES; number++)
        if (make_hard(number, program, name))
            timed_row(number < MADE ? name : WORST_ROW, do_loads, NULL, 1);
}

static void bench_all_loads(const char *program)
{
    print_head("a load of 1,500 blocks, or as many as it says", "us");
    bench_load("one block", make_one, make_plain_image);
    bench_load("load of 2 blocks", make_pair, make_plain_image);
    bench_load("straight code", make_straight, make_plain_image);
    bench_load("branches everywhere", make_branches, make_plain_image);
    bench_load("calls at all depths in three tasks", make_calls, make_plain_image);
    bench_load("all places, backwards", make_backwards, make_plain_image);
    bench_load("all places, zigzag", make_zigzag, make_plain_image);
    bench_load("all places, shuffled", make_shuffled, make_plain_image);
    bench_load("all places, both ways", make_both_ways, make_plain_image);
    bench_load("all places, by 64 landing blocks", make_landings, make_listed_image);
    bench_load("5B at all depths, 64 landing blocks", make_landed, make_listed_image);
    bench_worst(program);
}

/* ---- writes ---- */

static void do_writes(const side *s, const void *what, int writes)
{
    const uint32_t *blocks_count = what;
    for (int at = 0; at < writes; at++)
        answers += s->write(BIAS_FORMAT, BIAS_TYPE_637, 0, 0, 0, *blocks_count, &blocks[0][0],
                            sizeof(block) * *blocks_count, image, sizeof image).number;
}

static void do_listed_writes(const side *s, const void *what, int writes)
{
    const uint32_t *blocks_count = what;
    for (int at = 0; at < writes; at++)
        answers += s->write_landings(BIAS_FORMAT_LANDINGS, BIAS_TYPE_637, 0, 0, 0, *blocks_count, landings, landings_len,
                                     &blocks[0][0], sizeof(block) * *blocks_count, image, sizeof image).number;
}

static void bench_writes(uint32_t blocks_count, const char *name, calling call)
{
    double figures[SIDES];
    time_calls(call, &blocks_count, WRITES_A_ROUND, figures);
    print_row(name, figures);
}

/* ---- stack ---- */

enum { STACK_LENGTH = 1 << 18, PAINT = 0x5C };

typedef enum { DO_NOTHING, DO_LOAD, DO_STEP, DO_WRITE, DO_WRITE_LANDINGS } deed;

typedef struct {
    const side *side;
    deed deed;
} errand;

static void do_errand(const errand *e)
{
    if (e->deed == DO_LOAD)
        answers += e->side->load(image, image_len, marks, sizeof marks, state, sizeof state).number;
    else if (e->deed == DO_STEP)
        answers += e->side->step(image, image_len, state, sizeof state, 0, inputs, sizeof inputs, 0, 0, 0).number;
    else if (e->deed == DO_WRITE)
        answers += e->side->write(BIAS_FORMAT, 2, 0, 0, 0, count, &blocks[0][0], sizeof(block) * count, image,
                                  sizeof image).number;
    else if (e->deed == DO_WRITE_LANDINGS)
        do_listed_writes(e->side, &count, 1);
}

static void *on_thread(void *argument)
{
    do_errand(argument);
    return NULL;
}

/* How many bytes of a painted stack a thread touches. */
static size_t touched(errand e)
{
    pthread_attr_t attributes;
    pthread_t thread;
    uint8_t *stack = mmap(NULL, STACK_LENGTH, PROT_READ | PROT_WRITE, MAP_PRIVATE | MAP_ANONYMOUS, -1, 0);
    size_t clean = 0;
    if (stack == MAP_FAILED)
        exit(2);
    memset(stack, PAINT, STACK_LENGTH);
    pthread_attr_init(&attributes);
    if (pthread_attr_setstack(&attributes, stack, STACK_LENGTH) != 0
        || pthread_create(&thread, &attributes, on_thread, &e) != 0)
        exit(2);
    pthread_join(thread, NULL);
    pthread_attr_destroy(&attributes);
    while (clean < STACK_LENGTH && stack[clean] == PAINT)
        clean++;
    munmap(stack, STACK_LENGTH);
    return STACK_LENGTH - clean;
}

static size_t deepest_stack;

/* Bytes that a call of one side touches beyond an idle thread's. */
static size_t stack_of(const side *s, deed d)
{
    const errand e = {s, d}, nothing = {s, DO_NOTHING};
    do_errand(&e); /* so that what is looked up once is looked up */
    const size_t whole = touched(e), idle = touched(nothing);
    return whole > idle ? whole - idle : 0;
}

static void print_stack(const char *name, const size_t *figures)
{
    printf("%-44s %12lu %12lu\n", name, (unsigned long)figures[0], (unsigned long)figures[1]);
    if (figures[0] > deepest_stack)
        deepest_stack = figures[0];
}

/* The deepest of some steps of the program that stands in the image. */
static void stack_of_steps(size_t *deepest)
{
    for (int at = 0; at < SIDES; at++) {
        load_begin(state);
        for (int step = 0; step < MOST_ROW; step++) {
            const size_t figure = stack_of(&sides[at], DO_STEP);
            if (figure > deepest[at])
                deepest[at] = figure;
        }
    }
}

static void bench_stacks(void)
{
    size_t load[SIDES], write[SIDES], write_landings[SIDES], step[SIDES] = {0, 0};
    static const uint8_t controls[] = {0x51, 0x52, 0x54};
    printf("\n%-44s %12s %12s %8s   (bytes)\n", "stack", sides[0].name, sides[1].name, "");
    make_landings();
    make_listed_image();
    for (int at = 0; at < SIDES; at++) {
        load[at] = stack_of(&sides[at], DO_LOAD);
        write_landings[at] = stack_of(&sides[at], DO_WRITE_LANDINGS);
        write[at] = stack_of(&sides[at], DO_WRITE);
    }
    make_jumps(BIAS_MOST_LANDINGS);
    stack_of_steps(step);
    for (size_t at = 0; at < sizeof groups / sizeof groups[0]; at++) {
        make_circle(&groups[at]);
        stack_of_steps(step);
    }
    for (size_t at = 0; at < sizeof controls; at++) {
        make_control(controls[at]);
        stack_of_steps(step);
    }
    print_stack("bias_load", load);
    print_stack("bias_step, the deepest of all groups", step);
    print_stack("bias_write", write);
    print_stack("bias_write_landings", write_landings);
}

/* ---- size, and the whole ---- */

static double file_length(const char *name)
{
    struct stat found;
    return stat(name, &found) == 0 ? (double)found.st_size : 0.0;
}

static void print_goals(void)
{
    printf("\n");
    print_goal("a step takes at most 2 us", slowest_step <= GOAL_STEP_NS);
    print_goal("steps together are not slower than the reference's", all_steps[0] <= GOAL_STEP_RATIO * all_steps[1]);
    print_goal("a load of straight code takes at most 1 ms", straight_load <= GOAL_STRAIGHT_LOAD_US);
    print_goal("no load here takes more than 100 ms", worst_load <= GOAL_ANY_LOAD_US);
    print_goal("loads are within 3 times of the reference's", worst_load_ratio <= GOAL_LOAD_RATIO);
    print_goal("at most 16 KiB of stack", deepest_stack <= GOAL_STACK);
}

static int wrong_usage(void)
{
    fprintf(stderr, "usage: bench [--rounds N] [LIBRARY_ARCHIVE REFERENCE_ARCHIVE] | --rows | --once ROW\n");
    return 2;
}

/* The rows' names, or the calls of one row. */
static int do_rows(const char *program)
{
    bench_all_steps();
    bench_all_loads(program);
    if (asked == ONCE && !row_found) {
        fprintf(stderr, "bench: no row '%s'\n", wanted_row);
        return 2;
    }
    return answers == UINT32_MAX ? 2 : 0;
}

int main(int argc, char **argv)
{
    const char *option = argc > 1 && argv[1][0] == '-' ? argv[1] : "";
    int at = 1;
    inputs[11] = 1;
    if (strcmp(option, "--rows") == 0) {
        asked = ROWS;
        return argc == 2 ? do_rows(argv[0]) : wrong_usage();
    }
    if (strcmp(option, "--once") == 0) {
        asked = ONCE;
        wanted_row = argv[2];
        return argc == 3 ? do_rows(argv[0]) : wrong_usage();
    }
    if (strcmp(option, "--rounds") == 0) {
        rounds = argc > 2 ? atoi(argv[2]) : 0;
        at = 3;
    }
    if (rounds < 1 || (argc != at && argc != at + 2))
        return wrong_usage();
    bench_all_steps();
    bench_all_loads(argv[0]);
    print_head("a write", "ns");
    bench_writes(14, "14 blocks", do_writes);
    bench_writes(BIAS_MOST_BLOCKS, "1,500 blocks", do_writes);
    make_landings();
    bench_writes(BIAS_MOST_BLOCKS, "1,500 blocks, 64 landing blocks", do_listed_writes);
    bench_stacks();
    if (argc == at + 2) {
        printf("\n%-44s %12.0f %12.0f            (bytes)\n", "archive", file_length(argv[at]), file_length(argv[at + 1]));
    }
    print_goals();
    return answers == UINT32_MAX ? 2 : 0;
}
