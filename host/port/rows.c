/* rows.c - the calls that host/bench-instructions.sh counts, one row for each: on the Cortex-M4 it prints what each takes,
 * on x86-64 callgrind counts around it.
 * Argument: none, for all rows with what this machine counts; a row's name, to do its calls once and print how many. */
#include "bias.h"
#include "system.h"
#include "text.h"

static const uint8_t worst[] = {
#include "worst.inc"
};

enum { LOOP_ROUNDS = 1000000, STEPS = 1000 };
#define BLOCK BIAS_BLOCK_LENGTH

static uint8_t blocks[BIAS_MOST_BLOCKS * BLOCK], landings[2 * BIAS_MOST_LANDINGS];
static uint8_t image[BIAS_MOST_IMAGE_LENGTH];
static size_t image_len;
static uint8_t marks[BIAS_MARKS_LENGTH], state[BIAS_STATE_LENGTH], inputs[BIAS_INPUTS_LENGTH];

/* ---- text ---- */

static int same(const char *a, const char *b)
{
    while (*a != 0 && *a == *b)
        a++, b++;
    return *a == *b;
}

/* ---- programs ---- */

static void put_block(uint32_t at, uint8_t code, uint8_t d1, uint8_t d2)
{
    for (uint32_t byte = 0; byte < BLOCK; byte++)
        blocks[at * BLOCK + byte] = 0;
    blocks[at * BLOCK] = code;
    blocks[at * BLOCK + 1] = d1;
    blocks[at * BLOCK + 2] = d2;
}

static int write_image(uint32_t count)
{
    const bias_verdict verdict = bias_write(BIAS_FORMAT, BIAS_TYPE_637, 0, 0, 0, count, blocks, count * BLOCK, image,
                                            sizeof image);
    image_len = (size_t)verdict.place;
    return verdict.number == BIAS_SUCCESS;
}

static void write_one(void)
{
    write_image(1);
}

/* The most landing blocks, from the first one on in equal steps. */
static void put_landings(uint32_t first, uint32_t apart)
{
    for (uint32_t at = 0; at < BIAS_MOST_LANDINGS; at++) {
        landings[2 * at] = (uint8_t)(first + at * apart);
        landings[2 * at + 1] = (uint8_t)((first + at * apart) >> 8);
    }
}

static int write_listed(uint32_t count)
{
    const bias_verdict verdict = bias_write_landings(BIAS_FORMAT_LANDINGS, BIAS_TYPE_637, 0, 0, 0, count, landings,
                                                     sizeof landings, blocks, count * BLOCK, image, sizeof image);
    image_len = (size_t)verdict.place;
    return verdict.number == BIAS_SUCCESS;
}

static void write_most(void)
{
    write_listed(BIAS_MOST_BLOCKS);
}

/* The answers of all calls, so that none is left out. */
static uint32_t answers;

static void load(void)
{
    answers = bias_load(image, image_len, marks, sizeof marks, state, sizeof state).number;
}

static void step_task(uint32_t task)
{
    answers = bias_step(image, image_len, state, sizeof state, task, inputs, sizeof inputs, 0, 1, 1).number;
}

static void step(void)
{
    step_task(BIAS_TASK_BIAS);
}

static void step_plc(void)
{
    step_task(BIAS_TASK_PLC);
}

/* 80: a variable becomes 9; 55: back. */
static int make_two(void)
{
    put_block(0, 0x80, 0, 9);
    put_block(1, 0x55, 0, 0);
    return write_image(2);
}

static int load_two(void)
{
    if (!make_two())
        return 0;
    load();
    return answers == BIAS_SUCCESS;
}

static int make_straight(void)
{
    for (uint32_t at = 0; at < BIAS_MOST_BLOCKS - 1; at++)
        put_block(at, 0x50, 0, 0);
    put_block(BIAS_MOST_BLOCKS - 1, 0x55, 0, 0);
    return write_image(BIAS_MOST_BLOCKS);
}

/* A jump by a variable, to itself: it is the last of the landing blocks. Two steps lead to it. */
static int load_jump(void)
{
    put_block(0, 0x80, 0, BIAS_MOST_LANDINGS);
    for (uint32_t at = 1; at < BIAS_MOST_LANDINGS; at++)
        put_block(at, 0x55, BIAS_MOST_LANDINGS, 0);
    put_block(BIAS_MOST_LANDINGS, 0x56, 0, 0);
    put_landings(1, 1);
    if (!write_listed(BIAS_MOST_LANDINGS + 1))
        return 0;
    load();
    return answers == BIAS_SUCCESS;
}

/* BIAS starts the two other tasks at a ladder of calls, which leads to a block at every depth. */
enum { LADDER_LENGTH = 2 * (BIAS_MOST_DEPTH + 1) };

static void put_ladder(uint32_t ladder, uint32_t entry)
{
    put_block(0, 0x54, (uint8_t)ladder, 0);
    put_block(1, 0x90, (uint8_t)ladder, 0);
    for (uint32_t depth = 0; depth <= BIAS_MOST_DEPTH; depth++) {
        const uint32_t at = ladder + 2 * depth;
        put_block(at, depth < BIAS_MOST_DEPTH ? 0x52 : 0x50, depth < BIAS_MOST_DEPTH ? (uint8_t)(at + 2) : 0, 0);
        put_block(at + 1, 0x55, (uint8_t)entry, 0);
    }
}

/* All blocks at all depths in three tasks, from each landing block on to a jump by a variable, which leads to all of
 * them. */
static int make_landings(void)
{
    enum { FIRST = 2 + LADDER_LENGTH, APART = (BIAS_MOST_BLOCKS - FIRST) / BIAS_MOST_LANDINGS };
    put_ladder(2, FIRST);
    for (uint32_t at = FIRST; at < BIAS_MOST_BLOCKS; at++)
        put_block(at, (at - FIRST) % APART == APART - 1 || at + 1 == BIAS_MOST_BLOCKS ? 0x56 : 0x50, 0, 0);
    put_landings(FIRST, APART);
    return write_listed(BIAS_MOST_BLOCKS);
}

/* 61: a block that a walk may jump from as well. */
static void put_branch(uint32_t at, uint32_t to)
{
    put_block(at, 0x61, 0, 0);
    blocks[at * BLOCK + 4] = (uint8_t)to;
    blocks[at * BLOCK + 5] = (uint8_t)(to >> 8);
}

/* All blocks at all depths in three tasks, every second one a jump by a variable. */
static int make_jumps(void)
{
    enum { FIRST = 2 + LADDER_LENGTH };
    put_ladder(2, FIRST);
    for (uint32_t at = FIRST; at + 1 < BIAS_MOST_BLOCKS; at += 2) {
        put_branch(at, at + 3 < BIAS_MOST_BLOCKS ? at + 2 : at);
        put_block(at + 1, 0x56, 0, 0);
    }
    put_landings(FIRST, (BIAS_MOST_BLOCKS - FIRST) / BIAS_MOST_LANDINGS);
    return write_listed(BIAS_MOST_BLOCKS);
}

/* Starts of BIAS by a variable, at all depths of the two other tasks; BIAS jumps by one from each landing block. */
static int make_pointers(void)
{
    enum { LADDER = 3, FIRST = LADDER + LADDER_LENGTH, COMMON = FIRST + BIAS_MOST_LANDINGS };
    put_ladder(LADDER, COMMON);
    put_block(LADDER - 1, 0x55, LADDER - 1, 0);
    for (uint32_t at = FIRST; at < BIAS_MOST_BLOCKS - 1; at++)
        put_block(at, at < COMMON ? 0x56 : 0x5B, 0, 0);
    put_block(BIAS_MOST_BLOCKS - 1, 0x55, COMMON, 0);
    put_landings(FIRST, 1);
    return write_listed(BIAS_MOST_BLOCKS);
}

/* Every command that BIAS may have, one behind the other; none of them stays. Variables 1 to 3 hold what a speed, a ramp and
 * a wait may be, variable 10 the last landing block; calls lead to a return, and the two other tasks to a jump to itself,
 * both behind the end of the circle. */
static const uint8_t every[][BLOCK] = {
    {0x80, 1, 2}, {0x80, 2, 2}, {0x80, 3, 2}, {0x50}, {0x52, 65}, {0x54, 66}, {0x90, 66}, {0x55, 8}, {0x60, 1, 1},
    {0x61, 1, 0, 1, 10}, {0x62, 2, 1}, {0x63, 1, 11}, {0x64, 2, 12}, {0x65, 3, 1, 2}, {0x66, 4, 1, 2}, {0x67, 5, 1, 2},
    {0x68, 6, 1}, {0x6E, 1, 3, 1, 18}, {0x70, 11, 0, 1, 19}, {0x71, 12, 0, 1, 20}, {0x72, 12, 1}, {0x73, 13, 1},
    {0x81, 1, 2, 0, 0, 0, 0x20, 23}, {0x82, 4, 1, 3}, {0x83, 4, 4, 3}, {0x84, 4, 4, 7}, {0x85, 4, 4, 5}, {0x86, 5, 0, 32},
    {0x88, 6, 1}, {0x89, 1, 2, 2, 30}, {0x8A, 7, 1, 2}, {0x8B, 7, 1, 2}, {0x8C, 7, 1, 2}, {0x8D, 7, 1, 2}, {0x0E}, {0x00},
    {0x0E}, {0x01}, {0x0E}, {0x03}, {0x0E}, {0x04}, {0x0F, 1}, {0x1F, 1, 10}, {0x50}, {0x58}, {0x59, 0, 0}, {0x5A, 9},
    {0x20, 1, 2, 3, 4}, {0x21, 9}, {0x22, 9}, {0x23, 9}, {0x30, 1}, {0x31, 1}, {0x32, 2}, {0x33, 3}, {0x40, 8}, {0x41, 8},
    {0x42, 8}, {0x43, 8}, {0x50}, {0x80, 10, 63}, {0x56, 10}, {0x50}, {0x51}, {0x53}, {0x55, 66},
};
enum { EVERY = sizeof every / sizeof every[0], ROUND = EVERY - 1 };

static int load_every(void)
{
    for (uint32_t at = 0; at < EVERY; at++)
        for (uint32_t byte = 0; byte < BLOCK; byte++)
            blocks[at * BLOCK + byte] = every[at][byte];
    put_landings(0, 1);
    if (!write_listed(EVERY))
        return 0;
    load();
    return answers == BIAS_SUCCESS;
}

/* What host/port/climb.sh found. */
static int make_worst(void)
{
    for (image_len = 0; image_len < sizeof worst; image_len++)
        image[image_len] = worst[image_len];
    return 1;
}

static void do_nothing(void)
{
    answers = 0;
}

/* ---- rows ---- */

typedef struct {
    const char *name;
    int (*make)(void);  /* makes the program, and for steps loads it; 0 if that is refused */
    void (*deed)(void); /* what is counted: one call of the library */
    uint32_t calls;     /* how often, for the average */
    uint32_t wants;     /* the answer of each call; UINT32_MAX for any */
} row;

static const row rows[] = {
    {"a step (80, 55)", load_two, step, STEPS, BIAS_SUCCESS},
    {"a step refused by 18", load_two, step_plc, STEPS, BIAS_NOT_RUNNING},
    {"a jump by a variable (56), 64 landing blocks", load_jump, step, STEPS, BIAS_SUCCESS},
    {"a load of 2 blocks", make_two, load, 100, BIAS_SUCCESS},
    {"a load of 1,500 straight blocks", make_straight, load, 4, BIAS_SUCCESS},
    {"a load of 1,500 blocks, by 64 landing blocks", make_landings, load, 1, BIAS_SUCCESS},
    {"a load of 1,500 blocks, half of them 56", make_jumps, load, 1, BIAS_SUCCESS},
    {"a load of 1,500 blocks, most of them 5B", make_pointers, load, 1, BIAS_SUCCESS},
    {"the worst load found", make_worst, load, 1, UINT32_MAX},
};
enum { ROWS = sizeof rows / sizeof rows[0] };

/* Does a row's calls; 0 if an answer is not the row's. */
static int do_calls(const row *r)
{
    for (uint32_t call = 0; call < r->calls; call++) {
        r->deed();
        if (r->wants != UINT32_MAX && answers != r->wants)
            return 0;
    }
    return 1;
}

static void (*volatile nothing)(void) = do_nothing;

/* Instructions of one call, on the average and rounded, beyond those of a call that does nothing. */
static uint32_t count(const row *r)
{
    const row idle = {r->name, r->make, nothing, r->calls, UINT32_MAX};
    const uint32_t begun = instructions();
    if (!do_calls(r))
        return 0;
    const uint32_t between = instructions();
    do_calls(&idle);
    const uint32_t taken = (between - begun) - (instructions() - between);
    return (taken + r->calls / 2) / r->calls;
}

/* A loop of four instructions, on the Cortex-M4: what the counter says of it shows whether it counts. */
static uint32_t count_loop(void)
{
    const uint32_t begun = instructions();
#ifdef __arm__
    uint32_t rounds = LOOP_ROUNDS;
    __asm__ volatile("1: nop\n nop\n subs %0, %0, #1\n bne 1b" : "+r"(rounds) : : "cc");
#endif
    return instructions() - begun;
}

/* The dearest step and the deepest stack of a round through every command; 0 if a step is refused. */
static int count_every(uint32_t *dearest, uint32_t *deepest)
{
    *dearest = *deepest = 0;
    if (!load_every())
        return 0;
    for (uint32_t at = 0; at < ROUND; at++) {
        const uint32_t begun = instructions();
        step();
        const uint32_t taken = instructions() - begun;
        if (answers != BIAS_SUCCESS)
            return 0;
        *dearest = taken > *dearest ? taken : *dearest;
    }
    for (uint32_t at = 0; at < ROUND; at++) {
        const uint32_t bytes = stack_of(step);
        if (answers != BIAS_SUCCESS)
            return 0;
        *deepest = bytes > *deepest ? bytes : *deepest;
    }
    return 1;
}

static void put_row(const char *name, uint32_t figure)
{
    put_text(name);
    put_text("|");
    put_number(figure);
    put_text("\n");
}

static int refuse(const char *name)
{
    put_text("not what the row wants: ");
    put_text(name);
    put_text("\n");
    return 1;
}

static int all_rows(void)
{
    put_row("a loop of 4,000,000", count_loop());
    for (uint32_t at = 0; at < ROWS; at++) {
        const row *r = &rows[at];
        if (!r->make())
            return refuse(r->name);
        const uint32_t figure = count(r);
        put_row(r->name, figure);
    }
    uint32_t dearest, deepest;
    if (!count_every(&dearest, &deepest))
        return refuse("every command");
    put_row("the dearest step, of every command", dearest);
    put_row("stack of a step, the deepest", deepest);
    make_worst();
    put_row("stack of a load", stack_of(load));
    put_row("stack of a write", stack_of(write_one));
    make_landings();
    put_row("stack of a write with landing blocks", stack_of(write_most));
    return 0;
}

int run(const char *word)
{
    if (*word == 0)
        return all_rows();
    for (uint32_t at = 0; at < ROWS; at++)
        if (same(rows[at].name, word)) {
            if (!rows[at].make() || !do_calls(&rows[at]))
                return refuse(word);
            put_number(rows[at].calls);
            put_text("\n");
            return 0;
        }
    put_text("no such row\n");
    return 2;
}
