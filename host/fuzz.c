/* fuzz.c - the C border under odd lengths and contents. Every lent buffer ends (or begins) at a page that must not be
 * touched, lies at any alignment, and has guard bytes around it; buffers that are only read are write-protected during
 * the call. Each call is done twice at different places and must answer and leave the same. Programs are for every
 * drive type, of both formats and up to the longest. The run fails where a number that a function can answer was not
 * met, or where no longest image of some type was accepted, refused, stepped or written. To be built with
 * -fsanitize=address,undefined. Usage: fuzz [--seed S] [--calls N]
 */
#define _DEFAULT_SOURCE
#include <stdio.h>
#include <stdlib.h>
#include <string.h>
#include <sys/mman.h>
#include <unistd.h>

#include "bias.h"

/* The results have the sizes that the library hands back. */
typedef char verdict_has_24_bytes[sizeof(bias_verdict) == 24 ? 1 : -1];
typedef char answer_has_48_bytes[sizeof(bias_answer) == 48 ? 1 : -1];

enum { GUARD = 0xA5, DEFAULT_CALLS = 100000, TASKS = 3, TYPES = 5, HIGHEST_NUMBER = BIAS_BOARD_MISSING };
#define DEFAULT_SEED 631u

/* ---- random numbers ---- */

static uint64_t random_state;

static uint64_t random_next(void)
{
    uint64_t mixed = random_state += 0x9E3779B97F4A7C15u;
    mixed = (mixed ^ (mixed >> 30)) * 0xBF58476D1CE4E5B9u;
    mixed = (mixed ^ (mixed >> 27)) * 0x94D049BB133111EBu;
    return mixed ^ (mixed >> 31);
}

static size_t random_below(size_t limit)
{
    return (size_t)(random_next() % limit);
}

/* ---- buffers between forbidden pages ---- */

typedef struct {
    uint8_t *data;       /* readable pages, a forbidden page on either side */
    size_t room;
    uint8_t *bytes;      /* the lent buffer within them */
    size_t length;
} region;

static unsigned long current_call;

static void fail(const char *what)
{
    fprintf(stderr, "fuzz: call %lu: %s\n", current_call, what);
    exit(1);
}

static void check(int holds, const char *what)
{
    if (!holds)
        fail(what);
}

static void region_open(region *r, size_t least)
{
    const size_t page = (size_t)sysconf(_SC_PAGESIZE);
    r->room = (least + page - 1) / page * page;
    uint8_t *all = mmap(NULL, r->room + 2 * page, PROT_NONE, MAP_PRIVATE | MAP_ANONYMOUS, -1, 0);
    check(all != MAP_FAILED, "no memory");
    r->data = all + page;
    check(mprotect(r->data, r->room, PROT_READ | PROT_WRITE) == 0, "no memory");
}

/* Lays a content at the end (or the beginning) of the pages, some bytes away from it; all else is guard bytes. */
static void region_place(region *r, const uint8_t *content, size_t length, int at_end, size_t away)
{
    check(length + away <= r->room, "a test's buffer is too long");
    memset(r->data, GUARD, r->room);
    r->bytes = at_end ? r->data + r->room - length - away : r->data + away;
    r->length = length;
    if (length != 0)
        memcpy(r->bytes, content, length);
}

static void region_lock(const region *r)
{
    check(mprotect(r->data, r->room, PROT_READ) == 0, "mprotect");
}

static void region_unlock(const region *r)
{
    check(mprotect(r->data, r->room, PROT_READ | PROT_WRITE) == 0, "mprotect");
}

static int only_guards(const uint8_t *from, const uint8_t *to)
{
    for (; from < to; from++)
        if (*from != GUARD)
            return 0;
    return 1;
}

static void region_check(const region *r, const char *what)
{
    check(only_guards(r->data, r->bytes) && only_guards(r->bytes + r->length, r->data + r->room), what);
}

/* ---- what is lent ---- */

enum { MOST_CONTENT = 65536, MOST_LIST = 4096 };

typedef struct {
    uint8_t bytes[MOST_CONTENT];
    size_t length;
} content;

static content image, marks, state, inputs, landings, blocks, out;
static region image_region, marks_region, state_region, inputs_region, landings_region, blocks_region, out_region;

static void content_fill(content *c, size_t length)
{
    c->length = length;
    for (size_t at = 0; at < length; at++)
        c->bytes[at] = (uint8_t)random_next();
}

/* Up to two of the first bytes are others. */
static void content_damage(content *c, size_t front)
{
    for (size_t times = random_below(3); times > 0 && c->length > 0; times--)
        c->bytes[random_below(front < c->length ? front : c->length)] = (uint8_t)random_next();
}

static size_t odd_length(size_t right)
{
    switch (random_below(8)) {
    case 0: return 0;
    case 1: return 1;
    case 2: return right - 1;
    case 3: return right + 1;
    case 4: return random_below(2 * right);
    default: return right;
    }
}

/* ---- what was met ---- */

/* A function of the border: the numbers that it can answer, and how often each was met. */
typedef struct {
    const char *name;
    uint32_t numbers[HIGHEST_NUMBER + 1];
    size_t count;
    unsigned long met[HIGHEST_NUMBER + 1];
} function;

static function load = {"load", {0, 1, 2, 3, 4, 5, 6, 7, 8, 9, 10, 11, 12, 13, 16, 21, 23}, 17, {0}};
static function step = {"step", {0, 15, 16, 17, 18, 19, 20, 22}, 8, {0}};
static function writing = {"write", {0, 1, 3, 4, 14}, 5, {0}};
static function writing_landings = {"write of landings", {0, 1, 3, 4, 14, 21}, 6, {0}};

static void meet(function *f, uint32_t number)
{
    for (size_t at = 0; at < f->count; at++)
        if (f->numbers[at] == number) {
            f->met[number]++;
            return;
        }
    fail("no such number of that function");
}

/* What was done with images of the greatest length, by drive type. */
typedef enum { ACCEPTED, REFUSED, STEPPED, WRITTEN, DEEDS } deed;
static const char *const deeds[DEEDS] = {"accepted", "refused", "stepped", "written"};
static unsigned long longest[TYPES][DEEDS];

static void meet_longest(size_t length, uint32_t type, deed done)
{
    if (length == BIAS_MOST_IMAGE_LENGTH && type < TYPES)
        longest[type][done]++;
}

/* ---- programs ---- */

/* A drive, and an input and an output that it has, where it can with boards. */
typedef struct {
    uint32_t type, slot_b, slot_c;
    uint8_t input, output;
} drive;

static const drive drives[TYPES] = {
    {BIAS_TYPE_631, BIAS_SLOT_B_EMPTY, BIAS_SLOT_C_EMPTY, 7, 5},
    {BIAS_TYPE_635, BIAS_SLOT_B_RP_EA5, BIAS_SLOT_C_EMPTY, 101, 109},
    {BIAS_TYPE_637, BIAS_SLOT_B_EMPTY, BIAS_SLOT_C_RP_EAE, 11, 217},
    {BIAS_TYPE_637_PLUS, BIAS_SLOT_B_RP_EA5, BIAS_SLOT_C_RP_EAE, 201, 110},
    {BIAS_TYPE_637F, BIAS_SLOT_B_RP_2C8, BIAS_SLOT_C_RP_SBT, 91, 125},
};

enum { INPUT = 1, OUTPUT = 2, AIM = 6, BEHIND = 25, LEAST_BLOCKS = BEHIND + 1 };

/* A program with all three tasks, calls, waits, pins, a division, a parameter and a jump by a variable that can halt.
 * Blocks count from its own beginning; each task goes on in what stands behind it. INPUT and OUTPUT are the drive's;
 * block 0 sets variable AIM, mostly to a landing block. */
static const uint8_t program[BEHIND][BIAS_BLOCK_LENGTH] = {
    {0x80, AIM}, {0x54, 11}, {0x90, 16}, {0x52, 20}, {0x80, 4, 100}, {0x31, 4}, {0x0E}, {0x01}, {0x58}, {0x59, 3},
    {0x55, BEHIND},
    {0x72, OUTPUT, 1}, {0x63, 1, INPUT}, {0x57, 3}, {0x5B, AIM}, {0x55, BEHIND},
    {0x82, 1, 1, 1}, {0x8D, 2, 1, 1}, {0x8A, 4, 4, 2}, {0x55, BEHIND},
    {0x20, 1, 2, 3, 4}, {0x52, 23}, {0x53},
    {0x86, 3, 0, 32}, {0x53},
};

/* What every task may do: templates of the blocks around it. */
static const uint8_t filling[][BIAS_BLOCK_LENGTH] = {
    {0x50}, {0x51, 0}, {0x40, 0}, {0x43, 1}, {0x55}, {0x60, 1, 1}, {0x61, 1, 0, 1}, {0x65, 1, 2, 3}, {0x68, 2, 1},
    {0x63, 2, INPUT}, {0x64, 3, OUTPUT}, {0x70, INPUT, 0, 1}, {0x71, OUTPUT, 1, 1}, {0x72, OUTPUT, 1},
    {0x73, OUTPUT, 1}, {0x80, 1, 0}, {0x80, 4, 200}, {0x81, 1, 3, 0, 0, 0, 0x30}, {0x82, 1, 2, 255}, {0x85, 2, 1, 7},
    {0x88, 5, 4}, {0x89, 1, 2, 2}, {0x8B, 4, 1, 2}, {0x8C, 3, 3, 4}, {0x56, AIM},
};

static void put_address(uint8_t *b, uint32_t address)
{
    const uint8_t low = (uint8_t)(address % 256), high = (uint8_t)(address / 256);
    switch (b[0]) {
    case 0x52: case 0x54: case 0x55: case 0x57: case 0x90: b[1] = low; b[2] = high; break;
    case 0x61: case 0x70: case 0x71: case 0x89: b[4] = low; b[5] = high; break;
    case 0x81: b[6] = (uint8_t)(b[6] + high); b[7] = low; break;
    default: break;
    }
}

static void put_pins(uint8_t *b, const drive *d)
{
    switch (b[0]) {
    case 0x63: b[2] = d->input; break;
    case 0x64: b[2] = d->output; break;
    case 0x70: b[1] = d->input; break;
    case 0x71: case 0x72: case 0x73: b[1] = d->output; break;
    default: break;
    }
}

/* One block that is refused: by itself, or where a walk meets it. */
static void put_odd(uint8_t *first, uint32_t count)
{
    static const uint8_t odd[][BIAS_BLOCK_LENGTH] = {
        {0x02},       /* no such command */
        {0x72, 8, 1}, /* an output that is never written */
        {0x51, 4},    /* no such task to end */
        {0x50, 1},    /* an unused byte */
        {0x20},       /* forbidden to the PLC and to mathematics */
        {0x52},       /* a call of itself */
        {0x53},       /* a return without a call */
        {0x50},       /* goes past the end, where it is the last */
    };
    const size_t which = random_below(sizeof odd / sizeof odd[0]);
    const uint32_t at = which + 1 < sizeof odd / sizeof odd[0] ? (uint32_t)random_below(count) : count - 1;
    memcpy(first + BIAS_BLOCK_LENGTH * at, odd[which], BIAS_BLOCK_LENGTH);
    put_address(first + BIAS_BLOCK_LENGTH * at, at);
}

/* The block of the filling that has so many before it. */
static uint32_t filling_block(uint32_t before, uint32_t start)
{
    return before < start ? before : before + BEHIND;
}

/* Landing blocks of the filling, one behind the other: as many as there may be, each of two bytes where the program is
 * long enough, or fewer. */
static void draw_landings(uint32_t start, uint32_t count)
{
    const uint32_t all = count - BEHIND, most = all < BIAS_MOST_LANDINGS ? all : BIAS_MOST_LANDINGS;
    const uint32_t number = random_below(2) == 0 ? most : (uint32_t)random_below(most + 1);
    const uint32_t low = all > 128 + number ? 128 : 0, first = low + (uint32_t)random_below(all - low - number + 1);
    for (uint32_t at = 0; at < number; at++) {
        const uint32_t block = filling_block(first + at, start);
        landings.bytes[2 * at] = (uint8_t)(block % 256);
        landings.bytes[2 * at + 1] = (uint8_t)(block / 256);
    }
    landings.length = 2 * number;
}

/* 80: a landing block, now and then another number. */
static void put_aim(uint8_t *b)
{
    const size_t at = landings.length == 0 ? 0 : 2 * random_below(landings.length / 2);
    const int odd = random_below(8) == 0;
    for (size_t byte = 0; byte < 2 && landings.length != 0; byte++)
        b[2 + byte] = landings.bytes[at + byte];
    b[4 + random_below(2)] = (uint8_t)(odd ? random_below(256) : 0);
}

/* The program from block `start` on, filling on both sides of it. A walk comes into it by its beginning alone: filling
 * leads to filling, and the block before it and the last one return to a start. */
static void make_blocks(uint32_t start, uint32_t count, const drive *d)
{
    for (uint32_t at = 0; at < count; at++) {
        uint8_t *b = blocks.bytes + BIAS_BLOCK_LENGTH * at;
        const int inside = at >= start && at < start + BEHIND, turns = at + 1 == start || at + 1 == count;
        const size_t drawn = turns ? 1 : random_below(sizeof filling / sizeof filling[0]);
        const uint32_t other = (uint32_t)random_below(count - BEHIND);
        memcpy(b, inside ? program[at - start] : filling[drawn], BIAS_BLOCK_LENGTH);
        put_address(b, inside ? start + b[1] : filling_block(other, start));
        put_pins(b, d);
    }
    put_aim(blocks.bytes + BIAS_BLOCK_LENGTH * start);
    blocks.length = BIAS_BLOCK_LENGTH * count;
}

/* Few blocks, or any number, or the most, with a start that takes two bytes: with the most landing blocks the longest
 * image. */
static void draw_size(uint32_t *start, uint32_t *count)
{
    const size_t way = random_below(4);
    *count = way == 0 ? LEAST_BLOCKS + (uint32_t)random_below(40)
        : way == 1 ? LEAST_BLOCKS + (uint32_t)random_below(BIAS_MOST_BLOCKS - LEAST_BLOCKS)
        : BIAS_MOST_BLOCKS;
    *start = way < 2 ? (uint32_t)random_below(*count - BEHIND) : 128 + (uint32_t)random_below(*count - BEHIND - 128);
}

/* A program's image, whole, damaged in one way or another, without its boards, or noise. */
static void draw_image(void)
{
    const drive *d = &drives[random_below(TYPES)];
    const int bare = random_below(8) == 0, listed = random_below(4) != 0;
    const uint32_t slot_b = bare ? 0 : d->slot_b, slot_c = bare ? 0 : d->slot_c;
    const size_t way = random_below(8);
    uint32_t start, count;
    draw_size(&start, &count);
    landings.length = 0;
    if (listed)
        draw_landings(start, count);
    make_blocks(start, count, d);
    if (way == 0)
        put_odd(blocks.bytes, count);
    bias_verdict verdict = listed
        ? bias_write_landings(BIAS_FORMAT_LANDINGS, d->type, slot_b, slot_c, start, count, landings.bytes,
                              landings.length, blocks.bytes, blocks.length, image.bytes, sizeof image.bytes)
        : bias_write(BIAS_FORMAT, d->type, slot_b, slot_c, start, count, blocks.bytes, blocks.length, image.bytes,
                     sizeof image.bytes);
    check(verdict.number == BIAS_SUCCESS, "the program was not written");
    image.length = (size_t)verdict.place;
    switch (way) {
    case 1: content_damage(&image, image.length); break;
    case 2: content_damage(&image, random_below(2) == 0 ? 8 : 9 + landings.length); break;
    case 3: image.length = random_below(image.length + 1); break;
    case 4: image.length += random_below(20); break;
    case 5: content_fill(&image, random_below(64)); break;
    default: break;
    }
}

/* ---- loads ---- */

static bias_verdict place_and_load(int at_end)
{
    const size_t away = random_below(8);
    region_place(&image_region, image.bytes, image.length, at_end, 0);
    region_place(&marks_region, marks.bytes, marks.length, at_end, away);
    region_place(&state_region, state.bytes, state.length, at_end, at_end ? 0 : away);
    region_lock(&image_region);
    bias_verdict verdict = bias_load(image_region.bytes, image_region.length, marks_region.bytes, marks_region.length,
                                     state_region.bytes, state_region.length);
    region_unlock(&image_region);
    region_check(&marks_region, "wrote outside the marks");
    region_check(&state_region, "wrote outside the state");
    return verdict;
}

static int same_verdicts(bias_verdict a, bias_verdict b)
{
    return a.place == b.place && a.number == b.number && a.task == b.task && a.depth == b.depth;
}

static void check_load(bias_verdict verdict)
{
    check((verdict.number == BIAS_MARKS_SHORT) == (marks.length < BIAS_MARKS_LENGTH), "load: 13 by another length");
    if (verdict.number == BIAS_SUCCESS) {
        check(verdict.place == 0 && verdict.task == 0 && verdict.depth == 0, "load: success with a place");
        check(state_region.bytes[BIAS_STATE_LAYOUT_AT] == BIAS_STATE_LAYOUT, "load: another layout number");
    } else {
        check(memcmp(state_region.bytes, state.bytes, state.length) == 0, "load: refused, and the state was written");
    }
    if (marks.length > BIAS_MARKS_LENGTH)
        check(memcmp(marks_region.bytes + BIAS_MARKS_LENGTH, marks.bytes + BIAS_MARKS_LENGTH,
                     marks.length - BIAS_MARKS_LENGTH) == 0, "load: marks past BIAS_MARKS_LENGTH were written");
    check(verdict.number < BIAS_FORBIDDEN || verdict.number > BIAS_PAST_END
          || (verdict.task < TASKS && verdict.depth <= BIAS_MOST_DEPTH), "load: no such place");
}

static void fuzz_load(void)
{
    draw_image();
    marks.length = random_below(8) == 0 ? odd_length(BIAS_MARKS_LENGTH) : BIAS_MARKS_LENGTH;
    if (marks.length > sizeof marks.bytes)
        marks.length = sizeof marks.bytes;
    content_fill(&state, random_below(8) == 0 ? odd_length(BIAS_STATE_LENGTH) : BIAS_STATE_LENGTH);
    bias_verdict first = place_and_load(1);
    check_load(first);
    meet(&load, first.number);
    meet_longest(image.length, image.bytes[1], first.number == BIAS_SUCCESS ? ACCEPTED : REFUSED);
    static content left;
    left.length = state.length;
    if (left.length != 0)
        memcpy(left.bytes, state_region.bytes, left.length);
    bias_verdict second = place_and_load(0);
    check_load(second);
    check(same_verdicts(first, second), "load: another answer at another place");
    check(memcmp(left.bytes, state_region.bytes, left.length) == 0, "load: another state at another place");
}

/* ---- steps ---- */

typedef struct {
    uint32_t task;
    uint8_t start, ramp_ended, in_window;
} levels;

static bias_answer place_and_step(int at_end, levels given)
{
    const size_t away = random_below(8);
    region_place(&image_region, image.bytes, image.length, at_end, 0);
    region_place(&state_region, state.bytes, state.length, at_end, at_end ? 0 : away);
    region_place(&inputs_region, inputs.bytes, inputs.length, at_end, at_end ? 0 : away);
    region_lock(&image_region);
    region_lock(&inputs_region);
    bias_answer answer = bias_step(image_region.bytes, image_region.length, state_region.bytes, state_region.length,
                                   given.task, inputs_region.bytes, inputs_region.length, given.start,
                                   given.ramp_ended, given.in_window);
    region_unlock(&image_region);
    region_unlock(&inputs_region);
    region_check(&state_region, "wrote outside the state");
    return answer;
}

static int same_answers(const bias_answer *a, const bias_answer *b)
{
    return a->place == b->place && a->number == b->number && a->task == b->task && a->depth == b->depth
        && a->motion == b->motion && a->position == b->position && a->speed == b->speed
        && a->acceleration == b->acceleration && a->deceleration == b->deceleration && a->mode == b->mode;
}

static void check_step(const bias_answer *answer)
{
    const int move = answer->motion >= BIAS_MOTION_MOVE_TO && answer->motion <= BIAS_MOTION_ENDLESS_BACKWARD;
    check(answer->motion <= BIAS_MOTION_STOP, "step: no such motion");
    check(answer->number == BIAS_SUCCESS || answer->motion == BIAS_MOTION_NONE, "step: refused, with a motion");
    check(move || (answer->position == 0 && answer->speed == 0 && answer->acceleration == 0), "step: a field too many");
    check(answer->motion != BIAS_MOTION_NONE || (answer->deceleration == 0 && answer->mode == 0), "step: a field too many");
    if (answer->number != BIAS_BAD_INPUTS && answer->number != BIAS_NO_STATE)
        check(state.bytes[BIAS_STATE_LAYOUT_AT] == BIAS_STATE_LAYOUT
              && state_region.bytes[BIAS_STATE_LAYOUT_AT] == BIAS_STATE_LAYOUT, "step: another layout number passed");
    if (answer->number >= BIAS_BAD_INPUTS && answer->number <= BIAS_NOT_RUNNING)
        check(memcmp(state_region.bytes, state.bytes, state.length) == 0, "step: refused, and the state was written");
}

/* The image that was loaded, and the state that the next step is done on: what the last one left. */
static content loaded, running;

/* Mostly an accepted image. */
static void fresh_run(void)
{
    bias_verdict verdict;
    state.length = BIAS_STATE_LENGTH;
    do {
        draw_image();
        verdict = bias_load(image.bytes, image.length, marks.bytes, BIAS_MARKS_LENGTH, state.bytes, state.length);
    } while (verdict.number != BIAS_SUCCESS && random_below(20) != 0);
    loaded = image;
    running = state;
}

static void fuzz_step(void)
{
    levels given = {(uint32_t)random_below(TASKS), (uint8_t)random_below(2), (uint8_t)random_below(4),
                    (uint8_t)random_below(4)};
    if (random_below(200) == 0)
        fresh_run();
    image = loaded;
    state = running;
    if (random_below(50) == 0)
        content_damage(&image, image.length);
    if (random_below(50) == 0)
        given.task = (uint32_t)random_next();
    if (random_below(20) == 0)
        content_damage(&state, state.length);
    if (random_below(100) == 0)
        state.bytes[BIAS_STATE_LAYOUT_AT] = (uint8_t)random_below(2 * BIAS_STATE_LAYOUT);
    if (random_below(40) == 0)
        content_fill(&state, odd_length(BIAS_STATE_LENGTH));
    content_fill(&inputs, random_below(40) == 0 ? odd_length(BIAS_INPUTS_LENGTH) : BIAS_INPUTS_LENGTH);
    bias_answer first = place_and_step(1, given);
    check_step(&first);
    meet(&step, first.number);
    if (first.number == BIAS_SUCCESS)
        meet_longest(image.length, image.bytes[1], STEPPED);
    static content left;
    left.length = state.length;
    if (left.length != 0)
        memcpy(left.bytes, state_region.bytes, left.length);
    bias_answer second = place_and_step(0, given);
    check_step(&second);
    check(same_answers(&first, &second), "step: another answer at another place");
    check(memcmp(left.bytes, state_region.bytes, left.length) == 0, "step: another state at another place");
    if (first.number == BIAS_SUCCESS)
        running = left;
}

/* ---- writes ---- */

/* `listed` is for the writer of landing blocks. */
typedef struct {
    uint32_t format, type, slot_b, slot_c, start, count;
    int listed;
} header;

static bias_verdict place_and_write(int at_end, header h)
{
    const size_t away = random_below(8);
    region_place(&landings_region, landings.bytes, landings.length, at_end, at_end ? 0 : away);
    region_place(&blocks_region, blocks.bytes, blocks.length, at_end, 0);
    region_place(&out_region, out.bytes, out.length, at_end, at_end ? 0 : away);
    region_lock(&landings_region);
    region_lock(&blocks_region);
    bias_verdict verdict = h.listed
        ? bias_write_landings(h.format, h.type, h.slot_b, h.slot_c, h.start, h.count, landings_region.bytes,
                              landings_region.length, blocks_region.bytes, blocks_region.length, out_region.bytes,
                              out_region.length)
        : bias_write(h.format, h.type, h.slot_b, h.slot_c, h.start, h.count, blocks_region.bytes, blocks_region.length,
                     out_region.bytes, out_region.length);
    region_unlock(&landings_region);
    region_unlock(&blocks_region);
    region_check(&out_region, "wrote outside the image");
    return verdict;
}

static void check_write(bias_verdict verdict)
{
    const size_t written = verdict.number == BIAS_SUCCESS ? (size_t)verdict.place : 0;
    check(verdict.task == 0 && verdict.depth == 0, "write: a task or depth");
    check(written <= out.length, "write: longer than its room");
    check(memcmp(out_region.bytes + written, out.bytes + written, out.length - written) == 0,
          "write: bytes behind the image were written");
}

static uint32_t odd_number(uint32_t right)
{
    return random_below(10) == 0 ? (uint32_t)random_next() >> random_below(32) : right;
}

/* A landing list for a program of so many blocks: good, damaged, of an odd length, or too long. */
static void draw_list(uint32_t count)
{
    const int too_long = random_below(16) == 0;
    landings.length = 0;
    if (count > BEHIND && count <= BIAS_MOST_BLOCKS)
        draw_landings(count - BEHIND, count);
    if (random_below(8) == 0)
        content_damage(&landings, landings.length);
    if (random_below(8) == 0)
        content_fill(&landings, too_long ? random_below(MOST_LIST) : odd_length(2 * BIAS_MOST_LANDINGS));
}

static void fuzz_write(void)
{
    const uint32_t most = BIAS_MOST_BLOCKS;
    const int listed = random_below(3) != 0;
    const uint32_t format = listed ? BIAS_FORMAT_LANDINGS : BIAS_FORMAT;
    const uint32_t count = odd_number(random_below(4) == 0 ? most : (uint32_t)random_below(most) + 1);
    const size_t right = BIAS_BLOCK_LENGTH * (size_t)(count <= most + 100 ? count : most + 100);
    header h = {odd_number(format), odd_number((uint32_t)random_below(TYPES)), odd_number(0), odd_number(0),
                odd_number((uint32_t)random_below(count < most ? count + 1 : most)), count, listed};
    draw_list(listed ? count : 0);
    const size_t room = right + 8 + (listed ? 1 + landings.length : 0);
    content_fill(&blocks, random_below(4) == 0 ? odd_length(right + 1) : right);
    content_fill(&out, random_below(2) == 0 ? odd_length(room - 1) : room);
    bias_verdict first = place_and_write(1, h);
    check_write(first);
    meet(listed ? &writing_landings : &writing, first.number);
    if (first.number == BIAS_SUCCESS)
        meet_longest((size_t)first.place, h.type, WRITTEN);
    bias_verdict second = place_and_write(0, h);
    check_write(second);
    check(same_verdicts(first, second), "write: another answer at another place");
}

/* ---- lengths of hundreds of megabytes, on memory that is there but mostly untouched ---- */

#define HUGE ((size_t)384 << 20)

static void fuzz_huge(void)
{
    uint8_t *huge = mmap(NULL, HUGE, PROT_READ | PROT_WRITE, MAP_PRIVATE | MAP_ANONYMOUS | MAP_NORESERVE, -1, 0);
    check(huge != MAP_FAILED, "no memory");
    fresh_run();
    bias_verdict verdict = bias_load(huge, HUGE, marks.bytes, BIAS_MARKS_LENGTH, state.bytes, state.length);
    check(verdict.number == BIAS_BAD_HEADER && verdict.place == 0, "a huge image");
    verdict = bias_load(image.bytes, 0, huge, HUGE, state.bytes, state.length);
    check(verdict.number == BIAS_ENDS_EARLY && verdict.place == 0, "huge marks");
    verdict = bias_load(image.bytes, image.length, marks.bytes, BIAS_MARKS_LENGTH, huge, HUGE);
    check(verdict.number == BIAS_NO_STATE && verdict.place == 0, "a huge state");
    bias_answer answer = bias_step(image.bytes, image.length, state.bytes, state.length, 0, huge, HUGE, 0, 0, 0);
    check(answer.number == BIAS_BAD_INPUTS && answer.place == HUGE, "huge inputs");
    answer = bias_step(image.bytes, image.length, huge, HUGE, 0, inputs.bytes, BIAS_INPUTS_LENGTH, 0, 0, 0);
    check(answer.number == BIAS_NO_STATE && answer.place == 0, "a huge state to step");
    verdict = bias_write(1, 2, 0, 0, 0, 1, huge, HUGE, out.bytes, sizeof out.bytes);
    check(verdict.number == BIAS_LEFT_OVER && verdict.place == HUGE, "huge blocks");
    verdict = bias_write(1, 2, 0, 0, 0, 1, blocks.bytes, BIAS_BLOCK_LENGTH, huge, HUGE);
    check(verdict.number == BIAS_SUCCESS && verdict.place == 6 + BIAS_BLOCK_LENGTH, "huge room");
    verdict = bias_write_landings(2, 2, 0, 0, 0, 1, huge, HUGE, blocks.bytes, BIAS_BLOCK_LENGTH, out.bytes,
                                  sizeof out.bytes);
    check(verdict.number == BIAS_BAD_LANDINGS && verdict.place == 6, "huge landings");
    memcpy(huge, (const uint8_t[]){1, 2, 0, 0, 0, 1, 0x55, 0, 0, 0, 0, 0, 0, 0}, 14);
    verdict = bias_load(huge, HUGE, marks.bytes, BIAS_MARKS_LENGTH, state.bytes, BIAS_STATE_LENGTH);
    check(verdict.number == BIAS_LEFT_OVER && verdict.place == 14, "a huge image with a good front");
    munmap(huge, HUGE);
}

/* ---- all of it ---- */

static void open_regions(void)
{
    region_open(&image_region, 2 * BIAS_MOST_IMAGE_LENGTH);
    region_open(&marks_region, MOST_CONTENT + 8);
    region_open(&state_region, 2 * BIAS_STATE_LENGTH + 8);
    region_open(&inputs_region, 2 * BIAS_INPUTS_LENGTH + 8);
    region_open(&landings_region, MOST_LIST + 8);
    region_open(&blocks_region, 32768);
    region_open(&out_region, 2 * 32768);
    content_fill(&marks, sizeof marks.bytes);
}

/* Prints how often each number was met; gives how many never were. */
static int tell_numbers(const function *f)
{
    int missed = 0;
    printf("%s by number:", f->name);
    for (size_t at = 0; at < f->count; at++)
        printf(" %lu: %lu", (unsigned long)f->numbers[at], f->met[f->numbers[at]]);
    printf("\n");
    for (size_t at = 0; at < f->count; at++)
        if (f->met[f->numbers[at]] == 0) {
            fprintf(stderr, "fuzz: no %s answered %lu\n", f->name, (unsigned long)f->numbers[at]);
            missed++;
        }
    return missed;
}

/* The same of the longest images. */
static int tell_longest(void)
{
    int missed = 0;
    for (unsigned type = 0; type < TYPES; type++) {
        printf("longest images of type %u:", type);
        for (unsigned done = 0; done < DEEDS; done++)
            printf(" %s %lu", deeds[done], longest[type][done]);
        printf("\n");
        for (unsigned done = 0; done < DEEDS; done++)
            if (longest[type][done] == 0) {
                fprintf(stderr, "fuzz: no longest image of type %u was %s\n", type, deeds[done]);
                missed++;
            }
    }
    return missed;
}

int main(int argc, char **argv)
{
    unsigned long calls = DEFAULT_CALLS;
    random_state = DEFAULT_SEED;
    for (int at = 1; at < argc; at += 2) {
        if (at + 1 < argc && strcmp(argv[at], "--seed") == 0) {
            random_state = strtoull(argv[at + 1], NULL, 10);
        } else if (at + 1 < argc && strcmp(argv[at], "--calls") == 0) {
            calls = strtoul(argv[at + 1], NULL, 10);
        } else {
            fprintf(stderr, "usage: fuzz [--seed S] [--calls N]\n");
            return 2;
        }
    }
    open_regions();
    fuzz_huge();
    fresh_run();
    for (current_call = 0; current_call < calls; current_call++) {
        const size_t kind = random_below(20);
        if (kind < 2)
            fuzz_load();
        else if (kind < 18)
            fuzz_step();
        else
            fuzz_write();
    }
    const int missed = tell_numbers(&load) + tell_numbers(&step) + tell_numbers(&writing)
        + tell_numbers(&writing_landings) + tell_longest();
    unsigned long accepted = 0;
    for (unsigned type = 0; type < TYPES; type++)
        accepted += longest[type][ACCEPTED];
    printf("counted: %lu calls at two places each, %lu longest images accepted, %d things not met\n", calls, accepted,
           missed);
    return missed == 0 ? 0 : 1;
}
