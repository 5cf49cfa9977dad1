/* imagecheck.c - holds the library to the table of listing.c, of which docs/IMAGE.md is made: which codes are carried,
 * the ends of each operand's range and what is beyond them, unused bytes, drives, boards and pins, tasks, what a
 * variable may hold, a landing block included, and what a time counts. Prints how much it tried; the status is 0 if all
 * is as the table says and each number that it looks for was met.
 */
#include <stdarg.h>
#include <stdio.h>
#include <string.h>

#include "bias.h"
#include "listing.h"

enum { CODES = 256, BYTES = 256, TASKS = 3, TYPES = 5, NUMBERS = 24, MOST_SHOWN = 20, MOST_VALUES = 256 };

typedef struct {
    uint32_t type, slot_b, slot_c;
} drive;

/* A program to lend: its drive, its landing blocks as bytes if it is of format 2, and its blocks. */
typedef struct {
    drive on;
    const uint8_t *landings; /* NULL for format 1 */
    size_t landings_len;
    unsigned count;
    uint8_t blocks[BIAS_MOST_BLOCKS][BIAS_BLOCK_LENGTH];
} program;

static const drive plain_637 = {BIAS_TYPE_637, BIAS_SLOT_B_EMPTY, BIAS_SLOT_C_EMPTY};

static uint8_t image[BIAS_MOST_IMAGE_LENGTH], marks[BIAS_MARKS_LENGTH], state[BIAS_STATE_LENGTH];
static size_t image_len;
static unsigned long loads, steps, wrong;
static unsigned long met[NUMBERS]; /* how often each number was expected and came */

/* ---- loads and steps ---- */

static void complain(const char *format, ...)
{
    va_list arguments;
    if (wrong++ >= MOST_SHOWN)
        return;
    va_start(arguments, format);
    vprintf(format, arguments);
    va_end(arguments);
    printf("\n");
}

/* Writes a program as an image and loads it; a refusal of the writer is the verdict then. */
static bias_verdict load(const program *it)
{
    const drive *on = &it->on;
    const size_t length = (size_t)BIAS_BLOCK_LENGTH * it->count;
    const bias_verdict written = it->landings == NULL
        ? bias_write(BIAS_FORMAT, on->type, on->slot_b, on->slot_c, 0, it->count, &it->blocks[0][0], length, image,
                     sizeof image)
        : bias_write_landings(BIAS_FORMAT_LANDINGS, on->type, on->slot_b, on->slot_c, 0, it->count, it->landings,
                              it->landings_len, &it->blocks[0][0], length, image, sizeof image);
    loads++;
    image_len = (size_t)written.place;
    return written.number != BIAS_SUCCESS
        ? written : bias_load(image, image_len, marks, sizeof marks, state, sizeof state);
}

/* Looks at a verdict on a program; `block` is the one that is tried. */
static void compare(const program *it, unsigned block, const char *what, bias_verdict got, bias_verdict expected)
{
    if (got.number == expected.number && got.place == expected.place && got.task == expected.task
        && got.depth == expected.depth) {
        met[expected.number]++;
        return;
    }
    const uint8_t *b = it->blocks[block];
    complain("%s: %02X %02X %02X %02X %02X %02X %02X %02X on a %s, slots %u and %u: refusal %lu place %llu task %lu "
             "depth %lu, expected %lu %llu %lu %lu", what, b[0], b[1], b[2], b[3], b[4], b[5], b[6], b[7],
             listing_type(it->on.type), (unsigned)it->on.slot_b, (unsigned)it->on.slot_c, (unsigned long)got.number,
             (unsigned long long)got.place, (unsigned long)got.task, (unsigned long)got.depth,
             (unsigned long)expected.number, (unsigned long long)expected.place, (unsigned long)expected.task,
             (unsigned long)expected.depth);
}

static void expect(const program *it, unsigned block, const char *what, bias_verdict expected)
{
    compare(it, block, what, load(it), expected);
}

/* Steps a task of the program that was loaded. */
static uint32_t step(uint32_t task)
{
    static const uint8_t inputs[BIAS_INPUTS_LENGTH];
    steps++;
    return bias_step(image, image_len, state, sizeof state, task, inputs, sizeof inputs, 0, 1, 1).number;
}

/* ---- what the table says ---- */

/* Whether a drive has a board of the table in its slot. */
static int fitted(const drive *on, const listing_home *home)
{
    return (home->slot == 'B' ? on->slot_b : on->slot_c) == home->number;
}

/* Of a pin: 0, 6 or 23. */
static uint32_t pin_by_table(const drive *on, unsigned use, unsigned pin)
{
    size_t count;
    const listing_home *homes = listing_homes(&count);
    for (size_t n = 0; n < count; n++)
        if ((homes[n].types >> on->type & 1) && listing_has_pin(homes + n, use, pin))
            return homes[n].board == NULL || fitted(on, homes + n) ? BIAS_SUCCESS : BIAS_BOARD_MISSING;
    return BIAS_NOT_ON_DRIVE;
}

static int byte_used(const listing_command *command, unsigned byte)
{
    for (const listing_operand *operand = command->operands; operand->kind != LISTING_NO_OPERAND; operand++)
        if (byte >= operand->at && byte < operand->at + listing_bytes(operand))
            return 1;
    return 0;
}

/* Of a block by itself: 0, 5, 6 or 23, 7, 8, in this order. */
static uint32_t by_table(const drive *on, const uint8_t *block, unsigned count)
{
    const listing_command *command = listing_command_of(block[0]);
    if (command == NULL)
        return BIAS_BAD_CODE;
    if (!(command->types >> on->type & 1))
        return BIAS_NOT_ON_DRIVE;
    const listing_operand *pin = listing_pin_operand(command);
    const uint32_t missing = pin == NULL ? 0 : pin_by_table(on, pin->kind, (unsigned)listing_value(pin, block));
    if (missing != BIAS_SUCCESS)
        return missing;
    for (const listing_operand *operand = command->operands; operand->kind != LISTING_NO_OPERAND; operand++)
        if (!listing_in_range(operand, block, count))
            return BIAS_BAD_OPERAND;
    for (unsigned byte = 1; byte < BIAS_BLOCK_LENGTH; byte++)
        if (!byte_used(command, byte) && block[byte] != 0)
            return BIAS_UNUSED_NOT_ZERO;
    return BIAS_SUCCESS;
}

/* ---- blocks ---- */

/* Puts a number into an operand's bytes. */
static void put(uint8_t *block, const listing_operand *operand, int64_t number)
{
    uint8_t *at = block + operand->at;
    const uint32_t bits = (uint32_t)number;
    switch (operand->coding) {
    case LISTING_UPPER_HALF: at[0] = (uint8_t)(at[0] % 16 + 16 * bits); break;
    case LISTING_LOWER_HALF_AND_BYTE:
        at[0] = (uint8_t)(at[0] / 16 * 16 + bits / 256);
        at[1] = (uint8_t)bits;
        break;
    default:
        for (unsigned n = 0; n < listing_bytes(operand); n++)
            at[n] = (uint8_t)(bits >> 8 * n);
    }
}

/* A pin that the drive has without a board. */
static unsigned own_pin(const drive *on, unsigned use)
{
    unsigned pin = 0;
    while (pin + 1 < BYTES && pin_by_table(on, use, pin) != BIAS_SUCCESS)
        pin++;
    return pin;
}

/* A block that the table permits on a drive, if it permits the code: the least of each range. */
static void make_good(uint8_t *block, uint8_t code, const drive *on)
{
    const listing_command *command = listing_command_of(code);
    memset(block, 0, BIAS_BLOCK_LENGTH);
    block[0] = code;
    if (command == NULL)
        return;
    for (const listing_operand *operand = command->operands; operand->kind != LISTING_NO_OPERAND; operand++)
        put(block, operand, listing_kind_of(operand->kind)->least);
    const listing_operand *pin = listing_pin_operand(command);
    if (pin != NULL)
        put(block, pin, own_pin(on, pin->kind));
}

/* Block `at` jumps to block `to`. */
static void make_jump(program *it, unsigned at, unsigned to)
{
    const uint8_t jump[BIAS_BLOCK_LENGTH] = {0x55, (uint8_t)to, (uint8_t)(to / 256)};
    memcpy(it->blocks[at], jump, sizeof jump);
}

/* ---- the table by itself ---- */

/* Operands stand one behind the other from D1 on, the two halves of a byte in it, and not past D7. */
static void check_table(void)
{
    for (unsigned code = 0; code < CODES; code++) {
        const listing_command *command = listing_command_of((uint8_t)code);
        const listing_operand *operand = command == NULL ? NULL : command->operands;
        unsigned next = 1;
        for (; operand != NULL && operand->kind != LISTING_NO_OPERAND; operand++) {
            if (operand->coding > LISTING_LOWER_HALF_AND_BYTE || operand->at != next)
                complain("%02X: an operand at D%u, expected at D%u", code, operand->at, next);
            next = operand->coding == LISTING_UPPER_HALF ? operand->at : operand->at + listing_bytes(operand);
        }
        if (next > BIAS_BLOCK_LENGTH)
            complain("%02X: an operand past D7", code);
    }
}

/* ---- a block by itself ---- */

/* A program of which BIAS runs block 0 alone; block 1 is there to be judged, and nobody reaches it. */
enum { TRIED = 1 };

static void make_frame(program *it, const drive *on, unsigned count)
{
    it->on = *on;
    it->landings = NULL;
    it->count = count;
    for (unsigned block = 0; block < count; block++)
        make_jump(it, block, block);
}

static void expect_by_table(const program *it, const char *what)
{
    const uint32_t number = by_table(&it->on, it->blocks[TRIED], it->count);
    const bias_verdict expected = {number == BIAS_SUCCESS ? 0 : TRIED, number, 0, 0};
    expect(it, TRIED, what, expected);
}

/* Every code on every type. */
static void check_codes(program *it)
{
    for (uint32_t type = 0; type < TYPES; type++) {
        const drive on = {type, 0, 0};
        make_frame(it, &on, 3);
        for (unsigned code = 0; code < CODES; code++) {
            make_good(it->blocks[TRIED], (uint8_t)code, &on);
            expect_by_table(it, "code");
        }
    }
}

/* The numbers to try in an operand: of a byte or half of one all, of others ends of ranges and those beside them. */
static unsigned values(const listing_operand *operand, unsigned count, int64_t *list)
{
    static const int64_t greatest[] = {
        [LISTING_BYTE] = 0xFF, [LISTING_WORD] = 0xFFFF, [LISTING_LONG] = INT32_MAX, [LISTING_UPPER_HALF] = 0xF,
        [LISTING_LOWER_HALF_AND_BYTE] = 0xFFF};
    const listing_kind *kind = listing_kind_of(operand->kind);
    const int64_t ends[] = {kind->least, kind->most, 0, count, 0xFF, 0xFFF, 0xFFFF, 0xFFFFFF, INT32_MIN, INT32_MAX};
    const int64_t least = operand->coding == LISTING_LONG ? INT32_MIN : 0, most = greatest[operand->coding];
    unsigned found = 0;
    if (most <= 0xFF) {
        for (int64_t value = 0; value <= most; value++)
            list[found++] = value;
        return found;
    }
    for (unsigned n = 0; n < sizeof ends / sizeof ends[0]; n++)
        for (int64_t value = ends[n] - 1; value <= ends[n] + 1; value++)
            if (value >= least && value <= most)
                list[found++] = value;
    return found;
}

static void check_operand(program *it, const listing_command *command, const listing_operand *operand)
{
    int64_t list[MOST_VALUES];
    uint8_t *block = it->blocks[TRIED];
    const unsigned found = values(operand, it->count, list);
    for (unsigned n = 0; n < found; n++) {
        make_good(block, command->code, &it->on);
        put(block, operand, list[n]);
        expect_by_table(it, "operand");
    }
}

/* Each operand at the least or at the most of its range: bit n of `corner` is for operand n. */
static void check_corner(program *it, const listing_command *command, unsigned corner)
{
    uint8_t *block = it->blocks[TRIED];
    make_good(block, command->code, &it->on);
    for (unsigned n = 0; command->operands[n].kind != LISTING_NO_OPERAND; n++)
        if (corner >> n & 1)
            put(block, command->operands + n, listing_kind_of(command->operands[n].kind)->most);
    expect_by_table(it, "corner");
}

/* 86's two numbers have a limit together. */
static void check_flags(program *it, const listing_command *command, const listing_operand *first)
{
    uint8_t *block = it->blocks[TRIED];
    for (unsigned flag = 0; flag < BYTES; flag++)
        for (unsigned number = 0; number < 35; number++) {
            make_good(block, command->code, &it->on);
            put(block, first, flag);
            put(block, first + 1, number);
            expect_by_table(it, "flags");
        }
}

static void check_operands(program *it)
{
    make_frame(it, &plain_637, 3);
    for (unsigned code = 0; code < CODES; code++) {
        const listing_command *command = listing_command_of((uint8_t)code);
        if (command == NULL)
            continue;
        for (unsigned corner = 0; corner < 1u << (LISTING_MOST_OPERANDS - 1); corner++)
            check_corner(it, command, corner);
        for (const listing_operand *operand = command->operands; operand->kind != LISTING_NO_OPERAND; operand++) {
            check_operand(it, command, operand);
            if (operand->kind == LISTING_FIRST_FLAG)
                check_flags(it, command, operand);
        }
    }
}

/* The greatest program: a block's number up to its end. */
static void check_most_blocks(program *it)
{
    make_frame(it, &plain_637, BIAS_MOST_BLOCKS);
    for (unsigned code = 0; code < CODES; code++) {
        const listing_command *command = listing_command_of((uint8_t)code);
        const listing_operand *operand = command == NULL ? NULL : command->operands;
        for (; operand != NULL && operand->kind != LISTING_NO_OPERAND; operand++)
            if (operand->kind == LISTING_BLOCK)
                check_operand(it, command, operand);
    }
}

static void check_unused_bytes(program *it)
{
    make_frame(it, &plain_637, 3);
    for (unsigned code = 0; code < CODES; code++) {
        const listing_command *command = listing_command_of((uint8_t)code);
        for (unsigned byte = 1; command != NULL && byte < BIAS_BLOCK_LENGTH; byte++)
            for (unsigned bit = 0; bit < 8 && !byte_used(command, byte); bit++) {
                make_good(it->blocks[TRIED], command->code, &it->on);
                it->blocks[TRIED][byte] = (uint8_t)(1u << bit);
                expect_by_table(it, "unused byte");
            }
    }
}

/* ---- drives and pins ---- */

/* Of the header: 0, or 3 at its first bad number. */
static bias_verdict header_by_table(const drive *on)
{
    size_t count;
    const listing_home *homes = listing_homes(&count);
    int takes_b = on->slot_b == 0, takes_c = on->slot_c == 0;
    for (size_t n = 0; n < count && on->type < TYPES; n++)
        if (homes[n].board != NULL && fitted(on, homes + n) && (homes[n].types >> on->type & 1)) {
            takes_b |= homes[n].slot == 'B';
            takes_c |= homes[n].slot == 'C';
        }
    const uint64_t bad = on->type >= TYPES ? 1 : !takes_b ? 2 : !takes_c ? 3 : 0;
    const bias_verdict verdict = {bad, bad == 0 ? BIAS_SUCCESS : BIAS_BAD_HEADER, 0, 0};
    return verdict;
}

static void check_pins(program *it)
{
    for (unsigned code = 0; code < CODES; code++) {
        const listing_command *command = listing_command_of((uint8_t)code);
        const listing_operand *pin = command == NULL ? NULL : listing_pin_operand(command);
        if (pin != NULL)
            check_operand(it, command, pin);
    }
}

/* The writer and the loader on a header; the loader is lent bytes that the writer would not write. */
static bias_verdict check_header(const program *it)
{
    const drive *on = &it->on;
    const uint8_t bytes[] = {BIAS_FORMAT, (uint8_t)on->type, (uint8_t)on->slot_b, (uint8_t)on->slot_c, 0, 1, 0x55, 0, 0,
                             0, 0, 0, 0, 0};
    const bias_verdict header = header_by_table(on);
    expect(it, TRIED, "header written", header);
    loads++;
    compare(it, TRIED, "header", bias_load(bytes, sizeof bytes, marks, sizeof marks, state, sizeof state), header);
    return header;
}

/* Every type with every board, and every pin of each command that uses one. */
static void check_drives(program *it)
{
    for (uint32_t type = 0; type <= TYPES; type++)
        for (uint32_t slot_b = 0; slot_b < 4; slot_b++)
            for (uint32_t slot_c = 0; slot_c < 4; slot_c++) {
                const drive on = {type, slot_b, slot_c};
                make_frame(it, &on, 3);
                if (check_header(it).number == BIAS_SUCCESS)
                    check_pins(it);
            }
}

/* ---- tasks ---- */

/* A program in which one task, inside a call, comes to block IN_TASK. All other blocks jump to themselves. */
enum { FIRST = 2, IN_TASK = 4, TASK_BLOCKS = 6 };

static void make_task_frame(program *it, unsigned task)
{
    static const uint8_t starts[TASKS] = {0x55, 0x54, 0x90};
    const uint8_t start[BIAS_BLOCK_LENGTH] = {starts[task], FIRST}, call[BIAS_BLOCK_LENGTH] = {0x52, IN_TASK};
    make_frame(it, &plain_637, TASK_BLOCKS);
    memcpy(it->blocks[0], start, sizeof start);
    memcpy(it->blocks[FIRST], call, sizeof call);
}

/* Block addresses in the tried block name this one, which every task may execute. */
static void make_in_task(program *it, const listing_command *command)
{
    make_good(it->blocks[IN_TASK], command->code, &it->on);
    for (const listing_operand *operand = command->operands; operand->kind != LISTING_NO_OPERAND; operand++)
        if (operand->kind == LISTING_BLOCK)
            put(it->blocks[IN_TASK], operand, IN_TASK + 1);
}

/* 1 to 3 end BIAS, the PLC and mathematics, and pass in that task alone. */
static void check_end_modes(program *it, unsigned task, const listing_operand *mode)
{
    const bias_verdict accepted = {0, BIAS_SUCCESS, 0, 0}, foreign = {IN_TASK, BIAS_BAD_OPERAND, 0, 0};
    for (unsigned number = 1; number <= TASKS; number++) {
        put(it->blocks[IN_TASK], mode, number);
        expect(it, IN_TASK, listing_task(task), number - 1 == task ? accepted : foreign);
    }
}

/* The task starts, calls, and comes to the command. Variables are 0 and there are no landing blocks, so some commands
 * halt. */
static void check_executed(uint32_t task, const listing_command *command)
{
    step(BIAS_TASK_BIAS);
    step(task);
    const uint32_t number = step(task);
    if (number != BIAS_SUCCESS && number != BIAS_ZERO_DIVISOR && number != BIAS_BAD_CONTENT
        && number != BIAS_NO_LANDING)
        complain("%02X by %s: the step is refused by %lu", command->code, listing_task(task), (unsigned long)number);
}

static void check_tasks(program *it)
{
    for (unsigned task = 0; task < TASKS; task++) {
        const bias_verdict accepted = {0, BIAS_SUCCESS, 0, 0}, forbidden = {IN_TASK, BIAS_FORBIDDEN, task, 1};
        make_task_frame(it, task);
        for (unsigned code = 0; code < CODES; code++) {
            const listing_command *command = listing_command_of((uint8_t)code);
            if (command == NULL)
                continue;
            make_in_task(it, command);
            expect(it, IN_TASK, listing_task(task), command->tasks >> task & 1 ? accepted : forbidden);
            if (command->tasks >> task & 1)
                check_executed(task, command);
            if (command->operands[0].kind == LISTING_END_MODE)
                check_end_modes(it, task, command->operands);
        }
    }
}

/* ---- contents and times ---- */

/* Variable 0 gets a number, then block 1 reads it, then flag 0 is set. */
static void make_reader(program *it, const drive *on, const uint8_t *reader, int64_t number)
{
    static const listing_operand constant = {LISTING_CONSTANT, LISTING_LONG, 2, LISTING_NO_OPERAND};
    static const uint8_t set_variable[BIAS_BLOCK_LENGTH] = {0x80}, set_flag[BIAS_BLOCK_LENGTH] = {0x60, 0, 1};
    make_frame(it, on, 4);
    memcpy(it->blocks[0], set_variable, sizeof set_variable);
    put(it->blocks[0], &constant, number);
    memcpy(it->blocks[1], reader, BIAS_BLOCK_LENGTH);
    memcpy(it->blocks[2], set_flag, sizeof set_flag);
}

/* A variable that a command reads, or writes: with which contents it halts by 20. */
static void check_content(program *it, const listing_command *command, const listing_operand *operand)
{
    const listing_kind *kind = listing_kind_of(operand->content);
    const listing_operand content = {operand->content, LISTING_LONG, 0, LISTING_NO_OPERAND};
    const bias_verdict accepted = {0, BIAS_SUCCESS, 0, 0};
    uint8_t reader[BIAS_BLOCK_LENGTH];
    int64_t list[MOST_VALUES];
    const unsigned found = values(&content, 0, list);
    make_good(reader, command->code, &plain_637);
    for (unsigned n = 0; n < found; n++) {
        const int passes = operand->content == LISTING_NO_OPERAND || (list[n] >= kind->least && list[n] <= kind->most);
        make_reader(it, &plain_637, reader, list[n]);
        expect(it, 1, "content", accepted);
        step(BIAS_TASK_BIAS);
        const uint32_t got = step(BIAS_TASK_BIAS);
        if (got == BIAS_BAD_CONTENT)
            met[BIAS_BAD_CONTENT]++;
        if ((got != BIAS_BAD_CONTENT) != passes)
            complain("%02X with content %lld: %lu", command->code, (long long)list[n], (unsigned long)got);
    }
}

/* A program of format 2 in which a task sets variable 0 and then reads it as a landing block. Block LIT sets flag 0, all
 * others jump to themselves. */
enum { SETS = 2, READS = 3, LIT = 5, LAST = 6, LANDING_BLOCKS = 7 };

static void make_landing_frame(program *it, unsigned task, uint8_t code, int64_t number)
{
    static const uint8_t landings[] = {1, 0, LIT, 0, LAST, 0}, starts[TASKS] = {0x55, 0x54, 0x90};
    static const listing_operand constant = {LISTING_CONSTANT, LISTING_LONG, 2, LISTING_NO_OPERAND};
    const uint8_t start[BIAS_BLOCK_LENGTH] = {starts[task], SETS}, set[BIAS_BLOCK_LENGTH] = {0x80};
    const uint8_t read[BIAS_BLOCK_LENGTH] = {code}, light[BIAS_BLOCK_LENGTH] = {0x60, 0, 1};
    make_frame(it, &plain_637, LANDING_BLOCKS);
    it->landings = landings;
    it->landings_len = sizeof landings;
    memcpy(it->blocks[0], start, sizeof start);
    memcpy(it->blocks[SETS], set, sizeof set);
    put(it->blocks[SETS], &constant, number);
    memcpy(it->blocks[READS], read, sizeof read);
    memcpy(it->blocks[LIT], light, sizeof light);
}

/* Which contents 56 and 5B take in a task, and that they lead there: 56 the task itself, 5B BIAS. */
static void check_landings(program *it, const listing_command *command, uint32_t task)
{
    static const int64_t contents[] = {-1, 0, 1, 2, 4, LIT, LAST, LAST + 1, 1500, 65535, 65536, 65536 + LIT, LIT - 65536,
                                       INT32_MIN, INT32_MAX};
    const bias_verdict accepted = {0, BIAS_SUCCESS, 0, 0};
    const uint32_t led = command->tasks >> BIAS_TASK_BIAS & 1 ? task : BIAS_TASK_BIAS;
    for (unsigned n = 0; n < sizeof contents / sizeof contents[0]; n++) {
        const int64_t content = contents[n];
        const uint32_t expected = content == 1 || content == LIT || content == LAST ? BIAS_SUCCESS : BIAS_NO_LANDING;
        make_landing_frame(it, task, command->code, content);
        expect(it, READS, "landing block", accepted);
        step(BIAS_TASK_BIAS);
        step(task);
        const uint32_t got = step(task);
        met[BIAS_NO_LANDING] += got == BIAS_NO_LANDING;
        step(led);
        if (got != expected || (state[BIAS_STATE_FLAGS] != 0) != (content == LIT))
            complain("%02X by %s with content %lld: %lu, flag %u", command->code, listing_task(task),
                     (long long)content, (unsigned long)got, state[BIAS_STATE_FLAGS]);
    }
}

/* How many more steps a wait of `time` ms takes after the one that meets it: so many cycles are at least that time. */
static unsigned long turns(const drive *on, uint64_t time)
{
    const uint64_t cycle = on->type < BIAS_TYPE_637_PLUS ? 1899 : 844;
    return (unsigned long)((1000 * time + cycle - 1) / cycle);
}

static int is_time(unsigned kind)
{
    return kind == LISTING_TIME || kind == LISTING_TIME_IN_VARIABLE;
}

/* Steps waits; the time is the number, rounded as the table says, in the kind's units. */
static void check_time(program *it, const listing_command *command, const listing_operand *operand, uint32_t type)
{
    static const unsigned numbers[] = {0, 1, 2, 3, 5, 8, 250, 501};
    const drive on = {type, 0, 0};
    const int in_variable = is_time(operand->content);
    const unsigned factor = listing_kind_of(in_variable ? operand->content : operand->kind)->factor;
    const bias_verdict accepted = {0, BIAS_SUCCESS, 0, 0};
    for (unsigned n = 0; n < sizeof numbers / sizeof numbers[0]; n++) {
        uint8_t reader[BIAS_BLOCK_LENGTH];
        const unsigned rounded = in_variable && type < BIAS_TYPE_637_PLUS ? numbers[n] / 2 * 2 : numbers[n];
        const unsigned long expected = 3 + turns(&on, (uint64_t)rounded * factor); /* blocks 0, 1 and 2 at the least */
        unsigned long taken = 0;
        make_good(reader, command->code, &on);
        if (!in_variable)
            put(reader, operand, numbers[n]);
        make_reader(it, &on, reader, numbers[n]);
        expect(it, 1, "time", accepted);
        for (; state[BIAS_STATE_FLAGS] == 0 && taken <= expected; taken++)
            step(BIAS_TASK_BIAS);
        if (taken != expected)
            complain("%02X of %u on a %s: %lu steps, expected %lu", command->code, numbers[n], listing_type(type),
                     taken, expected);
    }
}

static void check_steps(program *it)
{
    for (unsigned code = 0; code < CODES; code++) {
        const listing_command *command = listing_command_of((uint8_t)code);
        const listing_operand *operand = command == NULL ? NULL : command->operands;
        for (; operand != NULL && operand->kind != LISTING_NO_OPERAND; operand++) {
            for (uint32_t task = 0; task < TASKS; task++)
                if (operand->content == LISTING_LANDING && (command->tasks >> task & 1))
                    check_landings(it, command, task);
            if (operand->kind == LISTING_VARIABLE && operand->content != LISTING_LANDING)
                check_content(it, command, operand);
            for (uint32_t type = 0; type < TYPES; type++)
                if (is_time(operand->kind) || is_time(operand->content))
                    check_time(it, command, operand, type);
        }
    }
}

int main(void)
{
    static program it;
    static const uint32_t sought[] = {BIAS_SUCCESS, BIAS_BAD_HEADER, BIAS_BAD_CODE, BIAS_NOT_ON_DRIVE, BIAS_BAD_OPERAND,
                                      BIAS_UNUSED_NOT_ZERO, BIAS_FORBIDDEN, BIAS_BAD_CONTENT, BIAS_NO_LANDING,
                                      BIAS_BOARD_MISSING};
    check_table();
    check_codes(&it);
    check_operands(&it);
    check_most_blocks(&it);
    check_unused_bytes(&it);
    check_drives(&it);
    check_tasks(&it);
    check_steps(&it);
    printf("%lu loads, %lu steps;", loads, steps);
    for (unsigned n = 0; n < sizeof sought / sizeof sought[0]; n++) {
        printf(" %lu: %lu", (unsigned long)sought[n], met[sought[n]]);
        if (met[sought[n]] == 0)
            wrong++;
    }
    printf("; %lu not as the table says\n", wrong);
    return wrong != 0;
}
