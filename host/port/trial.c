/* trial.c - the same calls on every machine, and hashes over what they answer and leave: host/port/check.sh compares them.
 * Runs the manual's feed program, each command in each task that may have it, operands and pins at their limits, sums and
 * comparisons of numbers at theirs, landing blocks at theirs, random programs of both formats (most of them accepted, some
 * damaged) with steps of all three tasks, and writes of images, with a fixed seed. Every field of every answer, every byte
 * of the state after each call and the bytes around what is lent go into a hash; a line for each group.
 * Fails by itself where too little was met: accepted programs, steps that went on, commands, numbers of answers.
 * Argument: none; "each" for a line for each random program, to find where machines differ; "fault" to turn one bit of one
 * state, which the comparison has to find. */
#include "bias.h"
#include "system.h"
#include "text.h"

static const uint8_t feed[] = {
#include "feed.inc"
};

enum { PROGRAMS = 3000, GROUP = 250, STEPS = 40, WRITES = 600, FEED_CYCLES = 2000, VARIANTS = 3 };
enum { TASKS = 3, NUMBERS = 24, MOST_SUBS = 6, BLOCK = BIAS_BLOCK_LENGTH };
enum { LEAST_FEED_REQUESTS = 4, SEED = 637 };

/* ---- text ---- */

static void put_hex(uint32_t number)
{
    char digits[8];
    for (size_t at = 0; at < sizeof digits; at++)
        digits[at] = "0123456789abcdef"[number >> (28 - 4 * at) & 15];
    put_bytes(digits, sizeof digits);
}

/* ---- chance ---- */

static uint32_t chance = SEED;

/* Begins again for a program, so that what one draws does not depend on those before it. */
static void begin_chance(uint32_t number)
{
    chance = SEED + 2654435761u * number;
    if (chance == 0)
        chance = SEED;
}

static uint32_t random32(void)
{
    chance ^= chance << 13;
    chance ^= chance >> 17;
    chance ^= chance << 5;
    return chance;
}

static uint32_t below(uint32_t bound)
{
    return (random32() >> 4) % bound;
}

static uint32_t between(uint32_t low, uint32_t high)
{
    return low + below(high - low + 1);
}

static int one_in(uint32_t bound)
{
    return below(bound) == 0;
}

/* ---- hashes: one of the group, one of all groups ---- */

typedef struct {
    uint32_t a, b;
} hash;

static const hash fresh_hash = {SEED, SEED};
static hash group_hash = {SEED, SEED}, whole_hash = {SEED, SEED};

static void mix_into(hash *h, uint32_t word)
{
    h->a = (h->a ^ word) * 0x01000193u;
    h->a ^= h->a >> 15;
    h->b = (h->b + word) * 0x85EBCA6Bu;
    h->b ^= h->b >> 13;
}

static void mix(uint32_t word)
{
    mix_into(&group_hash, word);
}

static void mix_long(uint64_t value)
{
    mix((uint32_t)value);
    mix((uint32_t)(value >> 32));
}

static void mix_bytes(const uint8_t *bytes, size_t length)
{
    for (; length >= 4; bytes += 4, length -= 4)
        mix(bytes[0] | (uint32_t)bytes[1] << 8 | (uint32_t)bytes[2] << 16 | (uint32_t)bytes[3] << 24);
    for (; length > 0; bytes++, length--)
        mix(*bytes);
}

/* ---- what was met ---- */

static uint32_t accepted, refused, programs_run, steps_done, landed, loads_by[NUMBERS], steps_by[NUMBERS];
static uint8_t code_done[256];

static void count_in(uint32_t *numbers, uint32_t number)
{
    if (number < NUMBERS)
        numbers[number]++;
}

static void end_group(const char *name, uint32_t number)
{
    put_text(name);
    put_text(" ");
    put_number(number);
    put_text(": ");
    put_hex(group_hash.a);
    put_hex(group_hash.b);
    put_text("\n");
    mix_into(&whole_hash, group_hash.a);
    mix_into(&whole_hash, group_hash.b);
    group_hash = fresh_hash;
}

/* ---- what is lent: each buffer begins at any byte and has guard bytes around it ---- */

enum { GUARD = 16, SHIFTS = 8, PATTERN = 0xA5, AROUND = 2 * GUARD + SHIFTS };

static uint8_t state_room[BIAS_STATE_LENGTH + AROUND], marks_room[BIAS_MARKS_LENGTH + AROUND];
static uint8_t image_room[BIAS_MOST_IMAGE_LENGTH + AROUND], inputs_room[BIAS_INPUTS_LENGTH + AROUND];
static uint8_t *state, *marks, *image, *inputs;
static size_t image_len;

static uint8_t *place_in(uint8_t *room, size_t length)
{
    for (size_t at = 0; at < length; at++)
        room[at] = PATTERN;
    return room + GUARD + below(SHIFTS);
}

static void place_all(void)
{
    state = place_in(state_room, sizeof state_room);
    marks = place_in(marks_room, sizeof marks_room);
    image = place_in(image_room, sizeof image_room);
    inputs = place_in(inputs_room, sizeof inputs_room);
    for (size_t at = 0; at < BIAS_INPUTS_LENGTH; at++)
        inputs[at] = 0;
}

/* ---- the three calls, with all that they answer and leave ---- */

static void mix_verdict(bias_verdict verdict)
{
    mix_long(verdict.place);
    mix(verdict.number);
    mix(verdict.task);
    mix(verdict.depth);
}

static bias_verdict load_with(size_t marks_len, size_t state_len)
{
    const bias_verdict verdict = bias_load(image, image_len, marks, marks_len, state, state_len);
    mix_verdict(verdict);
    mix_bytes(state_room, sizeof state_room);
    mix_bytes(marks_room, (size_t)(marks - marks_room));
    mix_bytes(marks + BIAS_MARKS_LENGTH, (size_t)(marks_room + sizeof marks_room - marks) - BIAS_MARKS_LENGTH);
    count_in(loads_by, verdict.number);
    if (verdict.number == BIAS_SUCCESS)
        accepted++;
    else
        refused++;
    return verdict;
}

static bias_verdict load(void)
{
    return load_with(BIAS_MARKS_LENGTH, BIAS_STATE_LENGTH);
}

/* A step: which task, the levels beside the pins, and lengths that may be wrong. */
typedef struct {
    uint32_t task;
    uint8_t start, ramp_ended, in_window;
    size_t state_len, inputs_len;
} given;

static uint32_t fault_at; /* the step whose state gets a turned bit; 0 for none */

static bias_answer step(given g)
{
    const bias_answer answer = bias_step(image, image_len, state, g.state_len, g.task, inputs, g.inputs_len, g.start,
                                         g.ramp_ended, g.in_window);
    steps_done++;
    if (steps_done == fault_at)
        state[BIAS_STATE_LENGTH - 1] ^= 1;
    mix_long(answer.place);
    mix(answer.number);
    mix(answer.task);
    mix(answer.depth);
    mix(answer.motion);
    mix((uint32_t)answer.position);
    mix(answer.speed);
    mix(answer.acceleration);
    mix(answer.deceleration);
    mix(answer.mode);
    mix_bytes(state_room, sizeof state_room);
    count_in(steps_by, answer.number);
    return answer;
}

static given plain(uint32_t task)
{
    const given g = {task, 0, 1, 1, BIAS_STATE_LENGTH, BIAS_INPUTS_LENGTH};
    return g;
}

/* ---- a program being made ---- */

static uint8_t blocks[BIAS_MOST_BLOCKS * BLOCK];
static uint32_t count;

/* The landing list of a program of format 2; format 1 has none. */
static uint8_t landings[2 * BIAS_MOST_LANDINGS];
static uint32_t landing_count;
static int listed;

/* A drive; `wild` is for a program whose pins and commands may be those of other drives. */
typedef struct {
    uint32_t type, slot_b, slot_c, start;
    int wild;
} drive;

static drive some_drive(void)
{
    drive d = {0, 0, 0, 0, 0};
    d.type = below(5);
    d.wild = one_in(5);
    if (d.type > BIAS_TYPE_631) {
        d.slot_b = below(d.type == BIAS_TYPE_637F ? 3 : 2);
        d.slot_c = below(d.type == BIAS_TYPE_637F ? 3 : 2);
    }
    return d;
}

static void write_image(drive d)
{
    const bias_verdict verdict = listed
        ? bias_write_landings(BIAS_FORMAT_LANDINGS, d.type, d.slot_b, d.slot_c, d.start, count, landings, 2 * landing_count,
                              blocks, count * BLOCK, image, BIAS_MOST_IMAGE_LENGTH)
        : bias_write(BIAS_FORMAT, d.type, d.slot_b, d.slot_c, d.start, count, blocks, count * BLOCK, image,
                     BIAS_MOST_IMAGE_LENGTH);
    mix_verdict(verdict);
    image_len = verdict.number == BIAS_SUCCESS ? (size_t)verdict.place : 0;
    mix_bytes(image, image_len);
}

/* ---- the commands: code, the tasks that may have it (1 BIAS, 2 PLC, 4 mathematics), the form of its operands ---- */

typedef enum {
    BARE, MODE, TARGET, WORD, ONE_VARIABLE, FLAG_LEVEL, FLAG_JUMP, TWO, FLAG_INPUT, FLAG_OUTPUT, THREE, BIT_JUMP, INPUT_JUMP,
    OUTPUT_JUMP, OUTPUT_LEVEL, OUTPUT_FLAG, VARIABLE_VALUE, VALUE_JUMP, TWO_VALUE, FLAG_RUN, VARIABLE_JUMP, STOP, STOP_RAMP,
    VALUE, SPEED, RAMP, LANDING
} form;

typedef struct {
    uint8_t code, tasks;
    form form;
} command;

enum { B = 1, BP = 3, BM = 5, PM = 6, ALL = 7 };

static const command commands[] = {
    {0x50, ALL, BARE}, {0x51, ALL, MODE}, {0x52, ALL, TARGET}, {0x53, ALL, BARE}, {0x54, BM, TARGET},
    {0x55, ALL, TARGET}, {0x57, PM, TARGET}, {0x58, B, BARE}, {0x59, B, WORD}, {0x5A, B, ONE_VARIABLE},
    {0x90, BP, TARGET}, {0x60, ALL, FLAG_LEVEL}, {0x61, ALL, FLAG_JUMP}, {0x62, ALL, TWO}, {0x63, ALL, FLAG_INPUT},
    {0x64, ALL, FLAG_OUTPUT}, {0x65, ALL, THREE}, {0x66, ALL, THREE}, {0x67, ALL, THREE}, {0x68, ALL, TWO},
    {0x6E, ALL, BIT_JUMP}, {0x70, ALL, INPUT_JUMP}, {0x71, ALL, OUTPUT_JUMP}, {0x72, ALL, OUTPUT_LEVEL},
    {0x73, ALL, OUTPUT_FLAG}, {0x80, ALL, VARIABLE_VALUE}, {0x81, ALL, VALUE_JUMP}, {0x82, ALL, TWO_VALUE},
    {0x83, ALL, TWO_VALUE}, {0x84, ALL, TWO_VALUE}, {0x85, ALL, TWO_VALUE}, {0x86, BP, FLAG_RUN}, {0x88, ALL, TWO},
    {0x89, ALL, VARIABLE_JUMP}, {0x8A, ALL, THREE}, {0x8B, ALL, THREE}, {0x8C, ALL, THREE}, {0x8D, ALL, THREE},
    {0x00, B, BARE}, {0x01, B, BARE}, {0x03, B, BARE}, {0x04, B, BARE}, {0x0E, B, BARE}, {0x0F, BP, STOP},
    {0x1F, BP, STOP_RAMP}, {0x20, B, VALUE}, {0x21, B, SPEED}, {0x22, B, RAMP}, {0x23, B, RAMP}, {0x30, B, ONE_VARIABLE},
    {0x31, B, ONE_VARIABLE}, {0x32, B, ONE_VARIABLE}, {0x33, B, ONE_VARIABLE}, {0x40, ALL, ONE_VARIABLE},
    {0x41, ALL, ONE_VARIABLE}, {0x42, ALL, ONE_VARIABLE}, {0x43, ALL, ONE_VARIABLE}, {0x56, ALL, LANDING},
    {0x5B, PM, LANDING},
};
enum { COMMANDS = sizeof commands / sizeof commands[0] };

/* Pins of the drives and of their boards; a program that names one which its drive lacks is refused by 6 or 23. A program
 * that is not wild has pins that are on the drive itself: of a 631, of the others. */
static const uint8_t input_pins[] = {7, 10, 2, 4, 11, 15, 22, 25, 101, 108, 201, 216, 121, 124, 91, 93};
static const uint8_t output_pins[] = {5, 6, 12, 13, 20, 23, 109, 110, 209, 217, 224, 125, 128};

static uint8_t input_pin(drive d)
{
    if (!d.wild || !one_in(6))
        return d.type == BIAS_TYPE_631 ? 7 : 11;
    return input_pins[below(sizeof input_pins)];
}

static uint8_t output_pin(drive d)
{
    if (!d.wild || !one_in(6))
        return (uint8_t)(d.type == BIAS_TYPE_631 ? 5 : 12 + below(2));
    return output_pins[below(sizeof output_pins)];
}

static void put_word(uint8_t *at, uint32_t value)
{
    at[0] = (uint8_t)value;
    at[1] = (uint8_t)(value >> 8);
}

static void put_value(uint8_t *at, uint32_t value)
{
    put_word(at, value);
    put_word(at + 2, value >> 16);
}

/* The ends of what a variable holds, and numbers whose products are near them. */
static const uint32_t ends[] = {0, 1, 2, 0x7FFFFFFF, 0x80000000, 0x80000001, 0xFFFFFFFF, 0xFFFFFFFE, 46341, 0xFFFF4AFA};
enum { ENDS = sizeof ends / sizeof ends[0], CONDITIONS = 8 };

/* Numbers as programs have them, and at the ends. */
static uint32_t some_value(void)
{
    switch (below(4)) {
    case 0: return ends[below(ENDS)];
    case 1: return random32();
    default: return between(1, 12000);
    }
}

/* Variables 0 to 3 get values that a speed or a divisor may have, so that tasks go on. */
static uint8_t some_variable(void)
{
    return (uint8_t)(one_in(8) ? below(256) : below(8));
}

static uint8_t some_flag(void)
{
    return (uint8_t)(one_in(8) ? below(256) : below(8));
}

/* The variable that mostly holds a landing block. */
enum { AIMED = 12 };

/* Operands for a form; `target` is where it leads to. */
static void put_operands(uint8_t *d, form f, drive on, uint32_t target)
{
    switch (f) {
    case BARE: break;
    case MODE: break;
    case TARGET: put_word(d, target); break;
    case WORD: put_word(d, one_in(8) ? below(65536) : below(4)); break;
    case ONE_VARIABLE: d[0] = (uint8_t)(one_in(8) ? below(256) : below(4)); break;
    case FLAG_LEVEL: d[0] = some_flag(), d[1] = (uint8_t)below(2); break;
    case FLAG_JUMP: d[0] = some_flag(), d[1] = (uint8_t)below(2), d[2] = (uint8_t)below(2), put_word(d + 3, target); break;
    case TWO: d[0] = some_variable(), d[1] = some_variable(); break;
    case FLAG_INPUT: d[0] = some_flag(), d[1] = input_pin(on); break;
    case FLAG_OUTPUT: d[0] = some_flag(), d[1] = output_pin(on); break;
    case THREE: d[0] = some_variable(), d[1] = some_variable(), d[2] = (uint8_t)below(4); break;
    case BIT_JUMP: d[0] = some_variable(), d[1] = (uint8_t)below(32), d[2] = (uint8_t)below(2), put_word(d + 3, target); break;
    case INPUT_JUMP: d[0] = input_pin(on), d[1] = (uint8_t)below(2), d[2] = (uint8_t)below(2), put_word(d + 3, target); break;
    case OUTPUT_JUMP: d[0] = output_pin(on), d[1] = (uint8_t)below(2), d[2] = (uint8_t)below(2), put_word(d + 3, target); break;
    case OUTPUT_LEVEL: d[0] = output_pin(on), d[1] = (uint8_t)below(2); break;
    case OUTPUT_FLAG: d[0] = output_pin(on), d[1] = some_flag(); break;
    case VARIABLE_VALUE: d[0] = (uint8_t)(4 + below(8)), put_value(d + 1, some_value()); break;
    case VALUE_JUMP:
        d[0] = some_variable();
        put_value(d + 1, some_value());
        d[5] = (uint8_t)(below(8) << 4 | target >> 8);
        d[6] = (uint8_t)target;
        break;
    case TWO_VALUE: d[0] = (uint8_t)(4 + below(8)), d[1] = some_variable(), put_value(d + 2, some_value() | 1); break;
    case FLAG_RUN: d[0] = some_variable(), d[1] = (uint8_t)below(225), d[2] = (uint8_t)between(1, 32); break;
    case VARIABLE_JUMP: d[0] = some_variable(), d[1] = (uint8_t)below(8), d[2] = some_variable(), put_word(d + 3, target); break;
    case STOP: d[0] = (uint8_t)below(2); break;
    case STOP_RAMP: d[0] = (uint8_t)below(2), put_word(d + 1, between(1, 64000)); break;
    case VALUE: put_value(d, some_value()); break;
    case SPEED: put_word(d, between(1, 12000)); break;
    case RAMP: put_word(d, between(1, 64000)); break;
    case LANDING: d[0] = (uint8_t)(one_in(16) ? below(256) : AIMED); break;
    }
}

static uint8_t *clear_block(uint32_t at, uint8_t code)
{
    uint8_t *const block = blocks + at * BLOCK;
    for (uint32_t byte = 0; byte < BLOCK; byte++)
        block[byte] = 0;
    block[0] = code;
    return block;
}

static void put_jump(uint32_t at, uint8_t code, uint32_t target)
{
    put_word(clear_block(at, code) + 1, target);
}

/* 80: a variable that commands may take as a speed or a divisor. */
static void put_small(uint32_t at, uint8_t variable)
{
    uint8_t *const block = clear_block(at, 0x80);
    block[1] = variable;
    put_value(block + 2, between(1, 12000));
}

static void list_landing(uint32_t block)
{
    put_word(landings + 2 * landing_count++, block);
}

/* 80: the variable that holds a landing block; now and then another number. */
static void put_aim(uint32_t at)
{
    static const uint32_t others[] = {0xFFFFFFFF, 0x10000, 0x10001, 0x80000000, 1500, 65535};
    uint8_t *const block = clear_block(at, 0x80);
    block[1] = AIMED;
    if (landing_count > 0) {
        const uint8_t *const landing = landings + 2 * below(landing_count);
        put_value(block + 2, landing[0] + 256u * landing[1]);
    }
    if (one_in(8))
        put_value(block + 2, others[below(sizeof others / sizeof others[0])]);
}

/* ---- each command in each task: a program of eight blocks in which it is the second that the task comes to ---- */

enum { IDLE = 1, RETURN = 2, AIM = 3, ENTRY = 4, TRIED = 5, BACK = 6, SUB = 7, TRIES = 40 };

static int make_tried(const command *c, uint32_t task)
{
    static const uint8_t starts[TASKS] = {0x55, 0x54, 0x90};
    const drive d = some_drive();
    uint8_t *tried;
    count = 8;
    put_jump(0, starts[task], ENTRY);
    put_jump(IDLE, 0x55, IDLE);
    clear_block(RETURN, 0x53);
    put_jump(AIM, 0x55, AIM);
    put_small(ENTRY, (uint8_t)below(4));
    landing_count = 0;
    listed = c->form == LANDING;
    if (listed) {
        list_landing(IDLE);
        list_landing(AIM);
        put_aim(ENTRY);
    }
    tried = clear_block(TRIED, c->code);
    put_operands(tried + 1, c->form, d, c->code == 0x52 ? RETURN : c->code == 0x57 ? IDLE : AIM);
    if (c->form == MODE)
        tried[1] = (uint8_t)(one_in(2) ? 0 : task + 1);
    if (c->code == 0x53)
        put_jump(TRIED, 0x52, SUB);
    put_jump(BACK, 0x55, ENTRY);
    clear_block(SUB, 0x53);
    write_image(d);
    return load().number == BIAS_SUCCESS;
}

static void try_command(const command *c, uint32_t task, uint32_t variant)
{
    const uint32_t tried_step = c->code == 0x53 ? 2 : 1;
    int tries = TRIES;
    begin_chance(c->code + 256 * (task + TASKS * variant));
    place_all();
    while (!make_tried(c, task))
        if (--tries == 0)
            return;
    step(plain(BIAS_TASK_BIAS)); /* to the entry, or the start of the task there */
    for (uint32_t at = 0; at < 4; at++) {
        given g = plain(task);
        g.start = (uint8_t)(at & 1);
        const bias_answer answer = step(g);
        if (at == tried_step && (answer.number == BIAS_SUCCESS || answer.number == BIAS_BAD_CONTENT
                                 || answer.number == BIAS_ZERO_DIVISOR))
            code_done[c->code] = 1;
        landed += at == tried_step && listed && answer.number == BIAS_SUCCESS;
    }
    step(plain(BIAS_TASK_BIAS));
}

static void try_commands(void)
{
    for (uint32_t at = 0; at < COMMANDS; at++)
        for (uint32_t task = 0; task < TASKS; task++)
            for (uint32_t variant = 0; variant < VARIANTS && (commands[at].tasks >> task & 1) != 0; variant++)
                try_command(&commands[at], task, variant);
    end_group("commands", COMMANDS);
}

/* ---- limits: a block with one byte changed, every code, every pin, numbers at their ends ---- */

/* The program of two blocks, the second a jump to the first. */
static void judge_block(drive d)
{
    count = 2;
    put_jump(1, 0x55, 0);
    write_image(d);
    load();
}

static void try_operands(void)
{
    static const uint8_t bytes[] = {0, 1, 2, 3, 4, 7, 8, 31, 32, 33, 128, 250, 255};
    const drive d = {BIAS_TYPE_637F, BIAS_SLOT_B_RP_EA5, BIAS_SLOT_C_RP_EAE, 0, 0};
    begin_chance(1);
    place_all();
    listed = 0;
    for (uint32_t at = 0; at < COMMANDS; at++)
        for (uint32_t byte = 1; byte < BLOCK; byte++)
            for (uint32_t value = 0; value < sizeof bytes; value++) {
                uint8_t *const block = clear_block(0, commands[at].code);
                put_operands(block + 1, commands[at].form, d, 0);
                block[byte] = bytes[value];
                judge_block(d);
            }
    for (uint32_t code = 0; code < 256; code++) {
        clear_block(0, (uint8_t)code);
        judge_block(d);
    }
    end_group("operands of commands", COMMANDS);
}

/* As an input, as an output that is read and as one that is written. */
static void try_pins(void)
{
    static const drive drives[] = {
        {BIAS_TYPE_631, 0, 0, 0, 0},
        {BIAS_TYPE_637, BIAS_SLOT_B_RP_EA5, BIAS_SLOT_C_EMPTY, 0, 0},
        {BIAS_TYPE_637F, BIAS_SLOT_B_EMPTY, BIAS_SLOT_C_RP_EAE, 0, 0},
        {BIAS_TYPE_637F, BIAS_SLOT_B_RP_2C8, BIAS_SLOT_C_RP_SBT, 0, 0},
    };
    place_all();
    for (uint32_t at = 0; at < sizeof drives / sizeof drives[0]; at++)
        for (uint32_t pin = 0; pin < 256; pin++) {
            clear_block(0, 0x63)[2] = (uint8_t)pin;
            judge_block(drives[at]);
            clear_block(0, 0x64)[2] = (uint8_t)pin;
            judge_block(drives[at]);
            clear_block(0, 0x72)[1] = (uint8_t)pin;
            judge_block(drives[at]);
        }
    end_group("pins", 256);
}

/* Two variables get numbers, then a command takes them, or one of them and a constant. */
static void try_pair(uint8_t code, form f, uint32_t x, uint32_t y, uint32_t condition)
{
    const drive d = {BIAS_TYPE_637F, 0, 0, 0, 0};
    uint8_t *block;
    count = 4;
    block = clear_block(0, 0x80);
    block[1] = 1;
    put_value(block + 2, x);
    block = clear_block(1, 0x80);
    block[1] = 2;
    put_value(block + 2, y);
    block = clear_block(2, code);
    switch (f) {
    case TWO_VALUE: block[1] = 3, block[2] = 1, put_value(block + 3, y); break;
    case VALUE_JUMP: block[1] = 1, put_value(block + 2, y), block[6] = (uint8_t)(condition << 4); break;
    case VARIABLE_JUMP: block[1] = 1, block[2] = (uint8_t)condition, block[3] = 2; break;
    default: block[1] = 3, block[2] = 1, block[3] = 2; break;
    }
    put_jump(3, 0x55, 0);
    write_image(d);
    if (load().number != BIAS_SUCCESS)
        return;
    for (uint32_t at = 0; at < 4; at++)
        step(plain(BIAS_TASK_BIAS));
}

static void try_numbers(void)
{
    place_all();
    for (uint32_t at = 0; at < COMMANDS; at++) {
        const form f = commands[at].form;
        const int jumps = f == VALUE_JUMP || f == VARIABLE_JUMP, computes = f == TWO_VALUE || commands[at].code >= 0x8A;
        for (uint32_t pair = 0; pair < ENDS * ENDS && (jumps || (computes && commands[at].code < 0x90)); pair++)
            for (uint32_t condition = 0; condition < (jumps ? CONDITIONS : 1); condition++)
                try_pair(commands[at].code, f, ends[pair / ENDS], ends[pair % ENDS], condition);
    }
    end_group("numbers, pairs of", ENDS);
}

/* ---- landing blocks: a variable with each content beside a list of each length; lists that are refused ---- */

enum { LISTED_BLOCKS = 2 + 2 * BIAS_MOST_LANDINGS + 1 };

/* No entry of a list: they are counted from 0. */
enum { NO_ENTRY = BIAS_MOST_LANDINGS };

/* Every second block of a program of jumps to themselves, and of the list's entry `odd` another block. */
static void list_blocks(uint32_t number, uint32_t odd, uint32_t block)
{
    landing_count = 0;
    for (uint32_t at = 0; at < number; at++)
        list_landing(at == odd ? block : 2 + 2 * at);
}

/* BIAS sets a variable, then jumps by it. */
static void try_content(uint32_t content)
{
    const drive d = {BIAS_TYPE_637, 0, 0, 0, 0};
    uint8_t *block;
    count = LISTED_BLOCKS;
    for (uint32_t at = 2; at < count; at++)
        put_jump(at, 0x55, at);
    block = clear_block(0, 0x80);
    block[1] = AIMED;
    put_value(block + 2, content);
    clear_block(1, 0x56)[1] = AIMED;
    write_image(d);
    if (load().number != BIAS_SUCCESS)
        return;
    for (uint32_t at = 0; at < 3; at++)
        landed += step(plain(BIAS_TASK_BIAS)).number == BIAS_SUCCESS && at == 1;
}

/* A load of the same list as somebody else may have written it: its count stands at byte 7, and its entries below 128 in
 * a byte each. */
static void read_list(uint32_t odd, uint32_t block)
{
    list_blocks(BIAS_MOST_LANDINGS, NO_ENTRY, 0);
    try_content(2);
    if (odd + 1 < BIAS_MOST_LANDINGS)
        image[8 + odd] = (uint8_t)block;
    else
        image[7]++;
    load();
}

static void try_landings(void)
{
    static const uint32_t lengths[] = {0, 1, 2, 63, BIAS_MOST_LANDINGS};
    place_all();
    listed = 1;
    for (uint32_t at = 0; at < sizeof lengths / sizeof lengths[0]; at++) {
        const uint32_t last = 2 * lengths[at], contents[] = {0, 1, 2, 3, last, last + 1, 0xFFFFFFFF, 0x10002, 0x80000002};
        for (uint32_t of = 0; of < sizeof contents / sizeof contents[0]; of++) {
            list_blocks(lengths[at], NO_ENTRY, 0);
            try_content(contents[of]);
        }
    }
    for (uint32_t odd = 0; odd < BIAS_MOST_LANDINGS; odd++) {
        const uint32_t others[] = {2 * odd, 2 * odd + 1, LISTED_BLOCKS - 1, LISTED_BLOCKS, 0xFFFF};
        for (uint32_t of = 0; of < sizeof others / sizeof others[0]; of++) {
            list_blocks(BIAS_MOST_LANDINGS, odd, others[of]);
            try_content(2);
            read_list(odd, others[of]);
        }
    }
    end_group("landing blocks", BIAS_MOST_LANDINGS);
}

/* ---- the feed program ---- */

/* An axis that needs some cycles for each move and says so a cycle late. */
static int run_feed(void)
{
    uint32_t moving = 0, requests = 0;
    uint8_t late = 1;
    place_all();
    for (image_len = 0; image_len < sizeof feed; image_len++)
        image[image_len] = feed[image_len];
    if (load().number != BIAS_SUCCESS) {
        put_text("the feed program is refused\n");
        return 0;
    }
    for (uint32_t cycle = 0; cycle < FEED_CYCLES; cycle++) {
        const uint8_t at_rest = moving == 0;
        for (uint32_t task = 0; task < TASKS; task++) {
            given g = plain(task);
            g.ramp_ended = g.in_window = late;
            if (step(g).motion != BIAS_MOTION_NONE) {
                requests++;
                moving = 150;
            }
        }
        late = at_rest;
        if (moving > 0)
            moving--;
    }
    end_group("feed, requests", requests);
    return requests >= LEAST_FEED_REQUESTS;
}

/* ---- random programs: a section for each task, and sub-programs that any of them may call ---- */

enum { SECTIONS = TASKS + MOST_SUBS };

static struct {
    uint32_t first, length;
} section[SECTIONS];
static uint32_t subs;

static uint32_t inside(uint32_t number)
{
    return section[number].first + below(section[number].length);
}

/* Where a command of a section leads to. A sub-program is called at its first block, by sections before it. */
static uint32_t target_of(uint8_t code, uint32_t number)
{
    switch (code) {
    case 0x52: {
        const uint32_t first_sub = number < TASKS ? TASKS : number + 1;
        return section[between(first_sub, TASKS + subs - 1)].first;
    }
    case 0x54: return section[BIAS_TASK_PLC].first;
    case 0x57: return inside(BIAS_TASK_BIAS);
    case 0x90: return section[BIAS_TASK_MATHEMATICS].first;
    default: return inside(number);
    }
}

/* Most programs are of format 2, with landing blocks in BIAS's section, upwards. */
static void list_some(void)
{
    const uint32_t wanted = below(8);
    landing_count = 0;
    listed = !one_in(4);
    for (uint32_t block = section[BIAS_TASK_BIAS].first; listed && block < section[BIAS_TASK_PLC].first; block++)
        if (landing_count < BIAS_MOST_LANDINGS && (one_in(8) || wanted == 0))
            list_landing(block);
}

/* Whether a command may stand in a section: its task and its drive may have it, and it leads somewhere. */
static int fits(const command *c, uint32_t number, drive d)
{
    const uint32_t tasks = number < TASKS ? 1u << number : ALL;
    if ((c->tasks & tasks) != tasks || c->code == 0x53)
        return 0;
    if (c->code == 0x6E && d.type == BIAS_TYPE_637_PLUS)
        return d.wild;
    if (c->code == 0x52)
        return number < TASKS ? subs > 0 : number < TASKS + subs - 1;
    if (c->code == 0x56)
        return number == BIAS_TASK_BIAS;
    return 1;
}

static void put_some(uint32_t at, uint32_t number, drive d)
{
    const command *c;
    uint8_t *block;
    do
        c = &commands[below(COMMANDS)];
    while (!fits(c, number, d) || (c->form == MODE && !one_in(4)));
    block = clear_block(at, c->code);
    put_operands(block + 1, c->form, d, target_of(c->code, number));
}

static void put_section(uint32_t number, drive d)
{
    const uint32_t first = section[number].first, last = first + section[number].length - 1;
    for (uint32_t at = first; at < last; at++)
        if (at - first < 3 && number < TASKS)
            put_small(at, (uint8_t)(at - first + 1));
        else if (at - first == 3 && number < TASKS)
            put_aim(at);
        else
            put_some(at, number, d);
    if (number >= TASKS)
        clear_block(last, 0x53);
    else if (one_in(8))
        clear_block(last, 0x51)[1] = (uint8_t)(one_in(2) ? 0 : number + 1);
    else
        put_jump(last, 0x55, inside(number));
}

/* A program; `most` bounds the length of a section. */
static drive make_program(uint32_t most)
{
    drive d = some_drive();
    count = 0;
    subs = below(MOST_SUBS);
    for (uint32_t number = 0; number < TASKS + subs; number++) {
        section[number].first = count;
        section[number].length = between(4, most);
        count += section[number].length;
    }
    list_some();
    for (uint32_t number = 0; number < TASKS + subs; number++)
        put_section(number, d);
    d.start = one_in(4) ? inside(BIAS_TASK_BIAS) : 0;
    /* BIAS starts the two others early, so that all three run */
    if (!one_in(8)) {
        put_jump(d.start, 0x54, section[BIAS_TASK_PLC].first);
        if (d.start + 1 < section[BIAS_TASK_PLC].first - 1)
            put_jump(d.start + 1, 0x90, section[BIAS_TASK_MATHEMATICS].first);
    }
    return d;
}

/* A fault that the walks or the judge of blocks find. */
static void put_fault(void)
{
    const uint32_t at = below(count);
    switch (below(9)) {
    case 0: put_jump(at, 0x52, at); break;                                       /* deeper and deeper */
    case 1: clear_block(at, 0x53); break;                                        /* a return, likely without a call */
    case 2: clear_block(inside(between(1, 2)), 0x58); break;                     /* for BIAS alone */
    case 3: clear_block(count - 1, 0x50); break;                                 /* past the end */
    case 4: clear_block(at, 0x51)[1] = (uint8_t)between(1, 3); break;            /* perhaps another task's end */
    case 5: clear_block(at, (uint8_t)below(256)); break;                         /* perhaps no command */
    case 6: blocks[at * BLOCK + 7] = (uint8_t)between(1, 255); break;            /* perhaps unused */
    default: blocks[at * BLOCK + below(BLOCK)] = (uint8_t)below(256); break;
    }
}

/* A block that is not refused: nothing, or a jump to itself where the program may not go on. */
static void mend(bias_verdict verdict)
{
    const uint32_t at = (uint32_t)verdict.place;
    if (at >= count)
        return;
    if (verdict.number == BIAS_TOO_DEEP || verdict.number == BIAS_NO_CALL || verdict.number == BIAS_PAST_END)
        put_jump(at, 0x55, at);
    else
        clear_block(at, 0x50);
}

/* An image that is no longer what was written: cut, longer, or with another byte, most likely in its header. */
static void damage_image(void)
{
    switch (below(4)) {
    case 0: image_len = below((uint32_t)image_len); break;
    case 1:
        if (image_len < BIAS_MOST_IMAGE_LENGTH)
            image[image_len++] = (uint8_t)below(256);
        break;
    case 2: image[below(listed ? 8 + landing_count : 8)] = (uint8_t)below(256); break;
    default: image[below(6)] = (uint8_t)below(4); break;
    }
}

static given some_step(void)
{
    given g = plain(one_in(2) ? BIAS_TASK_BIAS : below(TASKS));
    g.start = (uint8_t)(one_in(2) ? 0 : below(256));
    g.ramp_ended = (uint8_t)(one_in(4) ? 0 : below(256));
    g.in_window = (uint8_t)(one_in(4) ? 0 : below(256));
    inputs[input_pins[below(sizeof input_pins)]] = (uint8_t)(one_in(2) ? 0 : below(256));
    return g;
}

/* A step that is likely to be refused: another length or task, a state or an image that somebody wrote into. The byte is
 * put back unless the step changed the state. */
static void odd_step(given g)
{
    /* of the image most likely a byte of the header, of the state one that is no variable */
    const uint32_t in_state = one_in(3) ? below(BIAS_STATE_LENGTH) : between(BIAS_STATE_FLAGS, BIAS_STATE_LENGTH - 280);
    const uint32_t in_image = below(one_in(2) ? 8 : (uint32_t)image_len);
    uint8_t *const byte = one_in(2) ? state + in_state : image + in_image;
    const uint8_t kept = *byte;
    switch (below(6)) {
    case 0: g.task = between(TASKS, 1000); break;
    case 1: g.inputs_len = below(BIAS_INPUTS_LENGTH); break;
    case 2: g.state_len = below(BIAS_STATE_LENGTH); break;
    default: *byte = (uint8_t)(one_in(2) ? below(256) : kept + between(1, 2)); break;
    }
    if (step(g).number != BIAS_SUCCESS || byte < state || byte >= state + BIAS_STATE_LENGTH)
        *byte = kept;
}

static void run_program(uint32_t most)
{
    drive d;
    bias_verdict verdict;
    uint32_t mends = 6;
    place_all();
    d = make_program(most);
    if (one_in(4))
        put_fault();
    write_image(d);
    if (one_in(32))
        load_with(below(BIAS_MARKS_LENGTH), BIAS_STATE_LENGTH);
    if (one_in(32))
        load_with(BIAS_MARKS_LENGTH, below(BIAS_STATE_LENGTH));
    if (one_in(6)) {
        damage_image();
        load();
        write_image(d);
    }
    verdict = load();
    while (verdict.number != BIAS_SUCCESS && mends-- > 0) {
        mend(verdict);
        write_image(d);
        verdict = load();
    }
    programs_run += verdict.number == BIAS_SUCCESS;
    for (uint32_t at = 0; at < (verdict.number == BIAS_SUCCESS ? STEPS : 1); at++)
        if (one_in(16))
            odd_step(some_step());
        else
            step(some_step());
    mix_bytes(image_room, sizeof image_room);
    mix_bytes(inputs_room, sizeof inputs_room);
}

static void run_programs(uint32_t group)
{
    for (uint32_t number = 1; number <= PROGRAMS; number++) {
        begin_chance(number);
        /* some as long as a program may be */
        run_program(number % 100 == 0 ? 166 : between(6, 30));
        if (number % group == 0)
            end_group("programs to", number);
    }
}

/* ---- writes ---- */

/* Arguments are drawn one by one: the order in which C computes those of a call differs from compiler to compiler. */
static void write_some(void)
{
    const uint32_t good = between(1, 40), room = one_in(8) ? below(340) : BIAS_MOST_IMAGE_LENGTH;
    const uint32_t blocks_len = one_in(8) ? below(400) : good * BLOCK;
    const int list = one_in(2);
    const uint32_t right_format = list ? BIAS_FORMAT_LANDINGS : BIAS_FORMAT;
    const uint32_t format = one_in(16) ? random32() : right_format, type = one_in(16) ? random32() : below(5);
    const uint32_t slot_b = below(4), slot_c = below(4);
    const uint32_t start = one_in(16) ? random32() : below(good), written = one_in(16) ? random32() : good;
    bias_verdict verdict;
    place_all();
    for (uint32_t at = 0; at < 50 * BLOCK; at++)
        blocks[at] = (uint8_t)random32();
    if (list) {
        const uint32_t length = one_in(8) ? below(2 * BIAS_MOST_LANDINGS + 20) : 2 * below(good);
        uint8_t bytes[2 * BIAS_MOST_LANDINGS + 20];
        for (uint32_t at = 0; at < sizeof bytes; at++)
            bytes[at] = (uint8_t)(at % 2 == 1 ? 0 : one_in(32) ? random32() : at / 2);
        verdict = bias_write_landings(format, type, slot_b, slot_c, start, written, bytes, length, blocks, blocks_len, image,
                                      room);
    } else {
        verdict = bias_write(format, type, slot_b, slot_c, start, written, blocks, blocks_len, image, room);
    }
    mix_verdict(verdict);
    mix_bytes(image_room, sizeof image_room);
    count_in(loads_by, verdict.number);
}

static void run_writes(void)
{
    begin_chance(PROGRAMS + 1);
    for (uint32_t number = 0; number < WRITES; number++)
        write_some();
    end_group("writes", WRITES);
}

/* ---- what was met, and whether it is enough ---- */

static void put_counts(const char *name, const uint32_t *numbers)
{
    put_text(name);
    for (uint32_t number = 0; number < NUMBERS; number++)
        if (numbers[number] > 0) {
            put_text(number == 0 ? " " : ", ");
            put_number(number);
            put_text(" x ");
            put_number(numbers[number]);
        }
    put_text("\n");
}

static int enough(const char *what, uint32_t met, uint32_t least)
{
    put_text(what);
    put_text(" ");
    put_number(met);
    if (met < least) {
        put_text(", TOO FEW: at least ");
        put_number(least);
    }
    put_text("\n");
    return met >= least;
}

static uint32_t numbers_met(void)
{
    uint32_t met = 0;
    for (uint32_t number = 0; number < NUMBERS; number++)
        met += loads_by[number] > 0 || steps_by[number] > 0;
    return met;
}

static uint32_t commands_done(void)
{
    uint32_t done = 0;
    for (uint32_t code = 0; code < 256; code++)
        done += code_done[code];
    return done;
}

int run(const char *word)
{
    int good;
    if (word[0] == 'f')
        fault_at = 3 * FEED_CYCLES + 5000;
    good = run_feed();
    try_commands();
    try_operands();
    try_pins();
    try_numbers();
    try_landings();
    run_programs(word[0] == 'e' ? 1 : GROUP);
    run_writes();
    put_counts("answers of loads and writes:", loads_by);
    put_counts("answers of steps:", steps_by);
    good &= enough("loads refused", refused, PROGRAMS / 4);
    good &= enough("loads accepted", accepted, PROGRAMS);
    good &= enough("random programs run", programs_run, PROGRAMS * 9 / 10);
    good &= enough("steps", steps_done, PROGRAMS * STEPS * 3 / 4);
    good &= enough("steps that went on", steps_by[BIAS_SUCCESS], PROGRAMS * STEPS / 3);
    good &= enough("commands carried out", commands_done(), COMMANDS);
    good &= enough("jumps by a variable that landed, in programs for them", landed, 300);
    good &= enough("numbers of answers", numbers_met(), NUMBERS);
    put_text("all: ");
    put_hex(whole_hash.a);
    put_hex(whole_hash.b);
    put_text("\n");
    return good ? 0 : 1;
}
