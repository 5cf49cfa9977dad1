/* listing.c - the table of commands and pins; blocks and refusals of a BIAS program in words. Names, operands, ranges,
 * tasks and drives are those of the manual (000, chapters 3 and 4) as document 01 and docs/DECISIONS.md have them; R1
 * and the like are entries there.
 */
#include "listing.h"

#include <stdio.h>

/* ---- the table ---- */

enum { FLAGS = 256 };

#define ANY_LONG INT32_MIN, INT32_MAX
#define LETTER NULL /* called X, Y or Z, whichever comes next in its command */
#define PLAIN(name, least, most) {name, LETTER, least, most, 1, "", "", ""}

static const listing_kind kinds[LISTING_KINDS] = {
    [LISTING_NO_OPERAND] = {"", "", 0, 0, 1, "", "", ""},
    [LISTING_VARIABLE] = PLAIN("variable", 0, 255),
    [LISTING_FLAG] = PLAIN("flag", 0, 255),
    [LISTING_FIRST_FLAG] = {"first flag", LETTER, 0, 255, 1, "", "", "Y + Z at most 256"},
    [LISTING_NUMBER_OF_FLAGS] = PLAIN("number of flags", 1, 32),
    [LISTING_BIT] = PLAIN("bit", 0, 31),
    [LISTING_INPUT] = PLAIN("input pin", 0, 255),
    [LISTING_OUTPUT_READ] = PLAIN("output pin to read", 0, 255),
    [LISTING_OUTPUT_WRITTEN] = PLAIN("output pin to write", 0, 255),
    [LISTING_LEVEL] = {"", "const.", 0, 1, 1, "", "", ""},
    [LISTING_CONSTANT] = {"", "const.", ANY_LONG, 1, "", "", ""},
    [LISTING_DIVISOR] = {"", "const.", ANY_LONG, 1, "", "", "not 0"},
    [LISTING_EQUALITY] = {"condition", "?", 0, 1, 1, "", "0 ==, 1 !=", ""},
    [LISTING_COMPARISON] = {"condition", "?", 0, 7, 1, "", "0 >, 1 <, 2 ==, 3 >=, 4 <=, 5 !=, 6 ->, 7 -<", ""},
    [LISTING_BLOCK] = {"block", LETTER, 0, BIAS_MOST_BLOCKS - 1, 1, "", "", "below the count"},
    [LISTING_POSITION] = {"position", LETTER, ANY_LONG, 1, "increments", "", ""},
    [LISTING_SPEED] = {"speed", LETTER, 1, 12000, 1, "rpm", "", ""},
    [LISTING_ACCELERATION] = {"acceleration", LETTER, 1, 64000, 5, "rpm/s", "", ""},
    [LISTING_DECELERATION] = {"deceleration", LETTER, 1, 64000, 5, "rpm/s", "", ""},
    [LISTING_TIME] = {"time", LETTER, 0, 65535, 2, "ms", "", ""}, /* R3 */
    [LISTING_TIME_IN_VARIABLE] = {"time", LETTER, 0, 65535, 1, "ms", "631, 635, 637: an odd one is rounded down",
                                  ""}, /* R4 */
    [LISTING_LANDING] = {"block", LETTER, 0, BIAS_MOST_BLOCKS - 1, 1, "", "", "one of the landing blocks (else 22)"},
    [LISTING_END_MODE] = {"mode", LETTER, 0, 3, 1, "",
                          "0 back to the task's start, 1 end of BIAS, 2 of the PLC, 3 of mathematics",
                          "1 to 3 only in the task that they end"}, /* R2; a block alone does not tell it */
    [LISTING_STOP_MODE] = {"mode", LETTER, 0, 1, 1, "", "0 abrupt, 1 guided", ""},
    [LISTING_AXIS] = {"axis", "", 0, 0, 1, "", "", ""},
    [LISTING_TARGET] = {"target", "", 0, 0, 1, "", "", ""},
};

/* Operands by their first byte. */
#define NONE {LISTING_NO_OPERAND, LISTING_BYTE, 0, LISTING_NO_OPERAND}
#define ONE_BYTE(kind, at) {kind, LISTING_BYTE, at, LISTING_NO_OPERAND}
#define TWO_BYTES(kind, at) {kind, LISTING_WORD, at, LISTING_NO_OPERAND}
#define FOUR_BYTES(kind, at) {kind, LISTING_LONG, at, LISTING_NO_OPERAND}
#define VARIABLE(at) ONE_BYTE(LISTING_VARIABLE, at)
#define VARIABLE_WITH(content, at) {LISTING_VARIABLE, LISTING_BYTE, at, content}
#define FLAG(at) ONE_BYTE(LISTING_FLAG, at)
#define LEVEL(at) ONE_BYTE(LISTING_LEVEL, at)
#define EQUALITY(at) ONE_BYTE(LISTING_EQUALITY, at)
#define COMPARISON(at) ONE_BYTE(LISTING_COMPARISON, at)
#define BLOCK(at) TWO_BYTES(LISTING_BLOCK, at)
#define CONSTANT(at) FOUR_BYTES(LISTING_CONSTANT, at)

/* Tasks and drive types. */
enum {
    B = 1 << BIAS_TASK_BIAS, P = 1 << BIAS_TASK_PLC, M = 1 << BIAS_TASK_MATHEMATICS, BPM = B + P + M,
    TYPE_631 = 1 << BIAS_TYPE_631, TYPE_637F = 1 << BIAS_TYPE_637F, EVERY = (1 << (BIAS_TYPE_637F + 1)) - 1,
    NOT_631 = EVERY - TYPE_631, NOT_637_PLUS = EVERY - (1 << BIAS_TYPE_637_PLUS)
};

static const listing_command commands[] = {
    /* the axis */
    {0x00, B, EVERY, "Move position", {ONE_BYTE(LISTING_AXIS, 1), ONE_BYTE(LISTING_TARGET, 2)}},
    {0x01, B, EVERY, "Move incremental position", {ONE_BYTE(LISTING_AXIS, 1), ONE_BYTE(LISTING_TARGET, 2)}},
    {0x03, B, EVERY, "Move infinite positive", {ONE_BYTE(LISTING_AXIS, 1), ONE_BYTE(LISTING_TARGET, 2)}},
    {0x04, B, EVERY, "Move infinite negative", {ONE_BYTE(LISTING_AXIS, 1), ONE_BYTE(LISTING_TARGET, 2)}},
    {0x0E, B, EVERY, "Start axis", {NONE}},
    {0x0F, B + P, EVERY, "Stop axis; mode = %1", {ONE_BYTE(LISTING_STOP_MODE, 1), ONE_BYTE(LISTING_AXIS, 2)}},
    {0x1F, B + P, EVERY, "Stop axis; mode = %1 a- = %2 rpm/s", /* tasks: R1 */
     {ONE_BYTE(LISTING_STOP_MODE, 1), TWO_BYTES(LISTING_DECELERATION, 2)}},
    /* the parameters of a move */
    {0x20, B, EVERY, "Position = %1 INCR", {FOUR_BYTES(LISTING_POSITION, 1)}},
    {0x21, B, EVERY, "Speed = %1 rpm", {TWO_BYTES(LISTING_SPEED, 1)}},
    {0x22, B, EVERY, "Acceleration = %1 rpm/s", {TWO_BYTES(LISTING_ACCELERATION, 1)}},
    {0x23, B, EVERY, "Deceleration = %1 rpm/s", {TWO_BYTES(LISTING_DECELERATION, 1)}},
    {0x30, B, EVERY, "Position = [variable %1]", {VARIABLE_WITH(LISTING_POSITION, 1)}},
    {0x31, B, EVERY, "Speed = [variable %1]", {VARIABLE_WITH(LISTING_SPEED, 1)}},
    {0x32, B, EVERY, "Acceleration = [variable %1]", {VARIABLE_WITH(LISTING_ACCELERATION, 1)}},
    {0x33, B, EVERY, "Deceleration = [variable %1]", {VARIABLE_WITH(LISTING_DECELERATION, 1)}},
    {0x40, BPM, EVERY, "[Variable %1] = position", {VARIABLE(1)}},
    {0x41, BPM, EVERY, "[Variable %1] = speed", {VARIABLE(1)}},
    {0x42, BPM, EVERY, "[Variable %1] = acceleration", {VARIABLE(1)}},
    {0x43, BPM, EVERY, "[Variable %1] = deceleration", {VARIABLE(1)}},
    /* program control */
    {0x50, BPM, EVERY, "NOP", {NONE}},
    {0x51, BPM, EVERY, "End of program, mode = %1", {ONE_BYTE(LISTING_END_MODE, 1)}},
    {0x52, BPM, EVERY, "Sub-program %1", {BLOCK(1)}},
    {0x53, BPM, EVERY, "End of sub-program", {NONE}},
    {0x54, B + M, EVERY, "PLC-program %1", {BLOCK(1)}},
    {0x55, BPM, EVERY, "Jump %1", {BLOCK(1)}},
    {0x56, BPM, EVERY, "Jump [variable %1]", {VARIABLE_WITH(LISTING_LANDING, 1)}},
    {0x57, P + M, EVERY, "BIAS-execution pointer = %1", {BLOCK(1)}},
    {0x58, B, EVERY, "Wait for \"position reached\"", {NONE}},
    {0x59, B, EVERY, "Wait time %1 ms", {TWO_BYTES(LISTING_TIME, 1)}},
    {0x5A, B, EVERY, "Wait time [variable %1]", {VARIABLE_WITH(LISTING_TIME_IN_VARIABLE, 1)}},
    {0x5B, P + M, EVERY, "BIAS-execution pointer = [variable %1]", {VARIABLE_WITH(LISTING_LANDING, 1)}},
    /* flags */
    {0x60, BPM, EVERY, "Flag %1 = %2", {FLAG(1), LEVEL(2)}},
    {0x61, BPM, EVERY, "If flag %1 %2 %3 then jump %4", {FLAG(1), EQUALITY(2), LEVEL(3), BLOCK(4)}},
    {0x62, BPM, EVERY, "Flag %1 = flag %2", {FLAG(1), FLAG(2)}},
    {0x63, BPM, EVERY, "Flag %1 = input %2", {FLAG(1), ONE_BYTE(LISTING_INPUT, 2)}},
    {0x64, BPM, EVERY, "Flag %1 = output %2", {FLAG(1), ONE_BYTE(LISTING_OUTPUT_READ, 2)}},
    {0x65, BPM, EVERY, "Flag %1 = flag %2 & flag %3", {FLAG(1), FLAG(2), FLAG(3)}},
    {0x66, BPM, EVERY, "Flag %1 = flag %2 | flag %3", {FLAG(1), FLAG(2), FLAG(3)}},
    {0x67, BPM, EVERY, "Flag %1 = flag %2 ^ flag %3", {FLAG(1), FLAG(2), FLAG(3)}},
    {0x68, BPM, EVERY, "Flag %1 = !flag %2", {FLAG(1), FLAG(2)}},
    {0x6E, BPM, NOT_637_PLUS, "If [variable %1].bit %2 %3 0 then jump %4", /* drives and constant: R5b, R5a */
     {VARIABLE(1), ONE_BYTE(LISTING_BIT, 2), EQUALITY(3), BLOCK(4)}},
    /* pins */
    {0x70, BPM, EVERY, "If input %1 %2 %3 then jump %4",
     {ONE_BYTE(LISTING_INPUT, 1), EQUALITY(2), LEVEL(3), BLOCK(4)}},
    {0x71, BPM, EVERY, "If output %1 %2 %3 then jump %4",
     {ONE_BYTE(LISTING_OUTPUT_READ, 1), EQUALITY(2), LEVEL(3), BLOCK(4)}},
    {0x72, BPM, EVERY, "Output %1 = %2", {ONE_BYTE(LISTING_OUTPUT_WRITTEN, 1), LEVEL(2)}},
    {0x73, BPM, EVERY, "Output %1 = flag %2", {ONE_BYTE(LISTING_OUTPUT_WRITTEN, 1), FLAG(2)}},
    /* variables */
    {0x80, BPM, EVERY, "[Variable %1] = %2", {VARIABLE(1), CONSTANT(2)}},
    {0x81, BPM, EVERY, "If [variable %1] %3 %2 then jump %4", /* bytes: R6 */
     {VARIABLE(1), CONSTANT(2), {LISTING_COMPARISON, LISTING_UPPER_HALF, 6, LISTING_NO_OPERAND},
      {LISTING_BLOCK, LISTING_LOWER_HALF_AND_BYTE, 6, LISTING_NO_OPERAND}}},
    {0x82, BPM, EVERY, "[Variable %1] = [variable %2] + %3", {VARIABLE(1), VARIABLE(2), CONSTANT(3)}},
    {0x83, BPM, EVERY, "[Variable %1] = [variable %2] - %3", {VARIABLE(1), VARIABLE(2), CONSTANT(3)}},
    {0x84, BPM, EVERY, "[Variable %1] = [variable %2] * %3", {VARIABLE(1), VARIABLE(2), CONSTANT(3)}},
    {0x85, BPM, EVERY, "[Variable %1] = [variable %2] / %3",
     {VARIABLE(1), VARIABLE(2), FOUR_BYTES(LISTING_DIVISOR, 3)}},
    {0x86, B + P, EVERY, "[Variable %1] = flag %2, number = %3", /* range: R13b */
     {VARIABLE(1), ONE_BYTE(LISTING_FIRST_FLAG, 2), ONE_BYTE(LISTING_NUMBER_OF_FLAGS, 3)}},
    {0x88, BPM, EVERY, "[Variable %1] = [variable %2]", {VARIABLE(1), VARIABLE(2)}},
    {0x89, BPM, EVERY, "If [variable %1] %2 [variable %3] then jump %4",
     {VARIABLE(1), COMPARISON(2), VARIABLE(3), BLOCK(4)}},
    {0x8A, BPM, EVERY, "[Variable %1] = [variable %2] + [variable %3]", {VARIABLE(1), VARIABLE(2), VARIABLE(3)}},
    {0x8B, BPM, EVERY, "[Variable %1] = [variable %2] - [variable %3]", {VARIABLE(1), VARIABLE(2), VARIABLE(3)}},
    {0x8C, BPM, EVERY, "[Variable %1] = [variable %2] * [variable %3]", {VARIABLE(1), VARIABLE(2), VARIABLE(3)}},
    {0x8D, BPM, EVERY, "[Variable %1] = [variable %2] / [variable %3]", {VARIABLE(1), VARIABLE(2), VARIABLE(3)}},
    /* mathematics */
    {0x90, B + P, EVERY, "Mathematic program %1", {BLOCK(1)}},
};

#define NO_PINS {{0, 0}}

/* Terminals: source document 000 at 63, lines 6488 to 6491: "RP-EAE (Slot C)", "Pin no at X200 Sub-D-female", and so
 * on, for the outputs at 72, lines 7293 to 7295. Pins: document 01, "Drive and pins". */
static const listing_home homes[] = {
    {"X10", NULL, 0, 0, TYPE_631, {{{7, 10}}, {{5, 6}}, {{5, 6}}}},
    {"X10", NULL, 0, 0, NOT_631,
     {{{2, 2}, {4, 4}, {11, 11}, {15, 15}, {22, 22}, {24, 25}}, {{8, 8}, {12, 13}, {20, 20}, {23, 23}},
      {{12, 13}, {20, 20}, {23, 23}}}},
    {"COM2", "RP-EA5", 'B', BIAS_SLOT_B_RP_EA5, NOT_631, {{{101, 102}, {106, 108}}, {{109, 110}}, {{109, 110}}}},
    {"X120", "RP-2C8", 'B', BIAS_SLOT_B_RP_2C8, TYPE_637F, {{{121, 124}}, {{125, 128}}, {{125, 128}}}},
    {"X200", "RP-EAE", 'C', BIAS_SLOT_C_RP_EAE, NOT_631,
     {{{201, 208}, {211, 216}}, {{209, 210}, {217, 224}}, {{209, 210}, {217, 224}}}},
    {"X290", "RP-SBT", 'C', BIAS_SLOT_C_RP_SBT, TYPE_637F, {{{91, 91}, {93, 93}}, NO_PINS, NO_PINS}},
};

const listing_command *listing_command_of(uint8_t code)
{
    for (size_t n = 0; n < sizeof commands / sizeof commands[0]; n++)
        if (commands[n].code == code)
            return commands + n;
    return NULL;
}

const listing_kind *listing_kind_of(unsigned kind)
{
    return kinds + (kind < LISTING_KINDS ? kind : LISTING_NO_OPERAND);
}

const listing_home *listing_homes(size_t *count)
{
    *count = sizeof homes / sizeof homes[0];
    return homes;
}

int listing_has_pin(const listing_home *home, unsigned use, unsigned pin)
{
    for (const listing_pins *pins = home->pins[use - LISTING_INPUT]; pins->least != 0; pins++)
        if (pin >= pins->least && pin <= pins->most)
            return 1;
    return 0;
}

const listing_operand *listing_pin_operand(const listing_command *command)
{
    for (const listing_operand *operand = command->operands; operand->kind != LISTING_NO_OPERAND; operand++)
        if (operand->kind >= LISTING_INPUT && operand->kind <= LISTING_OUTPUT_WRITTEN)
            return operand;
    return NULL;
}

unsigned listing_bytes(const listing_operand *operand)
{
    switch (operand->coding) {
    case LISTING_WORD: case LISTING_LOWER_HALF_AND_BYTE: return 2;
    case LISTING_LONG: return 4;
    default: return 1;
    }
}

static int32_t signed_long(const uint8_t *at)
{
    const uint32_t value = at[0] | (uint32_t)at[1] << 8 | (uint32_t)at[2] << 16 | (uint32_t)at[3] << 24;
    return value < 0x80000000u ? (int32_t)value : -(int32_t)(0xFFFFFFFFu - value) - 1;
}

int32_t listing_value(const listing_operand *operand, const uint8_t *block)
{
    const uint8_t *at = block + operand->at;
    switch (operand->coding) {
    case LISTING_WORD: return at[0] + 256 * at[1];
    case LISTING_LONG: return signed_long(at);
    case LISTING_UPPER_HALF: return at[0] / 16;
    case LISTING_LOWER_HALF_AND_BYTE: return 256 * (at[0] % 16) + at[1];
    default: return at[0];
    }
}

int listing_in_range(const listing_operand *operand, const uint8_t *block, unsigned count)
{
    const listing_kind *kind = listing_kind_of(operand->kind);
    const int32_t value = listing_value(operand, block);
    if (value < kind->least || value > kind->most)
        return 0;
    switch (operand->kind) {
    case LISTING_BLOCK: return (unsigned)value < count;
    case LISTING_DIVISOR: return value != 0;
    case LISTING_FIRST_FLAG: return value + listing_value(operand + 1, block) <= FLAGS;
    default: return 1;
    }
}

unsigned listing_number_length(const uint8_t *at)
{
    return at[0] < 128 ? 1 : 2;
}

unsigned listing_number(const uint8_t *at)
{
    return at[0] < 128 ? at[0] : at[0] - 128u + 128u * at[1];
}

/* A number of the header, counted from 0. */
static const uint8_t *number_at(const uint8_t *image, unsigned number)
{
    for (; number > 0; number--)
        image += listing_number_length(image);
    return image;
}

unsigned listing_numbers(const uint8_t *image)
{
    enum { OF_HEADER = 6 };
    return image[0] == BIAS_FORMAT ? OF_HEADER : OF_HEADER + 1 + listing_number(number_at(image, OF_HEADER));
}

const char *listing_symbol(const listing_command *command, const listing_operand *operand)
{
    static const char *const letters[] = {"X", "Y", "Z"};
    const char *symbol = listing_kind_of(operand->kind)->symbol;
    if (symbol != LETTER)
        return symbol;
    unsigned before = 0;
    for (const listing_operand *other = command->operands; other != operand; other++)
        before += listing_kind_of(other->kind)->symbol == LETTER;
    return letters[before];
}

/* ---- in words ---- */

/* Text that is written bit by bit, and cut off where there is no more room. */
typedef struct {
    char *text;
    size_t room, used;
} line;

static void put_words(line *out, const char *words)
{
    for (; *words != '\0' && out->used + 1 < out->room; words++)
        out->text[out->used++] = *words;
    if (out->room != 0)
        out->text[out->used] = '\0';
}

/* An operand as a number of its unit, or as the sign of its condition. */
static void put_operand(line *out, const listing_operand *operand, const uint8_t *block)
{
    static const char *const comparisons[] = {">", "<", "==", ">=", "<=", "!=", "->", "-<"};
    static const char *const equalities[] = {"==", "!="};
    const int32_t value = listing_value(operand, block);
    const listing_kind *kind = listing_kind_of(operand->kind);
    char number[24];
    snprintf(number, sizeof number, "%lld", (long long)value * (long long)kind->factor);
    if (operand->kind == LISTING_COMPARISON)
        put_words(out, value <= kind->most ? comparisons[value] : "?");
    else if (operand->kind == LISTING_EQUALITY)
        put_words(out, value <= kind->most ? equalities[value] : "?");
    else
        put_words(out, number);
}

/* A command's text, with the operands of a block, or with their symbols if there is none. */
static void put_command(line *out, const listing_command *command, const uint8_t *block)
{
    for (const char *at = command->text; *at != '\0'; at++) {
        const char letter[] = {*at, '\0'};
        if (*at != '%') {
            put_words(out, letter);
            continue;
        }
        const listing_operand *operand = command->operands + (*++at - '1');
        if (block == NULL)
            put_words(out, listing_symbol(command, operand));
        else
            put_operand(out, operand, block);
    }
}

void listing_form(const listing_command *command, char *text, size_t room)
{
    line out = {text, room, 0};
    put_command(&out, command, NULL);
}

void listing_block(const uint8_t *block, char *text, size_t room)
{
    const listing_command *command = listing_command_of(block[0]);
    line out = {text, room, 0};
    if (command == NULL)
        snprintf(text, room, "(code %02X)", block[0]);
    else
        put_command(&out, command, block);
}

const char *listing_refusal(uint32_t number)
{
    static const char *const meanings[] = {
        "accepted",
        "the image ends before its header, its landing list or its blocks do",
        "a number of the header or of the landing list is not in its shortest form",
        "a header number is out of range, a board is not for the type, or the start is not below the count",
        "bytes are left over behind the blocks",
        "the block's code is not carried",
        "not on this drive, and no board helps: another pin or another drive is needed",
        "an operand is out of range, or the 51 would end another task than its own",
        "a byte that the command does not use is not 0",
        "the command is not allowed in this task",
        "a call inside 5 calls",
        "a return that can be reached without a call",
        "the program can run past its last block here",
        "the marks buffer is too short",
        "there is no room for the image",
        "no such task, or not 256 inputs",
        "the state buffer is no state, or has the layout of another release: load anew",
        "not the image that was loaded, or its block is not permitted here",
        "the task is not running",
        "division by a variable that holds 0",
        "a variable's content is out of range",
        "the landing blocks are too many, not in ascending order, or not below the count",
        "the variable holds no landing block",
        "a board is missing",
    };
    return number < sizeof meanings / sizeof meanings[0] ? meanings[number] : "unknown number";
}

/* A block of an image whose header is good. */
static const uint8_t *block_of(const uint8_t *image, uint64_t number)
{
    return number_at(image, listing_numbers(image)) + BIAS_BLOCK_LENGTH * number;
}

/* 6: what the type has with no board. */
static void not_on_drive(const uint8_t *image, const uint8_t *block, char *text, size_t room)
{
    static const char *const uses[LISTING_USES] = {"an input", "an output to read", "an output to write"};
    const listing_operand *pin = listing_pin_operand(listing_command_of(block[0]));
    const char *type = listing_type(image[1]);
    if (pin == NULL)
        snprintf(text, room, " (a %s never has this command)", type);
    else
        snprintf(text, room, " (a %s never has pin %ld as %s)", type, (long)listing_value(pin, block),
                 uses[pin->kind - LISTING_INPUT]);
}

/* 23: the board that can be bought. */
static void board_missing(const uint8_t *image, const uint8_t *block, char *text, size_t room)
{
    const listing_operand *operand = listing_pin_operand(listing_command_of(block[0]));
    const unsigned pin = (unsigned)listing_value(operand, block);
    for (size_t n = 0; n < sizeof homes / sizeof homes[0]; n++) {
        const listing_home *has = homes + n;
        const int empty = image[has->slot == 'B' ? 2 : 3] == 0;
        if (has->board != NULL && listing_has_pin(has, operand->kind, pin))
            snprintf(text, room, ": pin %u is on terminal %s of board %s, which this drive can take in slot %c%s", pin,
                     has->terminal, has->board, has->slot, empty ? "" : ", in exchange for the board there");
    }
}

void listing_verdict(const uint8_t *image, const bias_verdict *verdict, char *text, size_t room)
{
    const int length = snprintf(text, room, "%s", listing_refusal(verdict->number));
    if (length < 0 || (size_t)length >= room)
        return;
    if (verdict->number == BIAS_NOT_ON_DRIVE)
        not_on_drive(image, block_of(image, verdict->place), text + length, room - (size_t)length);
    else if (verdict->number == BIAS_BOARD_MISSING)
        board_missing(image, block_of(image, verdict->place), text + length, room - (size_t)length);
}

const char *listing_place(uint32_t number)
{
    switch (number) {
    case 1: case 13: case 14: return "length";
    case 2: case 3: case 4: case 21: return "byte";
    case 0: case 15: case 16: case 18: return "";
    default: return "block";
    }
}

const char *listing_task(uint32_t task)
{
    static const char *const names[] = {"BIAS", "PLC", "MATH"};
    return task < 3 ? names[task] : "?";
}

const char *listing_type(uint32_t type)
{
    static const char *const names[] = {"631", "635", "637", "637+", "637f"};
    return type < 5 ? names[type] : "?";
}

const char *listing_status(uint32_t status)
{
    static const char *const names[] = {"never started", "running", "ended", "halted"};
    return status < 4 ? names[status] : "?";
}
