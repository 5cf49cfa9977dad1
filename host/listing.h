/* listing.h - the table of commands and pins; blocks, refusals and other numbers of a BIAS program in words, as the
 * manual writes them. The rows of docs/IMAGE.md are printed from the table (imagedoc.c), and the library is held to it
 * (imagecheck.c).
 */
#ifndef LISTING_H
#define LISTING_H

#include <stddef.h>
#include <stdint.h>

#include "bias.h"

/* ---- the table ---- */

/* What an operand is. LISTING_NO_OPERAND stands behind the last one of a command. */
enum {
    LISTING_NO_OPERAND,
    LISTING_VARIABLE, LISTING_FLAG, LISTING_FIRST_FLAG, LISTING_NUMBER_OF_FLAGS, LISTING_BIT,
    LISTING_INPUT, LISTING_OUTPUT_READ, LISTING_OUTPUT_WRITTEN, /* pins */
    LISTING_LEVEL, LISTING_CONSTANT, LISTING_DIVISOR, LISTING_EQUALITY, LISTING_COMPARISON, LISTING_BLOCK,
    LISTING_POSITION, LISTING_SPEED, LISTING_ACCELERATION, LISTING_DECELERATION,
    LISTING_TIME, LISTING_TIME_IN_VARIABLE, LISTING_LANDING,
    LISTING_END_MODE, LISTING_STOP_MODE, LISTING_AXIS, LISTING_TARGET,
    LISTING_KINDS
};

/* What is so of every operand of a kind. 7 refuses a number below `least` or above `most`, and one beyond `limit`. */
typedef struct {
    const char *name;
    const char *symbol;  /* in the form of a command; NULL for a letter */
    int32_t least, most;
    unsigned factor;     /* one of the coded number stands for so many */
    const char *unit;    /* of these; "" for none */
    const char *values;  /* what single numbers mean, or "" */
    const char *limit;   /* a further limit in words, or "" */
} listing_kind;

/* Where an operand stands: in so many bytes, low byte first, or in parts of bytes. */
enum {
    LISTING_BYTE, LISTING_WORD, LISTING_LONG,
    LISTING_UPPER_HALF,          /* bits 7 to 4 of a byte */
    LISTING_LOWER_HALF_AND_BYTE  /* bits 3 to 0 of a byte, which count 256, and the byte behind it */
};

typedef struct {
    uint8_t kind, coding;
    uint8_t at;      /* its first byte: 1 for D1 */
    uint8_t content; /* of a variable: the kind of what it has to hold when the command reads it (20; of a landing
                        block 22); else 0 */
} listing_operand;

enum { LISTING_MOST_OPERANDS = 5 }; /* one more than a command has */

typedef struct {
    uint8_t code;
    uint8_t tasks;    /* which tasks may execute it (9): the sum of 1 << BIAS_TASK_... */
    uint8_t types;    /* which drive types have it (6): the sum of 1 << BIAS_TYPE_... */
    const char *text; /* with %1 for the first operand */
    listing_operand operands[LISTING_MOST_OPERANDS];
} listing_command;

/* Pins from `least` to `most`; {0, 0} stands behind the last ones. */
typedef struct {
    uint8_t least, most;
} listing_pins;

enum { LISTING_USES = 3, LISTING_MOST_PINS = 7 };

/* Where pins are: on the drive itself or on a board in a slot. */
typedef struct {
    const char *terminal;
    const char *board; /* NULL for the drive's own pins */
    char slot;         /* 'B' or 'C', and the board's number in the header */
    uint8_t number;
    uint8_t types;     /* the drive types that have it, or can take the board */
    listing_pins pins[LISTING_USES][LISTING_MOST_PINS]; /* inputs, outputs to read, outputs to write */
} listing_home;

/* The row of a code; NULL for a code that is not carried. */
const listing_command *listing_command_of(uint8_t code);

/* The facts of a kind of operands. */
const listing_kind *listing_kind_of(unsigned kind);

/* All places of pins; writes how many there are. */
const listing_home *listing_homes(size_t *count);

/* Whether a place has a pin for a use: LISTING_INPUT, LISTING_OUTPUT_READ or LISTING_OUTPUT_WRITTEN. */
int listing_has_pin(const listing_home *home, unsigned use, unsigned pin);

/* The operand that is a pin, or NULL. */
const listing_operand *listing_pin_operand(const listing_command *command);

/* How many bytes an operand has a part of; its number in a block; whether that number passes 7 in a program of `count`
 * blocks, as far as a block alone tells. */
unsigned listing_bytes(const listing_operand *operand);
int32_t listing_value(const listing_operand *operand, const uint8_t *block);
int listing_in_range(const listing_operand *operand, const uint8_t *block, unsigned count);

/* A number of an image's header or of its landing list: how many bytes it has, and its value. */
unsigned listing_number_length(const uint8_t *at);
unsigned listing_number(const uint8_t *at);

/* How many numbers are in front of the blocks of an image whose header is good: six, and in format 2 the landing count
 * and the landing blocks. */
unsigned listing_numbers(const uint8_t *image);

/* What an operand is called in the form of its command: X, Y, Z, "const.", "?"; "" for one that is always 0. */
const char *listing_symbol(const listing_command *command, const listing_operand *operand);

/* ---- in words ---- */

/* Room enough for any text. */
enum { LISTING_ROOM = 160 };

/* Writes the form of a command, such as "Wait time X ms". */
void listing_form(const listing_command *command, char *text, size_t room);

/* Writes a block as a line of a program listing, such as "Wait time 1000 ms". */
void listing_block(const uint8_t *block, char *text, size_t room);

/* What a refusal number means, in a few words. */
const char *listing_refusal(uint32_t number);

/* What a verdict of bias_load on this image means; 23 with board, slot and terminal, 6 with what the drive lacks. */
void listing_verdict(const uint8_t *image, const bias_verdict *verdict, char *text, size_t room);

/* What `place` counts for a refusal of bias_load: "byte", "length", "block" or "" for none. */
const char *listing_place(uint32_t number);

/* The name of a task, of a drive type, and of a task's status in the state buffer. */
const char *listing_task(uint32_t task);
const char *listing_type(uint32_t type);
const char *listing_status(uint32_t status);

#endif
