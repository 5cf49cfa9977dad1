/* inputs.h - a script of levels for the example: which input, the start input or bit of the axis has which level from
 * which cycle on. Lines `CYCLE WHAT LEVEL`, as the example's --help shows them.
 */
#ifndef INPUTS_H
#define INPUTS_H

#include <stddef.h>
#include <stdint.h>

#include "bias.h"

/* What a line is about: a pin by its number, or one of these. */
enum { INPUTS_START = BIAS_INPUTS_LENGTH, INPUTS_RAMP, INPUTS_WINDOW, INPUTS_COUNT };

/* Its level: 0, 1, or for the axis's bits what the axis itself says. */
enum { INPUTS_LOW, INPUTS_HIGH, INPUTS_AXIS };

typedef struct {
    unsigned long cycle;
    uint32_t what;
    uint8_t level;
} inputs_line;

typedef struct {
    inputs_line *lines;
    size_t count, room;
    size_t next; /* the first line that is not in force yet */
} inputs_script;

/* Reads a whole script. Gives 0 after a message that names file and line. */
int inputs_read(inputs_script *script, const char *name);

/* The next line that comes into force in this cycle, or NULL. */
const inputs_line *inputs_due(inputs_script *script, unsigned long cycle);

/* A line in words, such as "input 7 = 1". */
void inputs_text(const inputs_line *line, char *text, size_t room);

/* Reads a number of decimal digits, at most `most`; gives 0 for anything else. */
int inputs_number(const char *word, unsigned long most, unsigned long *value);

#endif
