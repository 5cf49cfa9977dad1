/* inputs.c - a script of levels, read line by line. */
#include "inputs.h"

#include <ctype.h>
#include <errno.h>
#include <limits.h>
#include <stdio.h>
#include <stdlib.h>
#include <string.h>

enum { LINE_ROOM = 256, WORDS = 3, FIRST_ROOM = 16 };

/* What is no pin: its word in a script, and its name in a trace. */
static const struct {
    const char *word, *name;
} others[] = {{"start", "start input"}, {"ramp", "ramp ended"}, {"window", "in window"}};

/* Where a line stands, for messages. */
typedef struct {
    const char *name;
    unsigned long line;
} place;

static int refuse(const place *at, const char *word, const char *why)
{
    fprintf(stderr, "%s:%lu: '%s' %s\n", at->name, at->line, word, why);
    return 0;
}

int inputs_number(const char *word, unsigned long most, unsigned long *value)
{
    char *end;
    if (!isdigit((unsigned char)word[0]))
        return 0;
    errno = 0;
    *value = strtoul(word, &end, 10);
    return *end == '\0' && errno == 0 && *value <= most;
}

static int read_what(const place *at, const char *word, uint32_t *what)
{
    unsigned long pin;
    for (uint32_t other = 0; other < sizeof others / sizeof others[0]; other++)
        if (strcmp(word, others[other].word) == 0) {
            *what = INPUTS_START + other;
            return 1;
        }
    if (!inputs_number(word, BIAS_INPUTS_LENGTH - 1, &pin))
        return refuse(at, word, "is neither a pin (0 to 255) nor start, ramp or window");
    *what = (uint32_t)pin;
    return 1;
}

static int read_level(const place *at, const char *word, uint32_t what, uint8_t *level)
{
    const int of_axis = what == INPUTS_RAMP || what == INPUTS_WINDOW;
    unsigned long number;
    if (of_axis && strcmp(word, "axis") == 0) {
        *level = INPUTS_AXIS;
        return 1;
    }
    if (!inputs_number(word, INPUTS_HIGH, &number))
        return refuse(at, word, of_axis ? "is neither 0, 1 nor axis" : "is neither 0 nor 1");
    *level = (uint8_t)number;
    return 1;
}

/* Splits a line at blanks, up to its comment; gives how many words it has, at most `most`. */
static int split(char *line, char **words, int most)
{
    int count = 0;
    line[strcspn(line, "#")] = '\0';
    for (char *word = strtok(line, " \t\r\n"); word != NULL && count < most; word = strtok(NULL, " \t\r\n"))
        words[count++] = word;
    return count;
}

static int append(inputs_script *script, const inputs_line *line)
{
    if (script->count == script->room) {
        const size_t room = script->room == 0 ? FIRST_ROOM : 2 * script->room;
        inputs_line *lines = realloc(script->lines, room * sizeof *lines);
        if (lines == NULL) {
            perror("inputs");
            return 0;
        }
        script->lines = lines;
        script->room = room;
    }
    script->lines[script->count++] = *line;
    return 1;
}

/* One line, which may be empty. */
static int read_line(inputs_script *script, const place *at, char *text)
{
    char *words[WORDS + 1];
    inputs_line line;
    const int count = split(text, words, WORDS + 1);
    if (count == 0)
        return 1;
    if (count != WORDS)
        return refuse(at, words[0], "should be followed by WHAT and LEVEL alone");
    if (!inputs_number(words[0], ULONG_MAX, &line.cycle))
        return refuse(at, words[0], "is no cycle");
    if (script->count > 0 && line.cycle < script->lines[script->count - 1].cycle)
        return refuse(at, words[0], "is an earlier cycle than that of the line before");
    return read_what(at, words[1], &line.what) && read_level(at, words[2], line.what, &line.level)
        && append(script, &line);
}

int inputs_read(inputs_script *script, const char *name)
{
    char text[LINE_ROOM];
    place at = {name, 0};
    FILE *file = fopen(name, "r");
    if (file == NULL) {
        perror(name);
        return 0;
    }
    int good = 1;
    while (good && fgets(text, sizeof text, file) != NULL) {
        at.line++;
        good = strchr(text, '\n') != NULL || feof(file) ? read_line(script, &at, text)
                                                        : refuse(&at, text, "is too long for a line of text");
    }
    if (ferror(file)) {
        perror(name);
        good = 0;
    }
    fclose(file);
    return good;
}

const inputs_line *inputs_due(inputs_script *script, unsigned long cycle)
{
    const int due = script->next < script->count && script->lines[script->next].cycle <= cycle;
    return due ? &script->lines[script->next++] : NULL;
}

void inputs_text(const inputs_line *line, char *text, size_t room)
{
    static const char *const levels[] = {"0", "1", "what the axis says"};
    if (line->what < INPUTS_START)
        snprintf(text, room, "input %lu = %s", (unsigned long)line->what, levels[line->level]);
    else
        snprintf(text, room, "%s = %s", others[line->what - INPUTS_START].name, levels[line->level]);
}
