/* example.c - the main job: loads a BIAS image, steps its three tasks cycle by cycle with a simple axis and with input
 * levels by a script, and prints a trace that a person can read.
 * Usage: example [--cycles N] [--quiet] [--inputs SCRIPT] [FILE]
 */
#include <limits.h>
#include <stdio.h>
#include <stdlib.h>
#include <string.h>

#include "beside.h"
#include "bias.h"
#include "inputs.h"
#include "listing.h"

enum { TASKS = 3, TEXT_ROOM = 96, CHANGES_ROOM = 512, PATH_ROOM = 4096, DEFAULT_CYCLES = 3000 };
enum { EXIT_REFUSED = 1, EXIT_USAGE = 2 };
enum { WAIT_FOR_POSITION = 0x58 };
#define DEFAULT_IMAGE "feed.img"

/* Where a trace finds the rest of the state (docs/STATE.md). Firmware has no need of these: they may move. */
enum {
    AT_HEADER = BIAS_STATE_LAYOUT_AT + 1, AT_LANDING_COUNT = AT_HEADER + 8, AT_LANDINGS = AT_LANDING_COUNT + 1,
    AT_POSITION = AT_LANDINGS + 2 * BIAS_MOST_LANDINGS, AT_SPEED = AT_POSITION + 4,
    AT_ACCELERATION = AT_SPEED + 2, AT_DECELERATION = AT_ACCELERATION + 2, AT_START_MARK = AT_DECELERATION + 2,
    AT_START_LEVEL = AT_START_MARK + 1, AT_MOVED = AT_START_LEVEL + 1, AT_STARTS = AT_MOVED + 1,
    AT_TASKS = AT_STARTS + 4, IN_TASK_DEPTH = 1, IN_TASK_BLOCK = 2, IN_TASK_STACK = 4,
    IN_TASK_TIME = IN_TASK_STACK + 2 * BIAS_MOST_DEPTH, TASK_LENGTH = IN_TASK_TIME + 8, STATUS_RUNNING = 1
};

/* A motor turn has 16384 increments (the manual's high resolver resolution). */
#define INCREMENTS_PER_TURN 16384ull
#define MICROSECONDS_PER_MINUTE 60000000ull

/* In window is that many increments from the target, or fewer: as in the manual's examples at 25 and 35, commands that
 * are not carried, so no program sets another. This axis stops right on its target, so any window would do; in the feed
 * program it comes into this one while it still moves, so that a 58 needs both bits. */
enum { WINDOW = 400 };

/* An axis without ramps: it moves at the requested speed and stops where it should. A move by a distance counts from the
 * latest target (the manual at 01); an endless move and a stop leave the target where the axis is. */
typedef struct {
    long long position, target, per_cycle;
    int direction; /* 0 at rest, else the sign of the movement */
    int endless;
} axis;

/* What an axis reports. */
typedef struct {
    uint8_t ramp_ended, in_window;
} axis_bits;

/* What the example holds for one program. */
typedef struct {
    uint8_t *image;
    size_t image_len;
    uint8_t state[BIAS_STATE_LENGTH];
    const char *script_name; /* NULL for none */
    inputs_script script;
    uint8_t levels[INPUTS_COUNT]; /* of the pins, which are lent as they stand here, and of the rest of the script */
    axis axis;
    axis_bits given; /* with the steps of this cycle */
    unsigned long cycles, cycle;
    unsigned long steps[TASKS], stays[TASKS], requests;
    int quiet;
} run;

static unsigned word(const uint8_t *at)
{
    return at[0] + 256u * at[1];
}

static long signed_long(const uint8_t *at)
{
    uint32_t value = word(at) + 65536u * word(at + 2);
    return value < 0x80000000u ? (long)value : -(long)(0xFFFFFFFFu - value) - 1;
}

static const uint8_t *task_record(const uint8_t *state, unsigned task)
{
    return state + AT_TASKS + task * TASK_LENGTH;
}

/* ---- the axis ---- */

static unsigned cycle_length(const run *program)
{
    return program->state[AT_HEADER + 1] < BIAS_TYPE_637_PLUS ? 1899u : 844u;
}

static void axis_request(run *program, const bias_answer *answer)
{
    axis *a = &program->axis;
    unsigned long long per_minute = answer->speed * INCREMENTS_PER_TURN;
    a->endless = answer->motion == BIAS_MOTION_ENDLESS_FORWARD || answer->motion == BIAS_MOTION_ENDLESS_BACKWARD;
    a->per_cycle = (long long)(per_minute * cycle_length(program) / MICROSECONDS_PER_MINUTE);
    if (a->per_cycle == 0)
        a->per_cycle = 1;
    switch (answer->motion) {
    case BIAS_MOTION_MOVE_TO: a->target = answer->position; break;
    case BIAS_MOTION_MOVE_BY: a->target += answer->position; break;
    default: a->target = a->position; break;
    }
    a->direction = a->target > a->position ? 1 : a->target < a->position ? -1 : 0;
    if (a->endless)
        a->direction = answer->motion == BIAS_MOTION_ENDLESS_FORWARD ? 1 : -1;
}

static long long axis_left(const axis *a)
{
    return a->target > a->position ? a->target - a->position : a->position - a->target;
}

static axis_bits axis_report(const axis *a)
{
    const axis_bits report = {a->direction == 0, axis_left(a) <= WINDOW};
    return report;
}

static void axis_cycle(axis *a)
{
    if (a->endless || axis_left(a) > a->per_cycle) {
        a->position += a->direction * a->per_cycle;
        a->target = a->endless ? a->position : a->target;
    } else if (a->direction != 0) {
        a->position = a->target;
        a->direction = 0;
    }
}

/* ---- the trace ---- */

static void append(char *text, const char *word_text, long value)
{
    size_t used = strlen(text);
    snprintf(text + used, CHANGES_ROOM - used, "%s%s %ld", used == 0 ? "" : ", ", word_text, value);
}

static void append_numbered(char *text, const char *kind, unsigned number, long value)
{
    char name[TEXT_ROOM];
    snprintf(name, sizeof name, "%s %u =", kind, number);
    append(text, name, value);
}

static void value_changes(const uint8_t *before, const uint8_t *after, char *text)
{
    for (unsigned n = 0; n < 256; n++) {
        const size_t at = BIAS_STATE_VARIABLES + 4u * n;
        if (memcmp(before + at, after + at, 4) != 0)
            append_numbered(text, "variable", n, signed_long(after + at));
    }
    for (unsigned n = 0; n < 256; n++)
        if (before[BIAS_STATE_FLAGS + n] != after[BIAS_STATE_FLAGS + n])
            append_numbered(text, "flag", n, after[BIAS_STATE_FLAGS + n]);
    for (unsigned n = 0; n < 256; n++)
        if (before[BIAS_STATE_OUTPUTS + n] != after[BIAS_STATE_OUTPUTS + n])
            append_numbered(text, "output", n, after[BIAS_STATE_OUTPUTS + n]);
}

static void parameter_changes(const uint8_t *before, const uint8_t *after, char *text)
{
    if (memcmp(before + AT_POSITION, after + AT_POSITION, 4) != 0)
        append(text, "position =", signed_long(after + AT_POSITION));
    if (memcmp(before + AT_SPEED, after + AT_SPEED, 2) != 0)
        append(text, "speed =", (long)word(after + AT_SPEED));
    if (memcmp(before + AT_ACCELERATION, after + AT_ACCELERATION, 2) != 0)
        append(text, "acceleration = 5 x", (long)word(after + AT_ACCELERATION));
    if (memcmp(before + AT_DECELERATION, after + AT_DECELERATION, 2) != 0)
        append(text, "deceleration = 5 x", (long)word(after + AT_DECELERATION));
    if (before[AT_START_MARK] != after[AT_START_MARK])
        append(text, "start mark =", after[AT_START_MARK]);
}

/* Where the stepped task goes, unless to the next block; tasks that are started, end or halt. */
static void task_changes(const uint8_t *before, const uint8_t *after, unsigned stepped, char *text)
{
    for (unsigned task = 0; task < TASKS; task++) {
        const uint8_t *was = task_record(before, task), *is = task_record(after, task);
        const unsigned from = word(was + IN_TASK_BLOCK), to = word(is + IN_TASK_BLOCK);
        char name[TEXT_ROOM];
        if (task == stepped && was[0] == is[0]) {
            if (to != from && to != from + 1)
                append(text, "to block", (long)to);
            if (was[IN_TASK_DEPTH] != is[IN_TASK_DEPTH])
                append(text, "depth", is[IN_TASK_DEPTH]);
        } else if (memcmp(was, is, TASK_LENGTH) != 0) {
            snprintf(name, sizeof name, "%s %s at block", listing_task(task), listing_status(is[0]));
            append(text, name, (long)to);
        }
    }
}

static void print_request(const bias_answer *answer)
{
    static const char *const names[] = {"", "MOVE TO", "MOVE BY", "ENDLESS FORWARD", "ENDLESS BACKWARD"};
    if (answer->motion == BIAS_MOTION_STOP)
        printf("  => STOP mode %u, ramp %u rpm/s", (unsigned)answer->mode, 5u * (unsigned)answer->deceleration);
    else if (answer->motion != BIAS_MOTION_NONE)
        printf("  => %s %ld INCR, %u rpm, ramps %u and %u rpm/s", names[answer->motion], (long)answer->position,
               (unsigned)answer->speed, 5u * (unsigned)answer->acceleration, 5u * (unsigned)answer->deceleration);
}

/* The block that a task is at. */
static const uint8_t *block_at(const run *program, unsigned task, const uint8_t *before)
{
    const size_t first = program->image_len - (size_t)BIAS_BLOCK_LENGTH * word(before + AT_HEADER + 6);
    const unsigned block = word(task_record(before, task) + IN_TASK_BLOCK);
    return program->image + first + (size_t)BIAS_BLOCK_LENGTH * block;
}

/* The same in words. */
static void print_place(const run *program, unsigned task, const uint8_t *before)
{
    const uint8_t *record = task_record(before, task);
    char text[TEXT_ROOM];
    listing_block(block_at(program, task, before), text, sizeof text);
    printf("%7lu  %-4s %5u %5u  %-44s ", program->cycle, listing_task(task), word(record + IN_TASK_BLOCK),
           record[IN_TASK_DEPTH], text);
}

static void print_line(const run *program, unsigned task, const uint8_t *before, const bias_answer *answer, int stays)
{
    char changes[CHANGES_ROOM] = "";
    value_changes(before, program->state, changes);
    parameter_changes(before, program->state, changes);
    task_changes(before, program->state, task, changes);
    print_place(program, task, before);
    if (stays && block_at(program, task, before)[0] == WAIT_FOR_POSITION)
        printf("stays, ramp ended %u, in window %u", program->given.ramp_ended, program->given.in_window);
    else if (stays)
        printf("stays");
    else if (program->stays[task] != 0)
        printf("%s%sgoes on after %lu more steps, axis at %lld", changes, changes[0] == '\0' ? "" : "; ",
               program->stays[task], program->axis.position);
    else
        printf("%s", changes[0] == '\0' ? "-" : changes);
    print_request(answer);
    if (answer->number != BIAS_SUCCESS)
        printf("  HALTED by %u: %s", (unsigned)answer->number, listing_refusal(answer->number));
    printf("\n");
}

/* A task that stays at its block is shown once, and again when it goes on. */
static void trace(run *program, unsigned task, const uint8_t *before, const bias_answer *answer)
{
    const uint8_t *was = task_record(before, task), *is = task_record(program->state, task);
    const int same = memcmp(was, is, IN_TASK_TIME) == 0 && answer->motion == BIAS_MOTION_NONE
        && memcmp(before, program->state, BIAS_STATE_LAYOUT_AT) == 0;
    const int waiting = same && answer->number == BIAS_SUCCESS;
    const int shown = program->quiet ? answer->motion != BIAS_MOTION_NONE || answer->number != BIAS_SUCCESS
                                     : !waiting || program->stays[task] == 0;
    if (shown)
        print_line(program, task, before, answer, waiting);
    program->stays[task] = waiting ? program->stays[task] + 1 : 0;
}

/* ---- the run ---- */

/* One step of one task. Gives 0 when a refusal came that no accepted program can meet. */
static int step_task(run *program, unsigned task)
{
    uint8_t before[BIAS_STATE_LENGTH];
    memcpy(before, program->state, sizeof before);
    bias_answer answer = bias_step(program->image, program->image_len, program->state, sizeof program->state, task,
                                   program->levels, BIAS_INPUTS_LENGTH, program->levels[INPUTS_START],
                                   program->given.ramp_ended, program->given.in_window);
    if (answer.number == BIAS_NOT_RUNNING)
        return 1;
    if (answer.number == BIAS_BAD_INPUTS || answer.number == BIAS_NO_STATE || answer.number == BIAS_OTHER_IMAGE) {
        printf("step refused by %u: %s\n", (unsigned)answer.number, listing_refusal(answer.number));
        return 0;
    }
    trace(program, task, before, &answer);
    program->steps[task]++;
    if (answer.motion != BIAS_MOTION_NONE) {
        program->requests++;
        axis_request(program, &answer);
    }
    return 1;
}

/* Puts into force what the script has for this cycle. */
static void follow_script(run *program)
{
    char text[TEXT_ROOM];
    for (const inputs_line *line; (line = inputs_due(&program->script, program->cycle)) != NULL;) {
        program->levels[line->what] = line->level;
        inputs_text(line, text, sizeof text);
        if (!program->quiet)
            printf("%7lu  %-16s  %s\n", program->cycle, "host", text);
    }
}

/* What the script has for a bit of the axis goes before what the axis says. */
static uint8_t bit_given(const run *program, uint32_t what, uint8_t reported)
{
    return program->levels[what] == INPUTS_AXIS ? reported : program->levels[what];
}

/* Document 01: BIAS, PLC and mathematics, one command each in a trajectory cycle; then the axis moves. Its bits come a
 * cycle late: it reports before the steps of a cycle, and the steps of the next cycle are given that. So in the cycle
 * after a start they still speak of the movement before. Nothing is done about it here: the library has a 58 stay. */
static int run_cycles(run *program)
{
    axis_bits report = axis_report(&program->axis);
    for (program->cycle = 0; program->cycle < program->cycles; program->cycle++) {
        follow_script(program);
        program->given.ramp_ended = bit_given(program, INPUTS_RAMP, report.ramp_ended);
        program->given.in_window = bit_given(program, INPUTS_WINDOW, report.in_window);
        report = axis_report(&program->axis);
        for (unsigned task = 0; task < TASKS; task++)
            if (!step_task(program, task))
                return 0;
        axis_cycle(&program->axis);
    }
    return 1;
}

static void print_summary(const run *program)
{
    printf("%lu cycles of %u us, %lu motion requests, axis at %lld\n", program->cycles, cycle_length(program),
           program->requests, program->axis.position);
    for (unsigned task = 0; task < TASKS; task++) {
        const uint8_t *record = task_record(program->state, task);
        printf("%-4s %s", listing_task(task), listing_status(record[0]));
        if (record[0] == STATUS_RUNNING)
            printf(" at block %u, depth %u", word(record + IN_TASK_BLOCK), record[IN_TASK_DEPTH]);
        printf(", %lu steps\n", program->steps[task]);
    }
    if (program->script_name != NULL)
        printf("%s: %lu of %lu lines came into force\n", program->script_name, (unsigned long)program->script.next,
               (unsigned long)program->script.count);
}

/* What was loaded, with the landing blocks of a format that has them. */
static void print_loaded(const run *program, const char *name)
{
    const uint8_t *header = program->state + AT_HEADER;
    printf("%s: accepted, %lu bytes, drive %s, program start %u, %u blocks", name, (unsigned long)program->image_len,
           listing_type(header[1]), word(header + 4), word(header + 6));
    if (header[0] == BIAS_FORMAT_LANDINGS)
        printf(", landing blocks%s", program->state[AT_LANDING_COUNT] == 0 ? " none" : "");
    for (unsigned n = 0; n < program->state[AT_LANDING_COUNT]; n++)
        printf("%s %u", n == 0 ? "" : ",", word(program->state + AT_LANDINGS + 2 * n));
    printf("\n");
}

/* Gives an exit status. */
static int load(run *program, const char *name)
{
    uint8_t *marks = malloc(BIAS_MARKS_LENGTH);
    if (marks == NULL) {
        perror("marks");
        return EXIT_USAGE;
    }
    bias_verdict verdict = bias_load(program->image, program->image_len, marks, BIAS_MARKS_LENGTH, program->state,
                                     sizeof program->state);
    free(marks);
    if (verdict.number == BIAS_SUCCESS) {
        print_loaded(program, name);
        return EXIT_SUCCESS;
    }
    fprintf(stderr, "%s: refused by %u at %s %llu", name, (unsigned)verdict.number, listing_place(verdict.number),
            (unsigned long long)verdict.place);
    if (verdict.number >= BIAS_FORBIDDEN && verdict.number <= BIAS_PAST_END)
        fprintf(stderr, ", task %s, depth %u", listing_task(verdict.task), (unsigned)verdict.depth);
    char text[LISTING_ROOM];
    listing_verdict(program->image, &verdict, text, sizeof text);
    fprintf(stderr, ": %s\n", text);
    return EXIT_REFUSED;
}

/* Reads a whole file; one byte more than the longest image is enough to have it refused. */
static int read_image(run *program, const char *name)
{
    FILE *file = fopen(name, "rb");
    program->image = malloc(BIAS_MOST_IMAGE_LENGTH + 1);
    if (file == NULL || program->image == NULL) {
        perror(name);
        if (file != NULL)
            fclose(file);
        return 0;
    }
    program->image_len = fread(program->image, 1, BIAS_MOST_IMAGE_LENGTH + 1, file);
    const int good = !ferror(file);
    fclose(file);
    if (!good)
        perror(name);
    return good;
}

static void usage(FILE *to)
{
    fprintf(to, "usage: example [--cycles N] [--quiet] [--inputs SCRIPT] [FILE]\n"
                "Loads a BIAS image, runs it for N trajectory cycles (default %d) with a simple axis, and prints each\n"
                "step: cycle, task, block, depth, command, what changed, motion request. Without FILE it runs\n"
                DEFAULT_IMAGE ", which stands beside the program or in the checkout's host folder.\n"
                "--quiet prints motion requests, halts and the summary only.\n"
                "--inputs gives levels by a script of lines CYCLE WHAT LEVEL. From its cycle on a level holds; cycles\n"
                "count from 0 and do not go backwards; what no line names is 0, and the bits are the axis's own.\n"
                "    120 7 1        input pin 7 (0 to 255)\n"
                "    200 start 1    the start input; a program that reads it as a pin as well needs a line for the pin\n"
                "    210 ramp 0     ramp ended, whatever the axis says; ramp axis gives the bit back to the axis\n"
                "    210 window 1   in window, likewise\n"
                "    # a comment\n", DEFAULT_CYCLES);
}

/* Reads the command line; gives 0 for one that is not understood. */
static int options(run *program, int argc, char **argv, const char **image_name)
{
    for (int at = 1; at < argc; at++) {
        if (strcmp(argv[at], "--quiet") == 0) {
            program->quiet = 1;
        } else if (strcmp(argv[at], "--cycles") == 0 && at + 1 < argc) {
            if (!inputs_number(argv[++at], ULONG_MAX, &program->cycles))
                return 0;
        } else if (strcmp(argv[at], "--inputs") == 0 && at + 1 < argc) {
            program->script_name = argv[++at];
        } else if (argv[at][0] == '-') {
            return 0;
        } else {
            *image_name = argv[at];
        }
    }
    return 1;
}

/* Reads and loads the image that is named, or else the one that goes with the program, which the trace calls by its name
 * alone. Gives an exit status. */
static int open_image(run *program, const char *program_name, const char *image_name)
{
    char path[PATH_ROOM];
    if (image_name == NULL && !beside(program_name, DEFAULT_IMAGE, path, sizeof path)) {
        fprintf(stderr, "example: no " DEFAULT_IMAGE " beside the program: name an image\n");
        return EXIT_USAGE;
    }
    if (!read_image(program, image_name == NULL ? path : image_name))
        return EXIT_USAGE;
    return load(program, image_name == NULL ? DEFAULT_IMAGE : image_name);
}

static int run_and_tell(run *program)
{
    printf("%7s  %-4s %5s %5s  %-44s %s\n", "cycle", "task", "block", "depth", "command",
           "what changed => motion request");
    const int good = run_cycles(program);
    print_summary(program);
    return good ? EXIT_SUCCESS : EXIT_REFUSED;
}

int main(int argc, char **argv)
{
    static run program;
    const char *image_name = NULL;
    program.cycles = DEFAULT_CYCLES;
    program.levels[INPUTS_RAMP] = program.levels[INPUTS_WINDOW] = INPUTS_AXIS;
    if (argc == 2 && strcmp(argv[1], "--help") == 0) {
        usage(stdout);
        return EXIT_SUCCESS;
    }
    if (!options(&program, argc, argv, &image_name)) {
        usage(stderr);
        return EXIT_USAGE;
    }
    if (program.script_name != NULL && !inputs_read(&program.script, program.script_name))
        return EXIT_USAGE;
    int status = open_image(&program, argv[0], image_name);
    if (status == EXIT_SUCCESS)
        status = run_and_tell(&program);
    free(program.script.lines);
    free(program.image);
    return status;
}
