/* imagedoc.c - prints the tables of docs/IMAGE.md from the table of listing.c, in Markdown: the commands, the pins, or
 * an image with each of its bytes explained. Usage: imagedoc [--pins | FILE]
 */
#include <stdio.h>
#include <string.h>

#include "bias.h"
#include "listing.h"

enum { EXIT_PRINTED = 0, EXIT_REFUSED = 1, EXIT_TROUBLE = 2 };
enum { TASKS = 3, TYPES = 5, CODES = 256 };

/* ---- the commands ---- */

/* Text of a cell: a bar would end it. */
static void print_code(const char *text)
{
    printf("`");
    for (; *text != '\0'; text++)
        printf("%s%c", *text == '|' ? "\\" : "", *text);
    printf("`");
}

static void print_place(const listing_operand *operand)
{
    const unsigned last = operand->at + listing_bytes(operand) - 1;
    if (operand->coding == LISTING_UPPER_HALF)
        printf("D%u bits 7-4", operand->at);
    else if (operand->coding == LISTING_LOWER_HALF_AND_BYTE)
        printf("D%u bits 3-0 and D%u", operand->at, last);
    else if (last > operand->at)
        printf("D%u-D%u", operand->at, last);
    else
        printf("D%u", operand->at);
}

/* What the coded number counts. */
static void print_unit(const listing_kind *kind)
{
    if (kind->factor != 1)
        printf(" in %u %s", kind->factor, kind->unit);
    else if (kind->unit[0] != '\0')
        printf(" in %s", kind->unit);
}

/* The numbers from one end to the other, each `factor` times. */
static void print_ends(const listing_kind *kind, unsigned factor)
{
    const long long least = (long long)kind->least * factor, most = (long long)kind->most * factor;
    if (least == most)
        printf("%lld", least);
    else
        printf("%lld %s %lld", least, most - least == 1 ? "or" : "to", most);
}

static void print_range(const listing_kind *kind)
{
    printf(", ");
    print_ends(kind, 1);
    if (kind->factor != 1) {
        printf(" (");
        print_ends(kind, kind->factor);
        printf(" %s)", kind->unit);
    }
    if (kind->values[0] != '\0')
        printf(" (%s)", kind->values);
    if (kind->limit[0] != '\0')
        printf(", %s", kind->limit);
}

/* Pins have a table of their own. */
static void print_operand(const listing_command *command, const listing_operand *operand)
{
    const listing_kind *kind = listing_kind_of(operand->kind), *content = listing_kind_of(operand->content);
    const char *symbol = listing_symbol(command, operand);
    print_place(operand);
    printf(": %s%s%s", kind->name, kind->name[0] != '\0' && symbol[0] != '\0' ? " " : "", symbol);
    print_unit(kind);
    if (operand != listing_pin_operand(command))
        print_range(kind);
    if (operand->content != LISTING_NO_OPERAND) {
        printf("; its content: %s", content->name);
        print_unit(content);
        print_range(content);
    }
}

static void print_types(unsigned types)
{
    const char *between = "";
    if (types == (1u << TYPES) - 1) {
        printf("all");
        return;
    }
    for (unsigned type = 0; type < TYPES; type++)
        if (types >> type & 1) {
            printf("%s%s", between, listing_type(type));
            between = ", ";
        }
}

static void print_command(const listing_command *command)
{
    static const char letters[TASKS + 1] = "BPM";
    char form[LISTING_ROOM];
    listing_form(command, form, sizeof form);
    printf("| %02X | ", command->code);
    print_code(form);
    printf(" | ");
    for (const listing_operand *operand = command->operands; operand->kind != LISTING_NO_OPERAND; operand++) {
        print_operand(command, operand);
        printf(operand[1].kind == LISTING_NO_OPERAND ? " " : "; ");
    }
    printf("|");
    for (unsigned task = 0; task < TASKS; task++)
        if (command->tasks >> task & 1)
            printf(" %c", letters[task]);
    printf(" | ");
    print_types(command->types);
    printf(" |\n");
}

static void print_commands(void)
{
    printf("| Code | Command | Operands | Tasks | Drives |\n|---|---|---|---|---|\n");
    for (unsigned code = 0; code < CODES; code++) {
        const listing_command *command = listing_command_of((uint8_t)code);
        if (command != NULL)
            print_command(command);
    }
}

/* ---- the pins ---- */

static void print_pins(const listing_home *home, unsigned use)
{
    const listing_pins *pins = home->pins[use];
    if (pins->least == 0)
        printf("none");
    for (; pins->least != 0; pins++) {
        printf("%u", pins->least);
        if (pins->most > pins->least)
            printf("%s%u", pins->most - pins->least == 1 ? ", " : " to ", pins->most);
        printf("%s", pins[1].least != 0 ? ", " : "");
    }
}

static void print_homes(void)
{
    size_t count;
    const listing_home *homes = listing_homes(&count);
    printf("| Drives | Board | Slot, number | Terminal "
           "| Inputs (63, 70) | Outputs read (64, 71) | Outputs written (72, 73) |\n|---|---|---|---|---|---|---|\n");
    for (size_t n = 0; n < count; n++) {
        printf("| ");
        print_types(homes[n].types);
        if (homes[n].board == NULL)
            printf(" | none | | %s", homes[n].terminal);
        else
            printf(" | %s | %c, %u | %s", homes[n].board, homes[n].slot, homes[n].number, homes[n].terminal);
        for (unsigned use = 0; use < LISTING_USES; use++) {
            printf(" | ");
            print_pins(homes + n, use);
        }
        printf(" |\n");
    }
}

/* ---- an image ---- */

/* The beginning of a row: where the bytes stand, and the bytes. */
static void print_bytes(const uint8_t *image, size_t at, size_t length)
{
    printf("| %lu | `", (unsigned long)at);
    for (size_t n = 0; n < length; n++)
        printf("%s%02X", n == 0 ? "" : " ", image[at + n]);
    printf("` | ");
}

static const char *board(char slot, unsigned number_in_header)
{
    size_t count;
    const listing_home *homes = listing_homes(&count);
    for (size_t n = 0; n < count; n++)
        if (homes[n].slot == slot && homes[n].number == number_in_header)
            return homes[n].board;
    return "empty";
}

/* Prints the header, the landing list included; gives its length. */
static size_t print_header(const uint8_t *image)
{
    static const char *const names[] = {"format", "type", "slot B", "slot C", "program start", "count of blocks",
                                        "count of landing blocks"};
    const unsigned named = sizeof names / sizeof names[0], numbers = listing_numbers(image);
    size_t at = 0;
    for (unsigned n = 0; n < numbers; n++) {
        const unsigned value = listing_number(image + at), length = listing_number_length(image + at);
        print_bytes(image, at, length);
        printf("%s: %u", n < named ? names[n] : "landing block", value);
        if (n == 1)
            printf(", a %s", listing_type(value));
        else if (n == 2 || n == 3)
            printf(", %s", board(n == 2 ? 'B' : 'C', value));
        printf(" |\n");
        at += length;
    }
    return at;
}

static void print_unused(const listing_command *command)
{
    unsigned first = 1; /* operands stand one behind the other, and unused bytes behind them */
    for (const listing_operand *operand = command->operands; operand->kind != LISTING_NO_OPERAND; operand++)
        first = operand->at + listing_bytes(operand);
    if (first < BIAS_BLOCK_LENGTH - 1)
        printf("; D%u-D%u: unused", first, BIAS_BLOCK_LENGTH - 1);
    else if (first < BIAS_BLOCK_LENGTH)
        printf("; D%u: unused", first);
}

static void print_block(const uint8_t *image, size_t at, unsigned block)
{
    const listing_command *command = listing_command_of(image[at]);
    char text[LISTING_ROOM];
    listing_block(image + at, text, sizeof text);
    print_bytes(image, at, BIAS_BLOCK_LENGTH);
    printf("block %u, ", block);
    print_code(text);
    printf(": code %02X", command->code);
    for (const listing_operand *operand = command->operands; operand->kind != LISTING_NO_OPERAND; operand++) {
        const char *name = listing_kind_of(operand->kind)->name;
        printf("; ");
        print_place(operand);
        printf(": %s %ld", name[0] != '\0' ? name : "const.", (long)listing_value(operand, image + at));
    }
    print_unused(command);
    printf(" |\n");
}

static void print_image(const uint8_t *image, size_t length)
{
    printf("| At | Bytes | What |\n|---|---|---|\n");
    size_t at = print_header(image);
    for (unsigned block = 0; at < length; block++, at += BIAS_BLOCK_LENGTH)
        print_block(image, at, block);
}

/* Prints the image in a file, if it is accepted; gives the exit status. */
static int explain(const char *name)
{
    static uint8_t image[BIAS_MOST_IMAGE_LENGTH + 1], marks[BIAS_MARKS_LENGTH], state[BIAS_STATE_LENGTH];
    FILE *file = fopen(name, "rb");
    if (file == NULL) {
        perror(name);
        return EXIT_TROUBLE;
    }
    const size_t length = fread(image, 1, sizeof image, file);
    const int good = !ferror(file);
    fclose(file);
    if (!good) {
        perror(name);
        return EXIT_TROUBLE;
    }
    const bias_verdict verdict = bias_load(image, length, marks, sizeof marks, state, sizeof state);
    if (verdict.number != BIAS_SUCCESS) {
        fprintf(stderr, "%s: refused by %lu: %s\n", name, (unsigned long)verdict.number,
                listing_refusal(verdict.number));
        return EXIT_REFUSED;
    }
    print_image(image, length);
    return EXIT_PRINTED;
}

int main(int argc, char **argv)
{
    int status = EXIT_PRINTED;
    if (argc > 2 || (argc == 2 && argv[1][0] == '-' && strcmp(argv[1], "--pins") != 0)) {
        fprintf(stderr, "usage: imagedoc [--pins | FILE]\n");
        return EXIT_TROUBLE;
    }
    if (argc == 1)
        print_commands();
    else if (strcmp(argv[1], "--pins") == 0)
        print_homes();
    else
        status = explain(argv[1]);
    if (fflush(stdout) != 0 || ferror(stdout)) {
        perror("standard output");
        return EXIT_TROUBLE;
    }
    return status;
}
