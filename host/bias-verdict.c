/* bias-verdict.c - document 01's verdict program with an exit status: judges the image in a named file or on standard input
 * by bias_load and prints the line of its verdict. Usage: bias-verdict [--explain] [FILE]
 */
#include <stdio.h>
#include <string.h>

#include "bias.h"
#include "listing.h"

enum { EXIT_ACCEPTED = 0, EXIT_REFUSED = 1, EXIT_TROUBLE = 2 };

/* One byte more than the longest image: it is enough to have a longer one refused, by 4 at the latest, and no refusal of an
 * image so long names its length. */
enum { ROOM = BIAS_MOST_IMAGE_LENGTH + 1 };

static uint8_t image[ROOM];
static uint8_t marks[BIAS_MARKS_LENGTH];
static uint8_t state[BIAS_STATE_LENGTH];

static void usage(FILE *to)
{
    fprintf(to, "usage: bias-verdict [--explain] [FILE]\n"
                "Judges the BIAS image in FILE, or on standard input, and prints one line: refusal, place, task, depth.\n"
                "--explain tells on standard error what the refusal means. The exit status is 0 for an image that is\n"
                "accepted, 1 for one that is refused, 2 for an error of reading or writing or a wrong usage.\n");
}

/* Reads the image; gives 0 after a message when that fails. */
static int read_image(const char *name, size_t *length)
{
    FILE *file = name == NULL ? stdin : fopen(name, "rb");
    if (name == NULL)
        name = "standard input";
    if (file == NULL) {
        perror(name);
        return 0;
    }
    *length = fread(image, 1, sizeof image, file);
    const int good = !ferror(file);
    if (!good)
        perror(name);
    if (file != stdin)
        fclose(file);
    return good;
}

/* Whether all of standard output was written; a message when not. */
static int written(void)
{
    if (fflush(stdout) == 0 && !ferror(stdout))
        return 1;
    perror("standard output");
    return 0;
}

int main(int argc, char **argv)
{
    const char *name = NULL;
    int explain = 0;
    if (argc == 2 && strcmp(argv[1], "--help") == 0) {
        usage(stdout);
        return written() ? EXIT_ACCEPTED : EXIT_TROUBLE;
    }
    for (int at = 1; at < argc; at++) {
        if (strcmp(argv[at], "--explain") == 0) {
            explain = 1;
        } else if (argv[at][0] == '-' || name != NULL) {
            usage(stderr);
            return EXIT_TROUBLE;
        } else {
            name = argv[at];
        }
    }
    size_t length;
    if (!read_image(name, &length))
        return EXIT_TROUBLE;
    bias_verdict verdict = bias_load(image, length, marks, sizeof marks, state, sizeof state);
    printf("refusal %lu place %llu task %lu depth %lu\n", (unsigned long)verdict.number, (unsigned long long)verdict.place,
           (unsigned long)verdict.task, (unsigned long)verdict.depth);
    if (!written())
        return EXIT_TROUBLE;
    if (explain) {
        char text[LISTING_ROOM];
        listing_verdict(image, &verdict, text, sizeof text);
        fprintf(stderr, "%s\n", text);
    }
    return verdict.number == BIAS_SUCCESS ? EXIT_ACCEPTED : EXIT_REFUSED;
}
