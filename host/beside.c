/* beside.c - a file that goes with a program, found by argv[0]. */
#include "beside.h"

#include <stdio.h>
#include <stdlib.h>
#include <string.h>

/* Where to look, seen from the program's folder. */
static const char *const places[] = {"", "../../host/"};

/* Writes the path of a file in a folder (its first `length` bytes; none for the current one); gives 0 where it can't be
 * read. */
static int in_folder(const char *folder, size_t length, const char *place, const char *name, char *path, size_t room)
{
    const int written = length == 0 ? snprintf(path, room, "./%s%s", place, name)
                                    : snprintf(path, room, "%.*s/%s%s", (int)length, folder, place, name);
    FILE *file = written > 0 && (size_t)written < room ? fopen(path, "rb") : NULL;
    if (file != NULL)
        fclose(file);
    return file != NULL;
}

static int from_folder(const char *folder, size_t length, const char *name, char *path, size_t room)
{
    for (size_t at = 0; at < sizeof places / sizeof places[0]; at++)
        if (in_folder(folder, length, places[at], name, path, room))
            return 1;
    return 0;
}

int beside(const char *program, const char *name, char *path, size_t room)
{
    const char *slash = strrchr(program, '/');
    const char *folder = getenv("PATH");
    if (slash != NULL)
        return from_folder(program, (size_t)(slash - program), name, path, room);
    while (folder != NULL) {
        const size_t length = strcspn(folder, ":");
        if (in_folder(folder, length, "", program, path, room))
            return from_folder(folder, length, name, path, room);
        folder = folder[length] == ':' ? folder + length + 1 : NULL;
    }
    return 0;
}
