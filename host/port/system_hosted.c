/* system_hosted.c - x86-64, or any system with a C library. Nobody counts instructions here: callgrind does, from outside. */
#include <stdio.h>

#include "system.h"

void put_bytes(const char *bytes, size_t length)
{
    fwrite(bytes, 1, length, stdout);
}

uint32_t instructions(void)
{
    return 0;
}

uint32_t stack_of(void (*deed)(void))
{
    (void)deed;
    return 0;
}

int main(int words, char **word)
{
    const int status = run(words > 1 ? word[1] : "");
    return fflush(stdout) == 0 ? status : 2;
}
