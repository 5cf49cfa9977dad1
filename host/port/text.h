/* text.h - text and numbers printed by the port's test programs, through put_bytes of system.h. */
#ifndef PORT_TEXT_H
#define PORT_TEXT_H

#include "system.h"

static void put_text(const char *text)
{
    size_t length = 0;
    while (text[length] != 0)
        length++;
    put_bytes(text, length);
}

static void put_number(uint32_t number)
{
    char digits[10];
    size_t first = sizeof digits;
    do {
        digits[--first] = (char)('0' + number % 10);
        number /= 10;
    } while (number != 0);
    put_bytes(digits + first, sizeof digits - first);
}

#endif
