/* system.h - what the port's test programs need of the machine that they run on, besides memcpy and memset. One of
 * system_hosted.c (x86-64, with its C library), start_linux.c (Linux, with none) and start_m4.c (a bare Cortex-M4) has it.
 */
#ifndef PORT_SYSTEM_H
#define PORT_SYSTEM_H

#include <stddef.h>
#include <stdint.h>

/* The program; `word` is the argument, "" if there is none. What it gives is the exit status. */
int run(const char *word);

/* Writes bytes to standard output. */
void put_bytes(const char *bytes, size_t length);

/* Instructions carried out, modulo 2^32 and to the next lower multiple of INSTRUCTIONS_UNIT; 0 where nobody counts. */
#define INSTRUCTIONS_UNIT 40u
uint32_t instructions(void);

/* Bytes of stack that a call of `deed` uses, its return address included; 0 where nobody looks. */
uint32_t stack_of(void (*deed)(void));

#endif
