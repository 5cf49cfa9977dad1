/* stddef.h - as much of it as bias.h and the port's programs need: the kit's clang comes without headers. */
#ifndef PORT_STDDEF_H
#define PORT_STDDEF_H

typedef __SIZE_TYPE__ size_t;
#define NULL ((void *)0)

#endif
