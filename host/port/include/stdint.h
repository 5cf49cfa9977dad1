/* stdint.h - as much of it as bias.h and the port's programs need: the kit's clang comes without headers. */
#ifndef PORT_STDINT_H
#define PORT_STDINT_H

typedef __UINT8_TYPE__ uint8_t;
typedef __UINT16_TYPE__ uint16_t;
typedef __UINT32_TYPE__ uint32_t;
typedef __UINT64_TYPE__ uint64_t;
typedef __INT32_TYPE__ int32_t;
typedef __UINTPTR_TYPE__ uintptr_t;

#endif
