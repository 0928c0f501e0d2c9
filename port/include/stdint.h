/* What lokhazim.h needs of <stdint.h>, for the kit's compiler, which has no headers. */
#ifndef PORT_STDINT_H
#define PORT_STDINT_H
typedef __UINT8_TYPE__ uint8_t;
typedef __UINT16_TYPE__ uint16_t;
typedef __UINT32_TYPE__ uint32_t;
typedef __UINT64_TYPE__ uint64_t;
typedef __UINTPTR_TYPE__ uintptr_t;
#define UINT32_MAX __UINT32_MAX__
#endif
