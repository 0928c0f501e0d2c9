/* What lokhazim.h needs of <stddef.h>, for the kit's compiler, which has no headers. */
#ifndef PORT_STDDEF_H
#define PORT_STDDEF_H
typedef __SIZE_TYPE__ size_t;
#define NULL ((void *)0)
#define offsetof(type, field) __builtin_offsetof(type, field)
#endif
