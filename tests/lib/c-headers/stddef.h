/* Of the C library's header, what host/ and include/ use: the kit's compiler comes without headers. */
#ifndef KIT_STDDEF_H
#define KIT_STDDEF_H

typedef __SIZE_TYPE__ size_t;

#define offsetof(type, member) __builtin_offsetof(type, member)

#endif
