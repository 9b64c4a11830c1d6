/* Of the C library's header, what README's programs use: the kit's compiler comes without headers. */
#ifndef KIT_MATH_H
#define KIT_MATH_H

#define NAN __builtin_nanf("")

#endif
