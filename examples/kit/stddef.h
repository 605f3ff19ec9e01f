/* What the examples take from <stddef.h>: the kit's compiler comes without headers. */
#ifndef STDDEF_H
#define STDDEF_H

#define offsetof(type, member) __builtin_offsetof(type, member)

#endif
