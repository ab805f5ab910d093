/* What the second bridge needs of the C library's header of this name, for a compiler without one.
 */
#ifndef STDDEF_H
#define STDDEF_H

typedef __SIZE_TYPE__ size_t;

#define NULL ((void *)0)

#endif
