/* What the second bridge needs of the C library's header of this name, for a compiler without one.
 */
#ifndef STDBOOL_H
#define STDBOOL_H

#define bool _Bool
#define false 0
#define true 1

#endif
