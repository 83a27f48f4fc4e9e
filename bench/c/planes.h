#include <stddef.h>

// Words a plane of a row of c columns.
static inline size_t planes(size_t c)
{
    return (c + 63) / 64;
}
