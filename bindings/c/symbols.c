/* The functions that minorder.h has inline, as symbols of the library. */
#define MINORDER_INLINE
#include "minorder.h"
