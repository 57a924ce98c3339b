/* What is lent, and the comparison of it after a call. */
#ifndef COMPARISON_LEND_H
#define COMPARISON_LEND_H

#include "comparison.h"

enum { HUGE_LOOKED = 1 << 17 }; /* bytes of a huge slice that are compared */

uint8_t guard_byte(size_t i);

#endif
