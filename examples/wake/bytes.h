/* Handles: numbers that stand for bytes the host holds. The four hosts of this process share one table, so that a handle stands for the same bytes on
 * all of them; hosts on different machines each have a table of their own. */
#ifndef BYTES_H
#define BYTES_H

#include <stdint.h>

enum { TEXT_SIZE = 96 };

void bytes_clear(void);
uint64_t handle_of(const char *text); /* equal bytes have one handle; 1 or more */
const char *text_of(uint64_t handle); /* "" for a number that is no handle */

#endif
