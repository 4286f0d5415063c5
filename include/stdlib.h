/* The part of <stdlib.h> (C11 7.22) that csa's headers have: the functions that csa knows. */
#ifndef CSA_STDLIB_H
#define CSA_STDLIB_H

#include <stddef.h>

void *malloc(size_t size);
void *calloc(size_t count, size_t size);
void free(void *block);

#endif
