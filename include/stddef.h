/* The part of <stddef.h> (C11 7.19) that csa's headers have. */
#ifndef CSA_STDDEF_H
#define CSA_STDDEF_H

#ifdef __CSA_ILP32__
typedef unsigned int size_t;
typedef int ptrdiff_t;
#else
typedef unsigned long size_t;
typedef long ptrdiff_t;
#endif

#define NULL ((void *)0)

#endif
