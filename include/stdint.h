/* The part of <stdint.h> (C11 7.20) that csa's headers have: the types of exact width. */
#ifndef CSA_STDINT_H
#define CSA_STDINT_H

typedef signed char int8_t;
typedef short int16_t;
typedef int int32_t;
typedef unsigned char uint8_t;
typedef unsigned short uint16_t;
typedef unsigned int uint32_t;

#ifdef __CSA_ILP32__
typedef long long int64_t;
typedef unsigned long long uint64_t;
#else
typedef long int64_t;
typedef unsigned long uint64_t;
#endif

#endif
