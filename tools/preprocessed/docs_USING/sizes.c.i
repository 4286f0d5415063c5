# 0 "sizes.c"
# 0 "<built-in>"
# 0 "<command-line>"
# 1 "sizes.c"
# 1 "include/stddef.h" 1 3 4
# 9 "include/stddef.h" 3 4

# 9 "include/stddef.h" 3 4
typedef unsigned long size_t;
typedef long ptrdiff_t;
# 2 "sizes.c" 2
# 1 "include/stdint.h" 1 3 4




typedef signed char int8_t;
typedef short int16_t;
typedef int int32_t;
typedef unsigned char uint8_t;
typedef unsigned short uint16_t;
typedef unsigned int uint32_t;





typedef long int64_t;
typedef unsigned long uint64_t;
# 3 "sizes.c" 2


# 4 "sizes.c"
int sizes(void) { return 100 * sizeof(size_t) + 10 * sizeof(ptrdiff_t) + sizeof(int64_t); }
