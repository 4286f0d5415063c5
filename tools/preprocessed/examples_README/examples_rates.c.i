# 0 "examples/rates.c"
# 0 "<built-in>"
# 0 "<command-line>"
# 1 "examples/rates.c"

# 1 "include/stddef.h" 1 3 4
# 9 "include/stddef.h" 3 4

# 9 "include/stddef.h" 3 4
typedef unsigned long size_t;
typedef long ptrdiff_t;
# 3 "examples/rates.c" 2
# 1 "examples/rates.h" 1


# 2 "examples/rates.h"
static inline int per_hour(int count, int hours)
{
    if (count == 0)
        return 0;
    return count / hours;
}
# 4 "examples/rates.c" 2

int per_minute(int count, int minutes)
{
    if (minutes == 0)
        return 0;
    return count / minutes;
}

int per_second(int count, int seconds)
{
    if (count == 0)
        return 0;
    if (seconds == 1)
        return count;
    return count / seconds;
}
