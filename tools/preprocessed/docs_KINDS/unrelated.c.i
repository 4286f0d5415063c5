# 0 "unrelated.c"
# 0 "<built-in>"
# 0 "<command-line>"
# 1 "unrelated.c"
# 1 "include/stddef.h" 1 3 4
# 9 "include/stddef.h" 3 4

# 9 "include/stddef.h" 3 4
typedef unsigned long size_t;
typedef long ptrdiff_t;
# 2 "unrelated.c" 2


# 3 "unrelated.c"
ptrdiff_t distance(char *from, char *to)
{
    return to - from;
}

ptrdiff_t length(char *text)
{
    char *end = text;
    while (*end)
        end++;
    return distance(text, end);
}
