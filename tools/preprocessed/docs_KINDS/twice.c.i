# 0 "twice.c"
# 0 "<built-in>"
# 0 "<command-line>"
# 1 "twice.c"
# 1 "include/stdlib.h" 1 3 4




# 1 "include/stddef.h" 1 3 4
# 9 "include/stddef.h" 3 4

# 9 "include/stddef.h" 3 4
typedef unsigned long size_t;
typedef long ptrdiff_t;
# 6 "include/stdlib.h" 2 3 4

void *malloc(size_t size);
void *calloc(size_t count, size_t size);
void free(void *block);
# 2 "twice.c" 2


# 3 "twice.c"
void clear(int *one, int *other)
{
    free(one);
    free(other);
}

int run(void)
{
    int *block = malloc(sizeof(int));
    clear(block, block);
    return 0;
}
