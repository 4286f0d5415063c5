# 0 "badfree.c"
# 0 "<built-in>"
# 0 "<command-line>"
# 1 "badfree.c"
# 1 "include/stdlib.h" 1 3 4




# 1 "include/stddef.h" 1 3 4
# 9 "include/stddef.h" 3 4

# 9 "include/stddef.h" 3 4
typedef unsigned long size_t;
typedef long ptrdiff_t;
# 6 "include/stdlib.h" 2 3 4

void *malloc(size_t size);
void *calloc(size_t count, size_t size);
void free(void *block);
# 2 "badfree.c" 2


# 3 "badfree.c"
void use(int choice)
{
    int local = 0;
    int *p = malloc(2 * sizeof(int));
    if (choice)
        p = &local;
    else if (p)
        p++;
    free(p);
}
