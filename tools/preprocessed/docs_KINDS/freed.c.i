# 0 "freed.c"
# 0 "<built-in>"
# 0 "<command-line>"
# 1 "freed.c"
# 1 "include/stdlib.h" 1 3 4




# 1 "include/stddef.h" 1 3 4
# 9 "include/stddef.h" 3 4

# 9 "include/stddef.h" 3 4
typedef unsigned long size_t;
typedef long ptrdiff_t;
# 6 "include/stdlib.h" 2 3 4

void *malloc(size_t size);
void *calloc(size_t count, size_t size);
void free(void *block);
# 2 "freed.c" 2


# 3 "freed.c"
struct node { int value; struct node *next; };

int sum_and_free(struct node *list)
{
    int sum = 0;
    for (; list; list = list->next) {
        sum += list->value;
        free(list);
    }
    return sum;
}
