# 0 "examples/list.c"
# 0 "<built-in>"
# 0 "<command-line>"
# 1 "examples/list.c"

# 1 "include/stdlib.h" 1 3 4




# 1 "include/stddef.h" 1 3 4
# 9 "include/stddef.h" 3 4

# 9 "include/stddef.h" 3 4
typedef unsigned long size_t;
typedef long ptrdiff_t;
# 6 "include/stdlib.h" 2 3 4

void *malloc(size_t size);
void *calloc(size_t count, size_t size);
void free(void *block);
# 3 "examples/list.c" 2


# 4 "examples/list.c"
struct node {
    int value;
    struct node *next;
};


int insert(struct node **list, int value)
{
    struct node *node = malloc(sizeof(struct node));
    if (node == 
# 13 "examples/list.c" 3 4
               ((void *)0)
# 13 "examples/list.c"
                   )
        return 0;
    while (*list != 
# 15 "examples/list.c" 3 4
                   ((void *)0) 
# 15 "examples/list.c"
                        && (*list)->value < value)
        list = &(*list)->next;
    node->value = value;
    node->next = *list;
    *list = node;
    return 1;
}

void free_list(struct node *list)
{
    while (list) {
        struct node *next = list->next;
        free(list);
        list = next;
    }
}

int sum(const struct node *list)
{
    int total = 0;
    for (; list; list = list->next)
        total += list->value;
    return total;
}

int length(const struct node *list)
{
    int count = 0;
    for (; list; list = list->next)
        count++;
    return count;
}

int mean(const struct node *list)
{
    return sum(list) / length(list);
}


int mean_of_three(int a, int b, int c)
{
    struct node *list = 
# 56 "examples/list.c" 3 4
                       ((void *)0)
# 56 "examples/list.c"
                           ;
    int result;
    insert(&list, a);
    insert(&list, b);
    insert(&list, c);
    result = mean(list);
    free_list(list);
    return result;
}
