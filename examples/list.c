/* A sorted list of ints. mean() divides by zero if the list is empty. */
#include <stdlib.h>

struct node {
    int value;
    struct node *next;
};

/* Inserts a value before the first one that isn't smaller. Returns 0 if malloc fails. */
int insert(struct node **list, int value)
{
    struct node *node = malloc(sizeof(struct node));
    if (node == NULL)
        return 0;
    while (*list != NULL && (*list)->value < value)
        list = &(*list)->next;
    node->value = value;
    node->next = *list;
    *list = node;
    return 1;
}

void free_list(struct node *list)
{
    while (list) {
        struct node *next = list->next;
        free(list);
        list = next;
    }
}

int sum(const struct node *list)
{
    int total = 0;
    for (; list; list = list->next)
        total += list->value;
    return total;
}

int length(const struct node *list)
{
    int count = 0;
    for (; list; list = list->next)
        count++;
    return count;
}

int mean(const struct node *list)
{
    return sum(list) / length(list);
}

/* Ignores that insert() can fail. */
int mean_of_three(int a, int b, int c)
{
    struct node *list = NULL;
    int result;
    insert(&list, a);
    insert(&list, b);
    insert(&list, c);
    result = mean(list);
    free_list(list);
    return result;
}
