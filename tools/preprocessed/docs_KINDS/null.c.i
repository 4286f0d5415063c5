# 0 "null.c"
# 0 "<built-in>"
# 0 "<command-line>"
# 1 "null.c"
struct node { int value; struct node *next; };

int second(struct node *list)
{
    return list->next->value;
}
