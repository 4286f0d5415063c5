# 0 "mean.c"
# 0 "<built-in>"
# 0 "<command-line>"
# 1 "mean.c"
# 1 "include/stddef.h" 1 3 4
# 9 "include/stddef.h" 3 4

# 9 "include/stddef.h" 3 4
typedef unsigned long size_t;
typedef long ptrdiff_t;
# 2 "mean.c" 2


# 3 "mean.c"
struct node { int value; struct node *next; };

int mean(struct node *p)
{
    int sum = 0, count = 0;
    for (; p != 
# 8 "mean.c" 3 4
               ((void *)0)
# 8 "mean.c"
                   ; p = p->next) {
        sum += p->value;
        count++;
    }
    return sum / count;
}
