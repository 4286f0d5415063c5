# 0 "inputs.c"
# 0 "<built-in>"
# 0 "<command-line>"
# 1 "inputs.c"
# 1 "include/stdlib.h" 1 3 4




# 1 "include/stddef.h" 1 3 4
# 9 "include/stddef.h" 3 4

# 9 "include/stddef.h" 3 4
typedef unsigned long size_t;
typedef long ptrdiff_t;
# 6 "include/stdlib.h" 2 3 4

void *malloc(size_t size);
void *calloc(size_t count, size_t size);
void free(void *block);
# 2 "inputs.c" 2


# 3 "inputs.c"
struct pair { int first; int *second; };

struct pair table[2];
int limit = 5;
const int fixed = 7;

int ask(void);
int fill(int *into, struct pair *pair);
struct pair *find(int key);

int number(int x) { return x; }
int pointer(int *p) { return p == 
# 14 "inputs.c" 3 4
                                 ((void *)0) 
# 14 "inputs.c"
                                      ? -1 : *p; }
int element(int *p) { return p[2]; }
int nested(struct pair *p) { return *p->second; }
int global(void) { return limit + fixed + table[1].first; }
int results(void) { return ask() - ask(); }
int found(void) { return find(1)->first; }
int allocated(void)
{
    int *p = malloc(sizeof(int));
    int *q = calloc(1, sizeof(int));
    return !p ? -1 : !q ? -2 : *q;
}

int written(void)
{
    int x;
    struct pair pair;
    fill(&x, &pair);
    return x + pair.first + *pair.second;
}
