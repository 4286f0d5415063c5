# 0 "log2.c"
# 0 "<built-in>"
# 0 "<command-line>"
# 1 "log2.c"
# 1 "./stdio.h" 1
# 2 "log2.c" 2
# 1 "include/stdlib.h" 1 3 4




# 1 "include/stddef.h" 1 3 4
# 9 "include/stddef.h" 3 4

# 9 "include/stddef.h" 3 4
typedef unsigned long size_t;
typedef long ptrdiff_t;
# 6 "include/stdlib.h" 2 3 4

void *malloc(size_t size);
void *calloc(size_t count, size_t size);
void free(void *block);
# 3 "log2.c" 2
# 1 "./assert.h" 1

# 1 "./assert.h"
static void stop(void) { for (;;) ; }
# 4 "log2.c" 2

struct log {
    unsigned count;
    long *values;
};

long mean(const struct log *log)
{
    long sum = 0;
    unsigned i;
    ((log != 
# 14 "log2.c" 3 4
   ((void *)0)
# 14 "log2.c"
   ) ? (void)0 : stop());
    for (i = 0; i < log->count; i++)
        sum += log->values[i];
    ((void)0);
    return sum / log->count;
}

struct log *make(unsigned count)
{
    struct log *log = malloc(sizeof *log);
    if (!log)
        stop();
    log->count = count;
    log->values = calloc(count, sizeof *log->values);
    return log;
}

long mean_of_new(unsigned count)
{
    return mean(make(count));
}
