# 0 "examples/pool.c"
# 0 "<built-in>"
# 0 "<command-line>"
# 1 "examples/pool.c"

# 1 "include/stddef.h" 1 3 4
# 9 "include/stddef.h" 3 4

# 9 "include/stddef.h" 3 4
typedef unsigned long size_t;
typedef long ptrdiff_t;
# 3 "examples/pool.c" 2
# 1 "include/stdint.h" 1 3 4




typedef signed char int8_t;
typedef short int16_t;
typedef int int32_t;
typedef unsigned char uint8_t;
typedef unsigned short uint16_t;
typedef unsigned int uint32_t;





typedef long int64_t;
typedef unsigned long uint64_t;
# 4 "examples/pool.c" 2
# 1 "include/stdlib.h" 1 3 4






void *malloc(size_t size);
void *calloc(size_t count, size_t size);
void free(void *block);
# 5 "examples/pool.c" 2


# 6 "examples/pool.c"
struct cell {
    struct cell *next;
    int64_t value;
};

struct pool {
    struct cell *cells;
    struct cell *unused;
};


int open(struct pool *pool, size_t count)
{
    size_t i;
    pool->unused = 
# 20 "examples/pool.c" 3 4
                  ((void *)0)
# 20 "examples/pool.c"
                      ;
    pool->cells = calloc(count, sizeof(struct cell));
    if (!pool->cells)
        return 0;
    for (i = 0; i < count; i++) {
        pool->cells[i].next = pool->unused;
        pool->unused = &pool->cells[i];
    }
    return 1;
}


struct cell *take(struct pool *pool)
{
    struct cell *cell = pool->unused;
    if (cell)
        pool->unused = cell->next;
    return cell;
}

void release(struct pool *pool, struct cell *cell)
{
    cell->next = pool->unused;
    pool->unused = cell;
}


void close(struct pool *pool)
{
    free(pool->unused);
}

int use_pool(int64_t value)
{
    struct pool pool;
    struct cell *cell;
    if (!open(&pool, 2))
        return -1;
    cell = take(&pool);
    cell->value = value;
    release(&pool, cell);
    close(&pool);
    return 0;
}
