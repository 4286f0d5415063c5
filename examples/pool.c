/* Cells of one block, with a free list. close() frees a cell instead of the block. */
#include <stddef.h>
#include <stdint.h>
#include <stdlib.h>

struct cell {
    struct cell *next;
    int64_t value;
};

struct pool {
    struct cell *cells;
    struct cell *unused;
};

/* Makes a pool of count cells. Returns 0 if calloc fails. */
int open(struct pool *pool, size_t count)
{
    size_t i;
    pool->unused = NULL;
    pool->cells = calloc(count, sizeof(struct cell));
    if (!pool->cells)
        return 0;
    for (i = 0; i < count; i++) {
        pool->cells[i].next = pool->unused;
        pool->unused = &pool->cells[i];
    }
    return 1;
}

/* Returns an unused cell, or null if all are used. */
struct cell *take(struct pool *pool)
{
    struct cell *cell = pool->unused;
    if (cell)
        pool->unused = cell->next;
    return cell;
}

void release(struct pool *pool, struct cell *cell)
{
    cell->next = pool->unused;
    pool->unused = cell;
}

/* Should free pool->cells. */
void close(struct pool *pool)
{
    free(pool->unused);
}

int use_pool(int64_t value)
{
    struct pool pool;
    struct cell *cell;
    if (!open(&pool, 2))
        return -1;
    cell = take(&pool);
    cell->value = value;
    release(&pool, cell);
    close(&pool);
    return 0;
}
