/* Matrices of 3 by 3. trace() has one turn too many. */
#include <stdlib.h>

#define N 3

struct matrix {
    int cells[N][N];
};

void identity(struct matrix *m)
{
    int i, j;
    for (i = 0; i < N; i++)
        for (j = 0; j < N; j++)
            m->cells[i][j] = i == j;
}

void multiply(const struct matrix *a, const struct matrix *b, struct matrix *product)
{
    int i, j, k;
    for (i = 0; i < N; i++)
        for (j = 0; j < N; j++) {
            int sum = 0;
            for (k = 0; k < N; k++)
                sum += a->cells[i][k] * b->cells[k][j];
            product->cells[i][j] = sum;
        }
}

/* <= where < is meant. */
int trace(const struct matrix *m)
{
    int i, sum = 0;
    for (i = 0; i <= N; i++)
        sum += m->cells[i][i];
    return sum;
}

/* The first cell of the square of twice the identity: 4. */
int first_of_square(void)
{
    struct matrix m, square;
    int i;
    identity(&m);
    for (i = 0; i < N; i++)
        m.cells[i][i] = 2;
    multiply(&m, &m, &square);
    return square.cells[0][0];
}

int trace_of_identity(void)
{
    struct matrix m;
    identity(&m);
    return trace(&m);
}

/* A copy on the heap, or null. */
struct matrix *copy(const struct matrix *m)
{
    struct matrix *new = malloc(sizeof *new);
    if (new)
        *new = *m;
    return new;
}
