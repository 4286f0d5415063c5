# 0 "examples/matrix.c"
# 0 "<built-in>"
# 0 "<command-line>"
# 1 "examples/matrix.c"

# 1 "include/stdlib.h" 1 3 4




# 1 "include/stddef.h" 1 3 4
# 9 "include/stddef.h" 3 4

# 9 "include/stddef.h" 3 4
typedef unsigned long size_t;
typedef long ptrdiff_t;
# 6 "include/stdlib.h" 2 3 4

void *malloc(size_t size);
void *calloc(size_t count, size_t size);
void free(void *block);
# 3 "examples/matrix.c" 2




# 6 "examples/matrix.c"
struct matrix {
    int cells[3][3];
};

void identity(struct matrix *m)
{
    int i, j;
    for (i = 0; i < 3; i++)
        for (j = 0; j < 3; j++)
            m->cells[i][j] = i == j;
}

void multiply(const struct matrix *a, const struct matrix *b, struct matrix *product)
{
    int i, j, k;
    for (i = 0; i < 3; i++)
        for (j = 0; j < 3; j++) {
            int sum = 0;
            for (k = 0; k < 3; k++)
                sum += a->cells[i][k] * b->cells[k][j];
            product->cells[i][j] = sum;
        }
}


int trace(const struct matrix *m)
{
    int i, sum = 0;
    for (i = 0; i <= 3; i++)
        sum += m->cells[i][i];
    return sum;
}


int first_of_square(void)
{
    struct matrix m, square;
    int i;
    identity(&m);
    for (i = 0; i < 3; i++)
        m.cells[i][i] = 2;
    multiply(&m, &m, &square);
    return square.cells[0][0];
}

int trace_of_identity(void)
{
    struct matrix m;
    identity(&m);
    return trace(&m);
}


struct matrix *copy(const struct matrix *m)
{
    struct matrix *new = malloc(sizeof *new);
    if (new)
        *new = *m;
    return new;
}
