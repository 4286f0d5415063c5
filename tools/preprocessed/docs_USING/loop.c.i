# 0 "loop.c"
# 0 "<built-in>"
# 0 "<command-line>"
# 1 "loop.c"
int sum(int n)
{
    int i, total = 0;
    for (i = 1; i <= n; i++)
        total += i;
    return total;
}

int factorial(int n)
{
    return n <= 1 ? 1 : n * factorial(n - 1);
}
