# 0 "bounds.c"
# 0 "<built-in>"
# 0 "<command-line>"
# 1 "bounds.c"
int last(int n)
{
    int squares[3];
    int i;
    for (i = 0; i <= n; i++)
        squares[i] = i * i;
    return squares[n];
}
