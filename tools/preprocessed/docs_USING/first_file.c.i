# 0 "first file.c"
# 0 "<built-in>"
# 0 "<command-line>"
# 1 "first file.c"
int f(int x, int y)
{
    if (x == 3)
        return 10 / y;
    return y / x;
}
