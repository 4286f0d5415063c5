# 0 "unset.c"
# 0 "<built-in>"
# 0 "<command-line>"
# 1 "unset.c"
int sign(int x)
{
    int result;
    if (x > 0)
        result = 1;
    if (x < 0)
        result = -1;
    return result;
}
