# 0 "divide.c"
# 0 "<built-in>"
# 0 "<command-line>"
# 1 "divide.c"
int share(int sum, int count)
{
    if (sum == 0)
        return 0;
    return sum / count;
}
