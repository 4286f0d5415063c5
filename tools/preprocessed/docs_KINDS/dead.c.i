# 0 "dead.c"
# 0 "<built-in>"
# 0 "<command-line>"
# 1 "dead.c"
int *counter(void)
{
    int count = 0;
    return &count;
}

int read_counter(void)
{
    return *counter();
}
