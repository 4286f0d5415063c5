# 0 "abort.c"
# 0 "<built-in>"
# 0 "<command-line>"
# 1 "abort.c"
void abort(void);

int quotient(int x)
{
    if (x == 0)
        abort();
    return 10 / x;
}
