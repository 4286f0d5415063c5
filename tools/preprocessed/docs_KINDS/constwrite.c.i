# 0 "constwrite.c"
# 0 "<built-in>"
# 0 "<command-line>"
# 1 "constwrite.c"
const int limits[2] = {10, 20};

void set(const int *where, int value)
{
    char *text = "ab";
    if (value)
        text[0] = 'x';
}

void raise_limit(void)
{
    int *first = &limits[0];
    *first = 11;
}
