# 0 "cut.c"
# 0 "<built-in>"
# 0 "<command-line>"
# 1 "cut.c"
int checksum(const char *text);


int checksum(const char *text)
{
    union { int all; char bytes[4]; } sum = {0};
    sum.bytes[0] = *text;
    return sum.all;
}


int check(const char *text, int divisor)
{
    return checksum(text) / divisor;
}
