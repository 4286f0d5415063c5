# 0 "cut.c"
# 0 "<built-in>"
# 0 "<command-line>"
# 1 "cut.c"
int checksum(const char *text);
# 12 "cut.c"
int check(const char *text, int divisor)
{
    return checksum(text) / divisor;
}
