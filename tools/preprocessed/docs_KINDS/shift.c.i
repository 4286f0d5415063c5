# 0 "shift.c"
# 0 "<built-in>"
# 0 "<command-line>"
# 1 "shift.c"
unsigned bit(int number)
{
    return 1u << number;
}
