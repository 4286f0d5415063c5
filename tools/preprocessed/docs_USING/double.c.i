# 0 "double.c"
# 0 "<built-in>"
# 0 "<command-line>"
# 1 "double.c"
double d;
