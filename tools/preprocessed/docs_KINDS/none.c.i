# 0 "none.c"
# 0 "<built-in>"
# 0 "<command-line>"
# 1 "none.c"
int none(void) {}

int used(void) { return none(); }

int ignored(void) { none(); return 0; }
