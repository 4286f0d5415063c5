# 0 "sizes.c"
# 0 "<built-in>"
# 0 "<command-line>"
# 1 "sizes.c"
int third(int p[3]) { return p[2]; }

int fourth(int p[3]) { return p[3]; }

int fourth_of_many(int *p) { return p[3]; }
