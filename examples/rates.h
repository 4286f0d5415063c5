/* A function in a header: its report has the header's file name. */
static inline int per_hour(int count, int hours)
{
    if (count == 0)
        return 0;
    return count / hours;
}
