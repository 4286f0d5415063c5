/* Integer functions, of whose faults csa analyze is proved to miss none. */
#include <stddef.h>
#include "rates.h"

int per_minute(int count, int minutes)
{
    if (minutes == 0)
        return 0;
    return count / minutes;
}

int per_second(int count, int seconds)
{
    if (count == 0)
        return 0;
    if (seconds == 1)
        return count;
    return count / seconds;
}
