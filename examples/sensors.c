/* The readings of sensors, which functions of another file provide. */
#include <stdint.h>

#define SENSORS 3

struct reading {
    int32_t value;
    int32_t weight;
};

/* Both are defined in another file. */
int32_t sensor_count(void);
int read_sensor(int number, struct reading *reading);

int32_t limit = 100;
static const int32_t scale[SENSORS] = {1, 10, 100};

/* The weighted mean of the readings. The weights come from the sensors. */
int32_t weighted_mean(void)
{
    int32_t sum = 0, weights = 0;
    int i, count = sensor_count();
    for (i = 0; i < count; i++) {
        struct reading reading;
        if (!read_sensor(i, &reading))
            continue;
        sum += reading.value * scale[i];
        weights += reading.weight;
    }
    return sum / weights;
}

/* How many times the value fits into the limit. */
int32_t share(int32_t value)
{
    if (value > limit)
        return 0;
    return limit / value;
}
