# 0 "examples/sensors.c"
# 0 "<built-in>"
# 0 "<command-line>"
# 1 "examples/sensors.c"

# 1 "include/stdint.h" 1 3 4





# 5 "include/stdint.h" 3 4
typedef signed char int8_t;
typedef short int16_t;
typedef int int32_t;
typedef unsigned char uint8_t;
typedef unsigned short uint16_t;
typedef unsigned int uint32_t;





typedef long int64_t;
typedef unsigned long uint64_t;
# 3 "examples/sensors.c" 2




# 6 "examples/sensors.c"
struct reading {
    int32_t value;
    int32_t weight;
};


int32_t sensor_count(void);
int read_sensor(int number, struct reading *reading);

int32_t limit = 100;
static const int32_t scale[3] = {1, 10, 100};


int32_t weighted_mean(void)
{
    int32_t sum = 0, weights = 0;
    int i, count = sensor_count();
    for (i = 0; i < count; i++) {
        struct reading reading;
        if (!read_sensor(i, &reading))
            continue;
        sum += reading.value * scale[i];
        weights += reading.weight;
    }
    return sum / weights;
}


int32_t share(int32_t value)
{
    if (value > limit)
        return 0;
    return limit / value;
}
