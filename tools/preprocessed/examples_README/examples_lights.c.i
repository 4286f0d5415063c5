# 0 "examples/lights.c"
# 0 "<built-in>"
# 0 "<command-line>"
# 1 "examples/lights.c"

# 1 "include/stdint.h" 1 3 4





# 5 "include/stdint.h" 3 4
typedef signed char int8_t;
typedef short int16_t;
typedef int int32_t;
typedef unsigned char uint8_t;
typedef unsigned short uint16_t;
typedef unsigned int uint32_t;





typedef long int64_t;
typedef unsigned long uint64_t;
# 3 "examples/lights.c" 2


# 4 "examples/lights.c"
enum state { RED, RED_YELLOW, GREEN, YELLOW, BLINKING };

struct lights {
    enum state state;
    uint32_t seconds;
};


enum state next(enum state state)
{
    switch (state) {
    case RED:
        return RED_YELLOW;
    case RED_YELLOW:
        return GREEN;
    case GREEN:
        return YELLOW;
    case YELLOW:
        return RED;
    default:
        return BLINKING;
    }
}


uint32_t duration(enum state state)
{
    uint32_t seconds;
    switch (state) {
    case RED:
    case GREEN:
        seconds = 30;
        break;
    case RED_YELLOW:
    case YELLOW:
        seconds = 3;
        break;
    }
    return seconds;
}

void step(struct lights *lights)
{
    lights->state = next(lights->state);
    lights->seconds = duration(lights->state);
}


uint32_t period(void)
{
    struct lights lights = {RED, 0};
    uint32_t total = 0;
    do {
        step(&lights);
        total += lights.seconds;
    } while (lights.state != RED);
    return total;
}
