/* Traffic lights as a state machine. duration() has no case for BLINKING. */
#include <stdint.h>

enum state { RED, RED_YELLOW, GREEN, YELLOW, BLINKING };

struct lights {
    enum state state;
    uint32_t seconds;
};

/* The state after this one. */
enum state next(enum state state)
{
    switch (state) {
    case RED:
        return RED_YELLOW;
    case RED_YELLOW:
        return GREEN;
    case GREEN:
        return YELLOW;
    case YELLOW:
        return RED;
    default:
        return BLINKING;
    }
}

/* How many seconds a state lasts. */
uint32_t duration(enum state state)
{
    uint32_t seconds;
    switch (state) {
    case RED:
    case GREEN:
        seconds = 30;
        break;
    case RED_YELLOW:
    case YELLOW:
        seconds = 3;
        break;
    }
    return seconds;
}

void step(struct lights *lights)
{
    lights->state = next(lights->state);
    lights->seconds = duration(lights->state);
}

/* The seconds from one red light to the next. */
uint32_t period(void)
{
    struct lights lights = {RED, 0};
    uint32_t total = 0;
    do {
        step(&lights);
        total += lights.seconds;
    } while (lights.state != RED);
    return total;
}
