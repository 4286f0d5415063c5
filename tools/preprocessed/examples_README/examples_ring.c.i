# 0 "examples/ring.c"
# 0 "<built-in>"
# 0 "<command-line>"
# 1 "examples/ring.c"

# 1 "include/stddef.h" 1 3 4
# 9 "include/stddef.h" 3 4

# 9 "include/stddef.h" 3 4
typedef unsigned long size_t;
typedef long ptrdiff_t;
# 3 "examples/ring.c" 2
# 1 "include/stdint.h" 1 3 4




typedef signed char int8_t;
typedef short int16_t;
typedef int int32_t;
typedef unsigned char uint8_t;
typedef unsigned short uint16_t;
typedef unsigned int uint32_t;





typedef long int64_t;
typedef unsigned long uint64_t;
# 4 "examples/ring.c" 2




# 7 "examples/ring.c"
struct ring {
    uint8_t bytes[4u];
    size_t first;
    size_t count;
};

void clear(struct ring *ring)
{
    ring->first = 0;
    ring->count = 0;
}


void push(struct ring *ring, uint8_t byte)
{
    ring->bytes[(ring->first + ring->count) % 4u] = byte;
    ring->count++;
}


int pop(struct ring *ring)
{
    uint8_t byte;
    if (ring->count == 0)
        return -1;
    byte = ring->bytes[ring->first];
    ring->first = (ring->first + 1) % 4u;
    ring->count--;
    return byte;
}


size_t drain(struct ring *ring, uint8_t *into)
{
    size_t n = 0;
    while (ring->count > 0)
        into[n++] = (uint8_t)pop(ring);
    return n;
}

int push_and_drain(int n)
{
    struct ring ring;
    uint8_t block[4u];
    int i;
    clear(&ring);
    for (i = 0; i < n; i++)
        push(&ring, (uint8_t)(i + 1));
    drain(&ring, block);
    return block[0];
}
