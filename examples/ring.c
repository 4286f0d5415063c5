/* A ring buffer of bytes. push() doesn't check whether the buffer is full. */
#include <stddef.h>
#include <stdint.h>

#define CAPACITY 4u

struct ring {
    uint8_t bytes[CAPACITY];
    size_t first;
    size_t count;
};

void clear(struct ring *ring)
{
    ring->first = 0;
    ring->count = 0;
}

/* The index wraps around, but the count can exceed CAPACITY. */
void push(struct ring *ring, uint8_t byte)
{
    ring->bytes[(ring->first + ring->count) % CAPACITY] = byte;
    ring->count++;
}

/* Removes the oldest byte and returns it, or returns -1 if there is none. */
int pop(struct ring *ring)
{
    uint8_t byte;
    if (ring->count == 0)
        return -1;
    byte = ring->bytes[ring->first];
    ring->first = (ring->first + 1) % CAPACITY;
    ring->count--;
    return byte;
}

/* Moves the bytes, oldest first, into a block of the caller's. */
size_t drain(struct ring *ring, uint8_t *into)
{
    size_t n = 0;
    while (ring->count > 0)
        into[n++] = (uint8_t)pop(ring);
    return n;
}

int push_and_drain(int n)
{
    struct ring ring;
    uint8_t block[CAPACITY];
    int i;
    clear(&ring);
    for (i = 0; i < n; i++)
        push(&ring, (uint8_t)(i + 1));
    drain(&ring, block);
    return block[0];
}
