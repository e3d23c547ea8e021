/* A ring buffer of readings, written by an interrupt and read by the main loop. */
#include <stdio.h>
#include <string.h>

#define RING_SIZE 64
#define RING_MASK (RING_SIZE - 1)
#define LOG(...) fprintf(stderr, "ring: " __VA_ARGS__)

struct ring {
    int data[RING_SIZE];
    volatile unsigned head; /* where the next one is written */
    volatile unsigned tail; /* where the next one is read */
    unsigned long lost;
};

static struct ring readings;

void ring_reset(struct ring *r) {
    memset(r, 0, sizeof *r);
}

int ring_put(struct ring *r, int value) {
    unsigned next = (r->head + 1u) & RING_MASK;
    if (next == r->tail) {
        r->lost++;
        LOG("full at %u, lost %lu\n", r->head, r->lost);
        return -1;
    }
    r->data[r->head] = value;
    r->head = next;
    return 0;
}

/* Copies `count` readings from place `start` on, with the turn from the last place to the first, and says how many were below 0. */
int ring_copy(const int from[RING_SIZE], int start, int count, int *to) {
    if (start < 0 || start >= RING_SIZE || count < 0 || count > RING_SIZE) return -1;
    int at = start;
    for (int i = 0; i < count; i++) {
        to[i] = from[at++];
        if (at == RING_SIZE) at = 0;
    }
    int below = 0;
    for (int i = 0; i < count; i++) {
        if (to[i] < 0) below++;
    }
    return below;
}

int main(void) {
    int copied[RING_SIZE];
    ring_put(&readings, 7);
    printf("%d\n", ring_copy(readings.data, 0, 1, copied));
    return 0;
}
