/* Size classes of an allocator. */
#include <limits.h>
#include <stddef.h>
#include <stdint.h>

#define CLASSES 32
#define GRAIN 16
#define PAGE 0x1000
#define ALIGN_UP(n, a) (((n) + ((a) - 1)) & ~((a) - 1))
#define NO_CLASS (-1)

typedef struct chunk {
    struct chunk *next;
    uint32_t size : 24;
    uint32_t state : 8;
} chunk;

static chunk *bins[CLASSES];

static inline size_t pages_of(size_t bytes) {
    return ALIGN_UP(bytes, (size_t)PAGE) / PAGE;
}

/* A request in whole grains. */
int rounded(int bytes) {
    if (bytes < 0 || bytes > INT_MAX - GRAIN) return NO_CLASS;
    int grains = (bytes + (GRAIN - 1)) / GRAIN;
    return grains * GRAIN;
}

/* The first class whose chunks are large enough. */
int class_of(int bytes, const int sizes[CLASSES]) {
    if (bytes > sizes[CLASSES - 1]) return NO_CLASS;
    int low = 0;
    int high = CLASSES - 1;
    while (low < high) {
        int middle = low + (high - low) / 2;
        if (sizes[middle] < bytes) low = middle + 1; else high = middle;
    }
    return low;
}

chunk *take(int class) {
    chunk *c = bins[class];
    if (c != NULL) bins[class] = c->next;
    return c;
}
