// Tries web/heap.c on this machine: blocks of many sizes are taken, resized and given back in a random order, and none may touch another one or
// the pages that the page takes in between. bench/page.sh runs it where there is a C compiler:
//     cc -O1 -o /tmp/heap_test bench/heap_test.c && /tmp/heap_test
#include <stdio.h>
#include <stdlib.h>
#include <string.h>
#include <sys/mman.h>

// The memory of the module is at its own addresses here, from this page on.
static unsigned long pages_now = 4096;

static unsigned long grown(unsigned long more) {
    unsigned long before = pages_now;
    pages_now += more;
    return before;
}

#define __builtin_wasm_memory_size(memory) pages_now
#define __builtin_wasm_memory_grow(memory, more) grown(more)
#pragma GCC diagnostic ignored "-Wattributes"
#include "../web/heap.c"

static unsigned looked;
void look(void) { looked++; }

enum { BLOCKS = 3000, STEPS = 400000, OURS = 40 };

struct held {
    unsigned char *place;
    size bytes;
    unsigned char mark;
};

static void fail(const char *what) {
    printf("heap_test: %s\n", what);
    exit(1);
}

static void fill(struct held *held, unsigned char mark) {
    held->mark = mark;
    memset(held->place, mark, held->bytes);
}

static void see(const struct held *held, size bytes) {
    for (size i = 0; i < bytes; i++)
        if (held->place[i] != held->mark) fail("a block was touched");
}

static size some_bytes(void) {
    switch (rand() % 8) {
    case 0: return 1 + rand() % 200000;
    case 1: return 1 + rand() % 20000;
    case 2: return 0;
    default: return 1 + rand() % 300;
    }
}

static void take_block(struct held *held) {
    held->bytes = some_bytes();
    struct tried made = rattle_alloc(held->bytes, 16);
    if (!made.ok) fail("no memory");
    held->place = made.place;
    if ((size)held->place % 16) fail("a block isn't aligned");
    fill(held, rand());
}

int main(void) {
    static struct held blocks[BLOCKS], ours[OURS];
    unsigned long first = pages_now, room = most_pages - first;
    if (mmap((void *)(first * PAGE), room * PAGE, PROT_READ | PROT_WRITE, MAP_PRIVATE | MAP_ANONYMOUS | MAP_FIXED_NOREPLACE | MAP_NORESERVE, -1, 0)
        == MAP_FAILED)
        fail("the addresses are taken");
    srand(1);
    for (int step = 0, taken = 0; step < STEPS; step++) {
        struct held *held = &blocks[rand() % BLOCKS];
        if (step % (STEPS / OURS) == 0) {
            struct held *mine = &ours[taken++];
            mine->bytes = PAGE * (1 + rand() % 3);
            mine->place = (unsigned char *)(grown(mine->bytes / PAGE) * PAGE);
            fill(mine, rand());
        } else if (!held->place) {
            take_block(held);
        } else if (rand() % 3) {
            see(held, held->bytes);
            rattle_dealloc(held->place);
            held->place = 0;
        } else {
            size bytes = some_bytes(), kept = bytes < held->bytes ? bytes : held->bytes;
            struct tried made = rattle_realloc(held->place, kept, bytes, 8);
            if (!made.ok) fail("no memory");
            held->place = made.place;
            see(held, kept);
            held->bytes = bytes;
            fill(held, rand());
        }
    }
    for (int i = 0; i < OURS; i++) see(&ours[i], ours[i].bytes);
    for (int i = 0; i < BLOCKS; i++)
        if (blocks[i].place) see(&blocks[i], blocks[i].bytes);
    if (!looked) fail("nobody looked");
    // At the end of the memory there is an answer, and what was there stays.
    struct tried made;
    do made = rattle_alloc(64 << 20, 16);
    while (made.ok);
    if (rattle_alloc((size)1 << 62, 16).ok) fail("more than there is");
    for (int i = 0; i < BLOCKS; i++)
        if (blocks[i].place) see(&blocks[i], blocks[i].bytes);
    printf("heap_test: well, with %lu pages\n", pages_now - first);
    return 0;
}
