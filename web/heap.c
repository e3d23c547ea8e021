// The heap of the page's module: what the kit's Rattle calls in place of malloc, realloc and free. Nothing proves it.
//
// A block has 16 bytes before it, which keep its class. The classes of size are the multiples of 16 up to 1,024, and above these four for
// each power of two. A block that is given back waits in the list of its class; new ones are cut from what the memory has grown by here, and
// so never from what the page has taken of it.

typedef unsigned long size;

struct tried {
    size ok;
    void *place;
};

struct block {
    size class;
    struct block *next;
};

enum { PAGE = 65536, HEAD = 16, SMALL = 64, CLASSES = SMALL + 4 * 54 };

// The module's memory is never larger than this: 3 GiB.
static const size most_pages = 49152;

// How many calls lie between two looks of the page at the work.
static const unsigned look_after = 8192;

// The page looks at how far the work is.
__attribute__((import_module("page"), import_name("look"))) void look(void);

static struct block *waiting[CLASSES];
static size next, end;
static unsigned calls;

static size class_of(size bytes) {
    if (bytes <= 1024) return bytes ? (bytes - 1) / 16 : 0;
    size power = 63 - (size)__builtin_clzl(bytes - 1);
    return SMALL + 4 * (power - 10) + (((bytes - 1) >> (power - 2)) & 3);
}

static size bytes_of(size class) {
    if (class < SMALL) return 16 * (class + 1);
    size power = 10 + (class - SMALL) / 4;
    return (5 + (class - SMALL) % 4) << (power - 2);
}

// Makes room for so many bytes at the end of the memory. Where the page has taken memory in between, what was left before that stays unused.
static int grow(size bytes) {
    size pages = bytes / PAGE + 1;
    if (pages < 16) pages = 16;
    size before = __builtin_wasm_memory_size(0);
    if (before + pages > most_pages) return 0;
    if (__builtin_wasm_memory_grow(0, pages) == (size)-1) return 0;
    if (before * PAGE != end) next = before * PAGE;
    end = (before + pages) * PAGE;
    return 1;
}

static struct block *cut(size class) {
    size bytes = HEAD + bytes_of(class);
    if (bytes > end - next && !grow(bytes)) return 0;
    struct block *block = (struct block *)next;
    next += bytes;
    block->class = class;
    return block;
}

struct tried rattle_alloc(size bytes, size alignment) {
    (void)alignment; // at most 16
    struct tried no = {0, 0};
    if (++calls % look_after == 0) look();
    if (bytes > (size)most_pages * PAGE) return no;
    size class = class_of(bytes);
    struct block *block = waiting[class];
    if (block) waiting[class] = block->next;
    else block = cut(class);
    if (!block) return no;
    struct tried made = {1, (char *)block + HEAD};
    return made;
}

void rattle_dealloc(void *place) {
    struct block *block = (struct block *)((char *)place - HEAD);
    block->next = waiting[block->class];
    waiting[block->class] = block;
}

struct tried rattle_realloc(void *place, size kept, size bytes, size alignment) {
    struct block *block = (struct block *)((char *)place - HEAD);
    if (bytes <= bytes_of(block->class)) {
        struct tried same = {1, place};
        return same;
    }
    struct tried made = rattle_alloc(bytes, alignment);
    if (made.ok) {
        __builtin_memcpy(made.place, place, kept);
        rattle_dealloc(place);
    }
    return made;
}
