// What a module of WebAssembly lacks without a C library: memory in blocks, the calls on bytes that the compiler makes, and
// arithmetic of 128 bits. Nothing is proved of it.
typedef unsigned long size_t;
typedef unsigned char byte;
_Static_assert(sizeof(size_t) == 8, "a memory of 64 bits");

// Blocks have powers of two as sizes, with a list of free ones for each. A block begins with 16 bytes that hold its power.
enum { HEAD = 16, LEAST = 5, PAGE = 16, MOST = 40 };
extern byte __heap_base;
static byte *top;
static void *free_blocks[MOST + 1];

static unsigned power_of(size_t bytes) {
    size_t whole = bytes + HEAD;
    return whole <= 1ul << LEAST ? LEAST : 64 - (unsigned)__builtin_clzl(whole - 1);
}

// Makes the memory reach this far, if the browser gives so much.
static int reach(size_t end) {
    size_t have = __builtin_wasm_memory_size(0) << PAGE;
    if (end <= have) return 1;
    size_t pages = ((end - have) >> PAGE) + 1;
    if (pages < 256) pages = 256;
    return __builtin_wasm_memory_grow(0, pages) != (size_t)-1;
}

void *gtd_malloc(size_t bytes) {
    if (bytes > 1ul << (MOST - 1)) return 0;
    unsigned power = power_of(bytes);
    byte *place = free_blocks[power];
    if (place) {
        free_blocks[power] = *(void **)place;
        return place;
    }
    if (!top) top = (byte *)(((size_t)&__heap_base + 15) & ~15ul);
    if (!reach((size_t)top + (1ul << power))) return 0;
    *(size_t *)top = power;
    place = top + HEAD;
    top += 1ul << power;
    return place;
}

void gtd_free(void *place) {
    if (!place) return;
    size_t power = *(size_t *)((byte *)place - HEAD);
    *(void **)place = free_blocks[power];
    free_blocks[power] = place;
}

// The three calls of Rattle's library `libc` for memory: whether there is any, and where.
struct tried {
    size_t given;
    void *place;
};
static byte nothing;

struct tried rattle_alloc(size_t bytes, size_t alignment) {
    void *place = gtd_malloc(bytes ? bytes : alignment);
    return place ? (struct tried){1, place} : (struct tried){0, &nothing};
}

void rattle_dealloc(void *place) { gtd_free(place); }

struct tried rattle_realloc(void *place, size_t kept, size_t bytes, size_t alignment) {
    size_t power = *(size_t *)((byte *)place - HEAD), wanted = bytes ? bytes : alignment;
    if (wanted + HEAD <= 1ul << power) return (struct tried){1, place};
    struct tried other = rattle_alloc(wanted, alignment);
    if (!other.given) return other;
    __builtin_memcpy(other.place, place, kept < wanted ? kept : wanted);
    gtd_free(place);
    return other;
}

void *memset(void *to, int value, size_t count) {
    byte *at = to;
    while (count--) *at++ = (byte)value;
    return to;
}

void *memmove(void *to, const void *from, size_t count) {
    byte *at = to;
    const byte *source = from;
    if (at < source) while (count--) *at++ = *source++;
    else while (count--) at[count] = source[count];
    return to;
}

void *memcpy(void *to, const void *from, size_t count) { return memmove(to, from, count); }

int memcmp(const void *left, const void *right, size_t count) {
    const byte *a = left, *b = right;
    for (; count; count--, a++, b++)
        if (*a != *b) return *a - *b;
    return 0;
}

// Shifts and products of 128 bits, by their halves.
typedef unsigned __int128 wide;
typedef union {
    wide whole;
    struct { size_t low, high; } part;
} halves;

wide __lshrti3(wide number, int places) {
    halves given = {.whole = number}, made = {.whole = number};
    if (places & 64) {
        made.part.low = given.part.high >> (places & 63);
        made.part.high = 0;
    } else if (places) {
        made.part.low = given.part.low >> places | given.part.high << (64 - places);
        made.part.high = given.part.high >> places;
    }
    return made.whole;
}

wide __ashlti3(wide number, int places) {
    halves given = {.whole = number}, made = {.whole = number};
    if (places & 64) {
        made.part.high = given.part.low << (places & 63);
        made.part.low = 0;
    } else if (places) {
        made.part.high = given.part.high << places | given.part.low >> (64 - places);
        made.part.low = given.part.low << places;
    }
    return made.whole;
}

// Of two numbers of 64 bits, by their halves of 32.
static wide product(size_t left, size_t right) {
    size_t a = left & 0xffffffff, b = left >> 32, c = right & 0xffffffff, d = right >> 32;
    size_t low = a * c, middle = b * c + (low >> 32), other = a * d + (middle & 0xffffffff);
    halves made = {.part = {(low & 0xffffffff) | other << 32, b * d + (middle >> 32) + (other >> 32)}};
    return made.whole;
}

wide __multi3(wide left, wide right) {
    halves a = {.whole = left}, b = {.whole = right}, made = {.whole = product(a.part.low, b.part.low)};
    made.part.high += a.part.high * b.part.low + a.part.low * b.part.high;
    return made.whole;
}

// The quotient, bit by bit where both halves are needed.
wide __udivti3(wide number, wide by) {
    halves a = {.whole = number}, b = {.whole = by}, rest = {.whole = 0}, made = {.whole = 0};
    if (!a.part.high && !b.part.high) return (halves){.part = {a.part.low / b.part.low, 0}}.whole;
    for (int bit = 127; bit >= 0; bit--) {
        rest.whole = __ashlti3(rest.whole, 1) | (__lshrti3(number, bit) & 1);
        if (rest.part.high > b.part.high || (rest.part.high == b.part.high && rest.part.low >= b.part.low)) {
            rest.whole -= b.whole;
            made.whole |= __ashlti3(1, bit);
        }
    }
    return made.whole;
}
