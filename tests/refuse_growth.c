// Refuses growths of memory of a process that it is loaded into by LD_PRELOAD: the one whose number, from 1, is in the variable
// REFUSE_GROWTH, and all after it if REFUSE_REST is 1; or, if REFUSE_BETWEEN gives a number of bytes, a request for exactly
// that many and all growths after it, up to the next such request, which is granted. Reports each refusal on standard error,
// but of growths that are refused as the rest only the first. Growths are calls of malloc, calloc and realloc.
#include <errno.h>
#include <stddef.h>
#include <stdlib.h>
#include <unistd.h>

// The same calls of the GNU C library, by their other names.
void *__libc_malloc(size_t size);
void *__libc_calloc(size_t count, size_t size);
void *__libc_realloc(void *block, size_t size);

// The number that a variable gives, or 0.
static long given(const char *variable) {
    const char *text = getenv(variable);
    return text ? atol(text) : 0;
}

static int is_refused(size_t size) {
    static const char told[] = "growth refused\n";
    static long count = 0, refused = -1, rest = 0, between = 0, is_between = 0;
    if (refused < 0) {
        refused = given("REFUSE_GROWTH");
        rest = given("REFUSE_REST");
        between = given("REFUSE_BETWEEN");
    }
    if (between && size == (size_t)between)
        is_between = !is_between;
    count++;
    int is_rest = rest && count > refused;
    if (count != refused && !is_rest && !is_between)
        return 0;
    if (!is_rest && write(2, told, sizeof told - 1) < 0)
        _exit(99);
    errno = ENOMEM;
    return 1;
}

void *malloc(size_t size) { return is_refused(size) ? NULL : __libc_malloc(size); }

void *calloc(size_t count, size_t size) {
    return is_refused(count * size) ? NULL : __libc_calloc(count, size);
}

void *realloc(void *block, size_t size) {
    return is_refused(size) ? NULL : __libc_realloc(block, size);
}
