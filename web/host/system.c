// What the program gtdesk asks of its system, answered by the page: its words, one file in memory, and where its answer goes.
// The page is asked by the three imports below. Nothing is proved of it.
typedef unsigned long size_t;
typedef long answer;
#define PAGE(name) __attribute__((import_module("page"), import_name(#name)))
PAGE(word) answer page_word(size_t number, void *into, size_t room);
PAGE(read) answer page_read(void *into, size_t room);
PAGE(write) answer page_write(int stream, const void *bytes, size_t count);

// The calls of Rattle's library `os`. A word that there is not is -1, as is each word of the environment, which is empty.
answer rattle_arg(size_t number, void *into, size_t room) { return page_word(number, into, room); }
answer rattle_env(const void *name, void *into, size_t room) { return (void)name, (void)into, (void)room, -1; }
answer rattle_env_at(size_t number, void *into, size_t room) { return (void)number, (void)into, (void)room, -1; }

static int error;
int rattle_errno(void) { return error; }
void rattle_set_errno(int number) { error = number; }

// Those of the C library. Whatever file is named is the one that the page gave, and so is standard input. There is no clock.
int open(const char *path, int flags, ...) { return (void)path, (void)flags, 3; }
int close(int file) { return (void)file, 0; }
answer read(int file, void *into, size_t room) { return (void)file, page_read(into, room); }
answer write(int file, const void *bytes, size_t count) { return page_write(file, bytes, count); }
int clock_gettime(int clock, void *into) { return (void)clock, (void)into, -1; }
int nanosleep(const void *wanted, void *left) { return (void)wanted, (void)left, 0; }
void *__sysv_signal(int number, void *action) { return (void)number, action; }

extern int gtdesk_main(void);
int gtdesk(void) { return gtdesk_main(); }
