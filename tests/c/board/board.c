/*
 * The tests on a board without a system, or on an ARM that is asked for no more than a board: see host.h. What it is
 * given and what it prints go through semihosting, by which an emulator, or a debugger, opens and reads files for the
 * board. Here also stands what the archive asks of a board besides libgcc: the functions that copy and fill memory.
 */
#include "host.h"
#include "lent.h"
#include <string.h>

enum { SYS_OPEN = 1, SYS_WRITE0 = 4, SYS_WRITE = 5, SYS_READ = 6, SYS_EXIT_EXTENDED = 0x20 };
enum { READS = 0, WRITES = 4 };      /* how a file is opened */
enum { APPLICATION_EXIT = 0x20026 }; /* why a program ends: it did */
/* For the arrays of a call: the table, what is given, the result, and what a listing is lent besides */
enum { POOL = 3 * LENT_MOST + LENT_ORDER + LENT_WRITTEN + 5 * 2 * LENT_GUARDS };

struct host_buffer host_given, host_printed;

/* Asks for something, with the address of its words; what is answered. */
static intptr_t ask(int what, const void *words) {
    register intptr_t r0 __asm__("r0") = what;
    register const void *r1 __asm__("r1") = words;
#ifdef __thumb__
    __asm__ volatile("bkpt 0xAB" : "+r"(r0) : "r"(r1) : "memory");
#else
    __asm__ volatile("svc 0x123456" : "+r"(r0) : "r"(r1) : "memory", "lr");
#endif
    return r0;
}

static intptr_t opened(const char *name, int how) {
    uintptr_t words[] = {(uintptr_t)name, (uintptr_t)how, strlen(name)};
    return ask(SYS_OPEN, words);
}

size_t host_read(uint8_t *bytes, size_t most) {
    static intptr_t file;
    uintptr_t words[3];
    file = file == 0 ? opened("/dev/stdin", READS) : file;
    words[0] = (uintptr_t)file;
    words[1] = (uintptr_t)bytes;
    words[2] = most;
    return most - (size_t)ask(SYS_READ, words); /* the answer is how many are missing */
}

void host_write(const uint8_t *bytes, size_t size) {
    static intptr_t file;
    uintptr_t words[3];
    file = file == 0 ? opened("/dev/stdout", WRITES) : file;
    words[0] = (uintptr_t)file;
    words[1] = (uintptr_t)bytes;
    words[2] = size;
    if (size != 0 && ask(SYS_WRITE, words) != 0) {
        host_say("what is printed cannot be written\n");
    }
}

void host_say(const char *text) {
    ask(SYS_WRITE0, text);
}

void host_end(int status) {
    uintptr_t words[] = {APPLICATION_EXIT, (uintptr_t)status};
    host_flush();
    ask(SYS_EXIT_EXTENDED, words);
}

uint8_t *host_memory(size_t size) {
    static uint64_t pool[POOL / sizeof(uint64_t)];
    static size_t used;
    if (size > sizeof pool - used) {
        host_say("there is no memory left\n");
        host_end(2);
    }
    used += size;
    return (uint8_t *)pool + used - size;
}

/* What the archive calls of a board, and what these tests do */

void *memmove(void *to, const void *from, size_t size) {
    uint8_t *t = to;
    const uint8_t *f = from;
    if (t < f) {
        for (; size != 0; size--) {
            *t++ = *f++;
        }
    }
    while (t > f && size-- != 0) {
        t[size] = f[size];
    }
    return to;
}

void *memcpy(void *to, const void *from, size_t size) {
    return memmove(to, from, size);
}

void *memset(void *to, int byte, size_t size) {
    uint8_t *t = to;
    while (size-- != 0) {
        *t++ = (uint8_t)byte;
    }
    return to;
}

int memcmp(const void *one, const void *other, size_t size) {
    const uint8_t *a = one, *b = other;
    for (; size != 0; size--, a++, b++) {
        if (*a != *b) {
            return *a < *b ? -1 : 1;
        }
    }
    return 0;
}

size_t strlen(const char *text) {
    size_t size = 0;
    while (text[size] != '\0') {
        size++;
    }
    return size;
}

int strcmp(const char *one, const char *other) {
    while (*one != '\0' && *one == *other) {
        one++;
        other++;
    }
    return (uint8_t)*one - (uint8_t)*other;
}

/* By the names that compilers for ARM have for them, with or without a promise of alignment */
#define ALIGNED(kind, parameters, body)                                                                                \
    void __aeabi_##kind parameters {                                                                                   \
        body;                                                                                                          \
    }                                                                                                                  \
    void __aeabi_##kind##4 parameters {                                                                                \
        body;                                                                                                          \
    }                                                                                                                  \
    void __aeabi_##kind##8 parameters {                                                                                \
        body;                                                                                                          \
    }
ALIGNED(memcpy, (void *to, const void *from, size_t size), memmove(to, from, size))
ALIGNED(memmove, (void *to, const void *from, size_t size), memmove(to, from, size))
ALIGNED(memset, (void *to, size_t size, int byte), memset(to, byte, size))
ALIGNED(memclr, (void *to, size_t size), memset(to, 0, size))

int main(void);
void board_reset(void);
extern char board_stack;

void board_reset(void) {
    host_end(main());
}

#ifdef __thumb__
/* Where a Cortex-M begins: its stack, and what it runs */
__attribute__((section(".vectors"), used)) static void (*const vectors[])(void) = {(void (*)(void)) & board_stack,
                                                                                   board_reset};
#endif
