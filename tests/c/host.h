/*
 * What the tests ask of where they run: of a system (host.c), or of a board without one (board/board.c). What they are
 * given and what they print go through buffers, a byte at a time.
 */
#ifndef HOST_H
#define HOST_H

#include <stddef.h>
#include <stdint.h>

#ifndef HOST_BUFFER
#define HOST_BUFFER 65536
#endif

struct host_buffer {
    uint8_t bytes[HOST_BUFFER];
    size_t at;   /* the next byte */
    size_t size; /* of what was given: how many there are */
};
extern struct host_buffer host_given, host_printed;

/* The next bytes, and how many they are; 0 at the end. */
size_t host_read(uint8_t *bytes, size_t most);

/* Prints bytes, or says them to people. */
void host_write(const uint8_t *bytes, size_t size);
void host_say(const char *text);

/* Ends the program, once all is printed. */
void host_end(int status);

/* Memory of so many bytes. Under a system it lies between pages that nobody may touch, and ends at the second. */
uint8_t *host_memory(size_t size);

/* The next byte of what the program is given, or -1. */
static inline int host_get(void) {
    if (host_given.at == host_given.size) {
        host_given.at = 0;
        host_given.size = host_read(host_given.bytes, sizeof host_given.bytes);
    }
    return host_given.at < host_given.size ? host_given.bytes[host_given.at++] : -1;
}

static inline void host_flush(void) {
    host_write(host_printed.bytes, host_printed.at);
    host_printed.at = 0;
}

static inline void host_put(int byte) {
    host_printed.bytes[host_printed.at++] = (uint8_t)byte;
    if (host_printed.at == sizeof host_printed.bytes) {
        host_flush();
    }
}

#endif
