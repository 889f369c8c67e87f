/* The tests under a system: see host.h. */
#include "host.h"
#include <stdio.h>
#include <stdlib.h>
#include <sys/mman.h>
#include <unistd.h>

/* Pages have 4, 16 or 64 KiB, by the processor and its system: this is whole ones of each */
enum { PAGE = 65536 };

struct host_buffer host_given, host_printed;

size_t host_read(uint8_t *bytes, size_t most) {
    ssize_t size = read(STDIN_FILENO, bytes, most);
    return size > 0 ? (size_t)size : 0;
}

void host_write(const uint8_t *bytes, size_t size) {
    size_t made = 0;
    while (made < size) {
        ssize_t more = write(STDOUT_FILENO, bytes + made, size - made);
        if (more <= 0) {
            _exit(3);
        }
        made += (size_t)more;
    }
}

void host_say(const char *text) {
    fputs(text, stderr);
}

void host_end(int status) {
    host_flush();
    exit(status);
}

uint8_t *host_memory(size_t size) {
    size_t whole = (size + PAGE - 1) / PAGE * PAGE;
    uint8_t *memory = mmap(NULL, PAGE + whole + PAGE, PROT_NONE, MAP_PRIVATE | MAP_ANONYMOUS, -1, 0);
    if (memory == MAP_FAILED || mprotect(memory + PAGE, whole, PROT_READ | PROT_WRITE) != 0) {
        perror("host_memory");
        exit(2);
    }
    return memory + PAGE + whole - size;
}
