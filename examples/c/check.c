/*
 * Checks another decoder's listing of a capture: check CAPTURE LISTING. It prints "yes", or "line N" for the first line
 * at fault, the header being line 1. Where the library refuses, it prints nothing, and on standard error the number: 14
 * for a capture of more than 2,900 records, 16 for a text that is not in the form of a listing.
 */
// gcc -std=c99 -Idist examples/c/check.c dist/*.S -o c-check
#include <addercoil.h>
#include <inttypes.h>
#include <stdio.h>
#include <stdlib.h>

/* All bytes of a file, and how many there are; null if it cannot be read. */
static uint8_t *read_file(const char *name, size_t *length) {
    FILE *file = fopen(name, "rb");
    size_t room = 4096, count = 0, got;
    uint8_t *bytes = malloc(room), *more;
    *length = 0;
    if (file == NULL || bytes == NULL) {
        if (file != NULL) {
            fclose(file);
        }
        free(bytes);
        return NULL;
    }
    while ((got = fread(bytes + count, 1, room - count, file)) != 0) {
        count += got;
        if (count == room) {
            room *= 2;
            more = realloc(bytes, room);
            if (more == NULL) {
                break;
            }
            bytes = more;
        }
    }
    if (ferror(file) || !feof(file)) {
        free(bytes);
        bytes = NULL;
    }
    fclose(file);
    *length = count;
    return bytes;
}

int main(int count, char **names) {
    static const char *const words[] = ADDERCOIL_NUMBER_WORDS;
    uint8_t *files[2] = {NULL, NULL};
    size_t lengths[2] = {0, 0};
    uint64_t line = 0;
    uint32_t number;
    int i;
    if (count != 3) {
        fputs("usage: check CAPTURE LISTING\n", stderr);
        return 2;
    }
    for (i = 0; i < 2; i++) {
        files[i] = read_file(names[i + 1], &lengths[i]);
        if (files[i] == NULL) {
            fprintf(stderr, "check: '%s' cannot be read\n", names[i + 1]);
            free(files[0]);
            return 2;
        }
    }
    number = addercoil_check(files[0], lengths[0], files[1], lengths[1], &line, 1);
    free(files[0]);
    free(files[1]);
    if (number != ADDERCOIL_OK) {
        fprintf(stderr, "%" PRIu32 ": %s\n", number, words[number]);
        return 2;
    }
    if (line != 0) {
        printf("line %" PRIu64 "\n", line);
        return 1;
    }
    puts("yes");
    return 0;
}
