/*
 * Shows the aircraft of a receiver while its lines come on standard input: live [all] [SECONDS [LATITUDE LONGITUDE]]. A
 * line is *HEX; or @TTTTTTTTTTTTHEX; as dump1090 and readsb print them on port 30002; the twelve digits are the
 * receiver's time, which is not used: a message arrives when its line does. Every so many seconds, or each second, the
 * aircraft are shown, on a terminal in place of the last ones; and once more at the end of the input, or when the program
 * is interrupted: callsign, latitude and longitude in degrees, altitude with its step, speed over ground, and how many
 * seconds ago it was heard. These are the aircraft whose position is known, or with the word all every one that is held.
 * Then the program says how many messages were taken, how many were refused with which number, and how many lines had no
 * message. With the receiver's latitude and longitude in degrees, north and east above zero, positions on the ground are
 * read against them.
 */
// gcc -std=c99 -Idist examples/c/live.c dist/*.S -lm -o live
// nc localhost 30002 | ./live
#define _POSIX_C_SOURCE 200112L
#include <addercoil_easy.h>
#include <ctype.h>
#include <errno.h>
#include <poll.h>
#include <signal.h>
#include <stdio.h>
#include <stdlib.h>
#include <string.h>
#include <time.h>
#include <unistd.h>

enum {
    LONGEST = 64,        /* a line of so many bytes has no message: 42 are enough for one, and leave space around it */
    STAMP = 12,          /* the digits of a receiver's time */
    NUMBERS = 32,        /* more than the largest number that comes back */
    MOST_SECONDS = 86400 /* as many milliseconds are an int */
};

/* A line, as far as it has come: its first LONGEST bytes. */
struct line {
    char text[LONGEST];
    size_t length;
};

static uint8_t bytes[ADDERCOIL_TABLE_BYTES(1024)];
static const struct addercoil_table table = {bytes, sizeof bytes};
static unsigned long answered[NUMBERS]; /* how many messages got each number */
static unsigned long others;            /* how many lines had no message */
static int all;                         /* whether every aircraft that is held is shown, or those with a position */
static uint64_t start;
static volatile sig_atomic_t interrupted;

static void interrupt(int number) {
    (void)number;
    interrupted = 1;
}

/* The table's clock: milliseconds since the start, by a clock that nobody sets. */
static uint64_t clock_now(void) {
    struct timespec now;
    clock_gettime(CLOCK_MONOTONIC, &now);
    return (uint64_t)now.tv_sec * 1000 + (uint64_t)now.tv_nsec / 1000000 - start;
}

static int digit(int c) {
    return isdigit(c) ? c - '0' : tolower(c) - 'a' + 10;
}

/* The bytes of hex digits, and how many there are: 0 if something else is among them, or half a byte is left. */
static size_t bytes_of(const unsigned char *digits, size_t count, uint8_t *bytes) {
    for (size_t i = 0; i < count; i++) {
        if (!isxdigit(digits[i])) {
            return 0;
        }
        bytes[i / 2] = (uint8_t)(i % 2 == 0 ? digit(digits[i]) : bytes[i / 2] * 16 + digit(digits[i]));
    }
    return count % 2 == 0 ? count / 2 : 0;
}

/* The bytes of a line's message, and how many there are: 0 if it has none. White space around it does no harm. */
static size_t message_of(const struct line *line, uint8_t *bytes) {
    const unsigned char *text = (const unsigned char *)line->text, *end = text + line->length;
    uint8_t stamp[STAMP / 2];
    while (text < end && isspace(*text)) {
        text++;
    }
    while (text < end && isspace(end[-1])) {
        end--;
    }
    if (line->length == LONGEST || end - text < 2 || (*text != '*' && *text != '@') || end[-1] != ';') {
        return 0;
    }
    end--;
    if (*text++ == '@') {
        if (end - text < STAMP || bytes_of(text, STAMP, stamp) == 0) {
            return 0;
        }
        text += STAMP;
    }
    return bytes_of(text, (size_t)(end - text), bytes);
}

/* A line has come to its end: its message arrives now. */
static void end_line(struct line *line) {
    uint8_t message[LONGEST / 2];
    size_t count = message_of(line, message);
    if (count == 0) {
        others++;
    } else {
        answered[addercoil_easy_receive(table, message, count, clock_now())]++;
    }
    line->length = 0;
}

/* More of the input, which may end anywhere in a line. */
static void take(struct line *line, const char *input, size_t count) {
    for (size_t i = 0; i < count; i++) {
        if (input[i] == '\n') {
            end_line(line);
        } else if (line->length < LONGEST) {
            line->text[line->length++] = input[i];
        }
    }
}

/* Whether an aircraft is shown. */
static int is_shown(const struct addercoil_track *track) {
    return all || track->position_known;
}

/* How many are. */
static unsigned count_shown(void) {
    struct addercoil_track track;
    uint32_t key = 0;
    unsigned count = 0;
    while (addercoil_easy_next(table, &key) && addercoil_easy_look_up(table, key, &track) == ADDERCOIL_OK) {
        count += (unsigned)is_shown(&track);
    }
    return count;
}

/* Who it is: its kind and address, and of kind C the flag and the station, then the callsign. */
static void print_name(uint32_t key, const struct addercoil_track *track) {
    char sender[8] = "";
    if (ADDERCOIL_KEY_IS_COARSE(key)) {
        sprintf(sender, " %u %u", (unsigned)ADDERCOIL_KEY_FLAG(key), (unsigned)ADDERCOIL_KEY_STATION(key));
    }
    printf("%c %06X%-5s %-8s", addercoil_easy_kind_letter(key), (unsigned)ADDERCOIL_KEY_AA(key), sender,
           track->callsign[0] == '\0' ? "-" : track->callsign);
}

/* Where it is: degrees, and feet with their step. */
static void print_place(const struct addercoil_track *track) {
    struct addercoil_degrees degrees;
    char feet[32] = "-";
    if (track->position_known && addercoil_easy_degrees(track->position, &degrees) == ADDERCOIL_OK) {
        printf(" %10.5f %11.5f", degrees.latitude, degrees.longitude);
    } else {
        printf(" %10s %11s", "-", "-");
    }
    if (track->altitude.is == ADDERCOIL_KNOWN) {
        sprintf(feet, "%d by %d", (int)track->altitude.value, (int)track->altitude_step.value);
    }
    printf(" %13s", feet);
}

/* How fast it goes over ground, in knots, and how many seconds ago it was heard. */
static void print_motion(const struct addercoil_track *track, uint64_t time) {
    double knots;
    uint32_t is = addercoil_easy_speed(track, &knots);
    if (is == ADDERCOIL_KNOWN) {
        printf(" %5.0f", knots);
    } else {
        printf(" %5s", is == ADDERCOIL_OVER ? "over" : "-");
    }
    printf(" %4u\n", (unsigned)((time - track->heard) / 1000));
}

/* The aircraft at a time, on a terminal in place of the last ones. Whether they could be written. */
static int print_aircraft(uint64_t time) {
    static const uint8_t nothing[ADDERCOIL_MESSAGE] = {0}; /* is refused, and moves the clock */
    struct addercoil_track track;
    uint32_t key = 0;
    addercoil_easy_receive(table, nothing, sizeof nothing, time);
    if (isatty(STDOUT_FILENO)) {
        fputs("\033[H\033[J", stdout); /* home, and clear */
    }
    printf("clock %llu aircraft %u\n", (unsigned long long)time, count_shown());
    printf("%13s %-8s %10s %11s %13s %5s %4s\n", "", "callsign", "latitude", "longitude", "feet", "knots", "age");
    while (addercoil_easy_next(table, &key) && addercoil_easy_look_up(table, key, &track) == ADDERCOIL_OK) {
        if (is_shown(&track)) {
            print_name(key, &track);
            print_place(&track);
            print_motion(&track, time);
        }
    }
    return fflush(stdout) == 0 && !ferror(stdout);
}

/* Waits for input, so many milliseconds at most, and takes it. 1, or 0 at its end, or -1 if it cannot be read. */
static int take_input(struct line *line, int milliseconds) {
    struct pollfd input = {STDIN_FILENO, POLLIN, 0};
    char more[4096];
    ssize_t count;
    if (poll(&input, 1, milliseconds) <= 0) {
        return 1; /* nothing came, or a signal */
    }
    count = read(STDIN_FILENO, more, sizeof more);
    if (count < 0) {
        return errno == EINTR || errno == EAGAIN ? 1 : -1;
    }
    take(line, more, (size_t)count);
    return count > 0;
}

/* Takes the input to its end, and prints every so many milliseconds. Why it had to stop, or NULL. */
static const char *run(uint64_t period) {
    struct line line = {{0}, 0};
    uint64_t now = 0, due = period;
    int more = 1;
    while (more > 0 && !interrupted) {
        more = take_input(&line, (int)(due - now));
        now = clock_now();
        if (more > 0 && now >= due) {
            if (!print_aircraft(now)) {
                return "the output cannot be written";
            }
            due = now + period;
        }
    }
    if (more == 0 && line.length > 0) {
        end_line(&line); /* the last line, without a newline */
    }
    if (!print_aircraft(clock_now())) {
        return "the output cannot be written";
    }
    return more < 0 ? "the input cannot be read to its end" : NULL;
}

static void say_counts(void) {
    fprintf(stderr, "%lu taken", answered[ADDERCOIL_OK]);
    for (int number = 1; number < NUMBERS; number++) {
        if (answered[number] > 0) {
            fprintf(stderr, ", %lu refused with %d", answered[number], number);
        }
    }
    fprintf(stderr, ", %lu lines without a message\n", others);
}

/* A word that is a number from least to most; whether it is one. */
static int number_in(const char *word, double least, double most, double *number) {
    char *end;
    *number = strtod(word, &end);
    return end != word && *end == '\0' && *number >= least && *number <= most;
}

/* Sets the table up as the words ask, and says the seconds; whether there are such words. */
static int set_up(int count, char **words, double *seconds) {
    struct addercoil_degrees degrees;
    struct addercoil_spot site;
    if (count > 0 && !number_in(words[0], 1, MOST_SECONDS, seconds)) {
        return 0;
    }
    if (count < 2) {
        return addercoil_easy_set_up(table) == ADDERCOIL_OK;
    }
    return count == 3 && number_in(words[1], -90, 90, &degrees.latitude) &&
           number_in(words[2], -180, 180, &degrees.longitude) &&
           addercoil_easy_site_in_degrees(degrees, &site) == ADDERCOIL_OK &&
           addercoil_easy_set_up_at(table, site) == ADDERCOIL_OK;
}

int main(int count, char **arguments) {
    double seconds = 1;
    const char *fault;
    all = count > 1 && strcmp(arguments[1], "all") == 0;
    if (!set_up(count - 1 - all, arguments + 1 + all, &seconds)) {
        fputs("usage: live [all] [SECONDS [LATITUDE LONGITUDE]], 1 second or more, degrees to the north and east\n", stderr);
        return 2;
    }
    signal(SIGINT, interrupt);
    start = clock_now();
    fault = run((uint64_t)(seconds * 1000));
    say_counts();
    if (fault != NULL) {
        fprintf(stderr, "live: %s\n", fault);
        return 1;
    }
    return 0;
}
