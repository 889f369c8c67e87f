/*
 * A call of any function of addercoil.h as a value, so that a script or a die can choose it. It is made with guards
 * around everything lent, and it can be written as a line that the model reads:
 *
 *     NAME [TABLE] [GIVEN] [LENGTH] [ORDER] [WRITTEN] NUMBER.. = ANSWER [RESULT] [WRITTEN] [TABLE]
 *
 * TABLE and GIVEN are what is lent, in hex, of a check the capture and the listing, of a merge the two listings; LENGTH
 * is how many elements the result array has, NUMBERs are in decimal. A listing has two arrays more and a merge one, and
 * ORDER and WRITTEN before the = are how many elements they have. A double is its bit pattern, as a NUMBER and in a
 * result array. Behind the = stand the answer, the result array, of a listing and a merge what was written, and the
 * table where it is lent to be written; never order, of which only a refusal says what it leaves. Elements of 64 bits
 * are 16 digits each; nothing at all is "-".
 */
#ifndef CALL_H
#define CALL_H

#include "lent.h"

#ifdef __cplusplus
extern "C" {
#endif

enum function {
    VERSION,
    TABLE_BYTES,
    SET_UP,
    SET_UP_AT,
    RECEIVE,
    RECEIVE_STAMP,
    CLOCK,
    SITE,
    NEXT,
    LOOK_UP,
    REPLAY,
    REPLAY_AT,
    REPLAY_COARSE,
    LISTING,
    HEADER,
    LINE,
    FEED_BLOCK,
    CHECK,
    MERGE,
    ENCODE_POSITION,
    PAIR,
    SINGLE,
    ENCODE_POSITION_COARSE,
    PAIR_COARSE,
    SINGLE_COARSE,
    DEGREES,
    FROM_DEGREES,
    DECODE,
    KEY,
    ENCODE,
    ME,
    FUNCTIONS
};

enum lends { NOTHING = 0, BYTES = 1, WORDS = 8 }; /* the size of an element */
enum table_use { NO_TABLE, READS_TABLE, WRITES_TABLE };

#define MOST_NUMBERS 6

/* The arrays that a call may be lent. */
enum array { TABLE_ARRAY, GIVEN_ARRAY, RESULT_ARRAY, ORDER_ARRAY, WRITTEN_ARRAY, ARRAYS };

/* What a function is lent. */
struct shape {
    const char *name;
    enum table_use table;
    enum lends given;
    int numbers;
    enum lends result;
};
extern const struct shape shapes[FUNCTIONS];

/* What a result array holds before the call, byte by byte. The state of stamps is read too: its entries are the last
 * two NUMBERs. */
#define FRESH 0xA5

struct call {
    enum function function;
    uint8_t *table; /* bytes, and how many there are */
    size_t table_size;
    uint8_t *given;
    size_t given_size;
    size_t result_length;  /* elements */
    size_t order_length;   /* of a listing; of all others there are none */
    size_t written_length; /* of a listing and a merge */
    uint64_t *order;       /* these two, while the call is made */
    uint64_t *written;
    uint64_t numbers[MOST_NUMBERS];
    size_t below;          /* how far the lent arrays end below a forbidden page, a multiple of 8 */
    int null;              /* whether an empty array is the null pointer */
    uint64_t more[ARRAYS]; /* by how much each length is said to be more than it is */
};

/* What came of it. The arrays are those lent: they stand until the next call. */
struct outcome {
    uint64_t answer;
    const uint8_t *table;
    const uint8_t *result;
    const uint8_t *written;
    const char *fault; /* what was touched that must not be, or null */
};

/*
 * A call made with what is lent, and its answer: by the functions of addercoil.h (direct.c), or by those of
 * addercoil_easy.h (easy.c), whose structs are then laid out as the entries of a result array.
 */
uint64_t call_by(const struct call *call, uint8_t *table, uint8_t *given, uint8_t *result);

/* Whether a function says in an array how many bytes of text it wrote. */
int call_has_written(enum function function);

/* Gets the memory, once. */
void call_open(void);

struct outcome call_make(const struct call *call);

/* Where byte i of an array in hex stands in memory: the elements are written high byte first, and stored low byte
 * first. */
size_t call_byte_at(size_t i, size_t element);

/* A number in decimal, written at the end of a text of so many characters, which begins where this says. */
enum { CALL_DECIMAL = 21 };
const char *call_decimal(uint64_t number, char *text);

/* Prints the two halves of the line, the second with its = and the end of the line. */
void call_write(const struct call *call);
void outcome_write(const struct call *call, const struct outcome *outcome);

#ifdef __cplusplus
}
#endif

#endif
