/*
 * Makes the calls that the lines of what it is given say, the first halves of the lines of call.h, and prints the
 * second halves: calls < LINES. Of the lent arrays every other one ends at a page that nobody may touch. Ends with 1 at
 * a fault.
 */
#include "host.h"
#include "lines.h"

int main(void) {
    struct call call;
    unsigned long number;
    call_open();
    for (number = 1; line_read(&call, number); number++) {
        struct outcome outcome = call_make(&call);
        if (outcome.fault != NULL) {
            line_fault(outcome.fault, number, 1);
        }
        outcome_write(&call, &outcome);
    }
    host_end(0);
    return 0;
}
