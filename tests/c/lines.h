/* The calls that lines of what a program is given say, the first halves of the lines of call.h, one after the other. */
#ifndef LINES_H
#define LINES_H

#include "call.h"

/* The call of the next line, whose number from 1 on is given; whether there is one. What it lends stands until the next
 * one. A line that says no call ends the program with 2. */
int line_read(struct call *call, unsigned long number);

/* Says what is wrong with a line, and ends the program. */
void line_fault(const char *why, unsigned long number, int status);

#endif
