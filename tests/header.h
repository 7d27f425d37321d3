/* What the parts of the test share. */
#ifndef HEADER_H
#define HEADER_H

#include "pollwezen.h"

void expect(int holds, const char *what);
pollwezen_machine fresh(void); /* the 17132's reset record */
int same(const pollwezen_machine *a, const pollwezen_machine *b);

void layout(void);
void codes(void);
void row_names(void);
void files(void);
void sizes(void);
void records(void);
void timers(void);
void models(void);
void nulls(void);
void stack_needs(void);

#endif
