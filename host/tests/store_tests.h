/* The parts of host/tests/store. */
#ifndef STORE_TESTS_H
#define STORE_TESTS_H

/* Every call and every number that it answers. */
void calls(void);

/* Saves of every kind, failing and ended at each step. */
void failing_and_ended(void);

/* The same of the other calls. */
void others_failing(void);

#endif
