/* The times of sound lengths. */
#ifndef SOUNDS_H
#define SOUNDS_H

/* Prints them, in Markdown. */
void print_sounds(void);

#endif
