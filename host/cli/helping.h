/* The parts of the program's help, in lines of at most 80 columns. */
#ifndef HELPING_H
#define HELPING_H

/* Text in lines that each begin with this many spaces; of the first one so many columns are printed already, or none. */
void print_wrapped(const char *text, int indent, int begun);

/* A usage, each of its forms, which ", or " separates, in a line of its own; `first` stands before the first one, as many spaces before the others. */
void print_forms(const char *first, const char *usage);

/* What the options in a usage do, and what its operands can be. */
void print_words_of(const char *usage);

/* What all options do, and what operands can be. */
void print_all_words(void);

#endif
