/* The times of group files. */
#ifndef GROUPS_H
#define GROUPS_H

/* Prints them, in Markdown. */
void print_groups(void);

#endif
