/* The times of the finding table and of calls that came after it. */
#ifndef TABLES_H
#define TABLES_H

/* Prints them, in Markdown. */
void print_tables(void);

/* And those of a search in columns beside one in rows. */
void print_columns(void);

/* Those of scaled pictures. */
void print_scaling(void);

/* And those of spoken descriptions. */
void print_texts(void);

#endif
