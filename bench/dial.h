/* The settings of the strength dial, by the program `rounds`. */
#ifndef DIAL_H
#define DIAL_H

/* Ends the benchmark where the program's bytes are not plain C's, and says on standard output what was compared. */
void check_dial(void);

/* Compares the same bytes, and then prints the table of the settings. */
void dial_table(void);

#endif
