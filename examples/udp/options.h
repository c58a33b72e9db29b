/* Options of a program, as --name VALUE, by a table. */
#ifndef OPTIONS_H
#define OPTIONS_H

#include <stddef.h>
#include <stdint.h>

struct option {
    const char *name;     /* without the dashes */
    const char *value;    /* what stands for its value in the help */
    const char *help;
    const char **text;    /* where a text goes, or NULL */
    uint32_t *number;     /* where a number goes, or NULL */
    uint32_t least, most; /* of a number */
};

/* Reads the options. --help prints `usage` and the table and ends the program with 0; a wrong argument is named on standard
 * error and ends it with 2. */
void read_options(int argc, char **argv, const char *usage, const struct option *options, size_t count);

/* Whether an option is among the arguments, once they are read. */
int option_given(int argc, char **argv, const char *name);

#endif
