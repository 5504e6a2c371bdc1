/* Where a command prints: standard output, or the file that --output names. */
#ifndef OUTPUT_H
#define OUTPUT_H

struct output {
    char *name, *made; /* the file, and what it is called until it is whole; null for standard output, or for a file that is no ordinary one */
    int before;        /* standard output as it was */
};

/* These return 0, or an exit status after saying why. */

/* Standard output becomes the file of that name, unless it is null or the table's own. */
int output_begin(struct output *o, const char *name, const char *table);

/*
 * Standard output is what it was. The file is there, in the place of an older one, if the command printed anything and all of it was written;
 * else the older one stays. The command's own status is given back if it is not 0.
 */
int output_end(struct output *o, int status);

/* In a signal that ends the program: what was written so far goes. */
void output_abandon(void);

#endif
