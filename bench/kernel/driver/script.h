/* Scripts of the language of docs/SCRIPT.md, done to real pages. */
#ifndef SCRIPT_H
#define SCRIPT_H

#include <stdio.h>

/* Does the lines of a script, and writes a reply for each that is not empty. `visits` is how far a `scan`
 * without a number goes at first. */
void script_run(char *text, unsigned long visits, FILE *replies);

#endif
