/* What is done where the driver cannot go on. */
#ifndef FAIL_H
#define FAIL_H

/* Writes a last line `failed: WHAT` to the replies, and stops the machine. */
_Noreturn void fail(const char *what);

#endif
