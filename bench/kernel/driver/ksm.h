/* The knobs and counters of the kernel's KSM, and ksmd itself. */
#ifndef KSM_H
#define KSM_H

#include <stdio.h>
#include <sys/types.h>

/* A knob or counter of /sys/kernel/mm/ksm, or -1 where this kernel has none of the name. */
long ksm_read(const char *name);

/* Writes a knob. 0, or the error. */
int ksm_write(const char *name, long value);

/* Tells the files of /sys/kernel/mm/ksm, and what /proc has of KSM for a process. */
void ksm_files(FILE *out);
void ksm_process(pid_t pid, FILE *out);

/* What all processes have in ksm_zero_pages of their ksm_stat, together. */
long ksm_zero_pages_of_all(void);

/* Finds ksmd and notes the knobs as the kernel has them. It is called once, before any call below, and tells
 * the kernel's own `pages_to_scan`, which is 0 from here on except in a batch. */
unsigned long ksm_start(void);

/* Waits until ksmd sleeps. A knob that it reads must not change while it is awake: a new number of visits,
 * written right behind `run` 1, would let it make a pass that nobody asked for. */
void wait_for_ksmd(void);

/* Lets ksmd do exactly one batch of so many steps, and waits for its end. A batch does not go on into
 * the next pass. Where ksmd has nothing to do, nothing happens. */
void ksmd_batch(unsigned long steps);

/* Forgets what earlier processes left behind, and sets all knobs as a script finds them. */
void ksm_reset(void);

#endif
