/* A guest: a process with an area in which each of its pages has a slot, in the order of the pages. */
#ifndef GUEST_H
#define GUEST_H

#include <stdbool.h>
#include <stddef.h>
#include <stdint.h>
#include <sys/types.h>

/* How many of a page's first bytes the script names: as many as a page of ksmbook has. The page has them again
 * and again. */
#ifndef CONTENT
#error "CONTENT is the size of a page of ksmbook"
#endif

struct guest {
	unsigned long number;
	size_t slots;
	pid_t pid;
	int wire;
	bool has_copy;
};

/* Starts the process. Its area has no page yet, and is not mergeable. The process also has an empty area
 * that always is, so that it keeps its turn in the order in which ksmd goes over the processes. */
void guest_start(struct guest *guest);

/* Ends the process, with all of its pages. */
void guest_end(struct guest *guest);

/* Writes a page. Where it needs a frame, that is one of the node. */
void guest_store(struct guest *guest, size_t slot, int node, const unsigned char content[CONTENT]);

/* Reads a page. False where it does not have the same bytes again and again. */
bool guest_load(struct guest *guest, size_t slot, unsigned char content[CONTENT]);

/* Writes to a page what it has, so that a merged page gets a frame of the node. */
void guest_touch(struct guest *guest, size_t slot, int node);

/* Gives a page back to the kernel. */
void guest_discard(struct guest *guest, size_t slot);

/* Makes pages mergeable or not, from a slot on. 0, or the error. */
int guest_mark(struct guest *guest, size_t slot, size_t count, bool mergeable);

/* Makes all memory of the process mergeable. 0, or the error. */
int guest_mark_all(struct guest *guest);

/* Copies the process. The copy does nothing, and ends with it. */
void guest_fork(struct guest *guest);

/* Takes a reference on a page from outside, as a reader does, until guest_leave. It is read by the reference. */
void guest_hold(struct guest *guest, size_t slot);
void guest_look(struct guest *guest, unsigned char content[CONTENT]);
void guest_leave(struct guest *guest);

/* Moves a page to a node, or with `all` a page that is mapped more than once. False where it was not moved. */
bool guest_move(const struct guest *guest, size_t slot, int node, bool all);

/* The node on which a page lies. */
int guest_node(const struct guest *guest, size_t slot);

/* The number of the frame on which a page lies, 0 for none. */
uint64_t guest_frame(const struct guest *guest, size_t slot);

/* Tells whether a page lies on a frame of KSM's. */
bool guest_is_merged(const struct guest *guest, size_t slot);

/* Tells whether a page is mapped from the zero page. */
bool guest_is_zero(const struct guest *guest, size_t slot);

#endif
