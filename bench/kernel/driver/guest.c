#include "guest.h"

#include <errno.h>
#include <fcntl.h>
#include <signal.h>
#include <stdio.h>
#include <string.h>
#include <sys/mman.h>
#include <sys/prctl.h>
#include <sys/socket.h>
#include <sys/syscall.h>
#include <sys/uio.h>
#include <sys/wait.h>
#include <unistd.h>

#include "fail.h"

#define AREA ((unsigned char *)0x100000000)

enum {
	PAGE = 4096, BIND = 2, MOVE = 2, MOVE_ALL = 4, NODE_BITS = 64, KSM_FLAG = 21, ZERO_FLAG = 24,
	MERGE_ALL = 67 /* PR_SET_MEMORY_MERGE, which Linux has since 6.4 */
};

/* What a guest can be told to do, with its arguments, and what it answers. */
enum deed { STORE, LOAD, TOUCH, DISCARD, MARK, MARK_ALL, HOLD, LOOK, LEAVE, FORK, END_FORK };

struct order {
	enum deed deed;
	size_t slot, count;
	int node;
	bool mergeable;
	unsigned char content[CONTENT];
};

struct answer {
	int error;
	bool is_whole;
	unsigned char content[CONTENT];
};

/* Each slot is a mapping of its own, with a hole behind it. */
static unsigned char *address(size_t slot)
{
	return AREA + slot * 2 * PAGE;
}

/* The guest's side. */

static int use_node(int node)
{
	unsigned long nodes = 1UL << node;
	return syscall(SYS_set_mempolicy, BIND, &nodes, NODE_BITS + 1) ? errno : 0;
}

static int store(const struct order *order)
{
	int error = use_node(order->node);
	for (size_t at = 0; !error && at < PAGE; at += CONTENT)
		memcpy(address(order->slot) + at, order->content, CONTENT);
	return error;
}

static int touch(const struct order *order)
{
	int error = use_node(order->node);
	volatile unsigned char *byte = address(order->slot);
	if (!error)
		*byte = *byte;
	return error;
}

static void load(const struct order *order, struct answer *answer)
{
	const unsigned char *page = address(order->slot);
	memcpy(answer->content, page, CONTENT);
	answer->is_whole = !memcmp(page, page + CONTENT, PAGE - CONTENT);
}

static int mark(const struct order *order)
{
	int advice = order->mergeable ? MADV_MERGEABLE : MADV_UNMERGEABLE;
	for (size_t i = 0; i < order->count; i++)
		if (madvise(address(order->slot + i), PAGE, advice))
			return errno;
	return 0;
}

static int hold(const struct order *order, int pipe_ends[2])
{
	struct iovec page = { address(order->slot), PAGE };
	if (pipe(pipe_ends))
		return errno;
	return vmsplice(pipe_ends[1], &page, 1, 0) == PAGE ? 0 : errno;
}

static int look(unsigned char content[CONTENT], const int pipe_ends[2])
{
	return read(pipe_ends[0], content, CONTENT) == CONTENT ? 0 : errno;
}

static void leave(int pipe_ends[2])
{
	close(pipe_ends[0]);
	close(pipe_ends[1]);
}

/* A copy of the process, which does nothing. */
static int start_copy(pid_t *copy, int wire)
{
	*copy = fork();
	if (*copy)
		return *copy < 0 ? errno : 0;
	close(wire);
	for (;;)
		pause();
}

static int end_copy(pid_t copy)
{
	return kill(copy, SIGKILL) || waitpid(copy, NULL, 0) != copy ? errno : 0;
}

static struct answer obey(const struct order *order, int wire)
{
	static int pipe_ends[2];
	static pid_t copy;
	struct answer answer = { 0 };
	switch (order->deed) {
	case STORE: answer.error = store(order); break;
	case LOAD: load(order, &answer); break;
	case TOUCH: answer.error = touch(order); break;
	case DISCARD: answer.error = madvise(address(order->slot), PAGE, MADV_DONTNEED) ? errno : 0; break;
	case MARK: answer.error = mark(order); break;
	case MARK_ALL: answer.error = prctl(MERGE_ALL, 1, 0, 0, 0) ? errno : 0; break;
	case HOLD: answer.error = hold(order, pipe_ends); break;
	case LOOK: answer.error = look(answer.content, pipe_ends); break;
	case LEAVE: leave(pipe_ends); break;
	case FORK: answer.error = start_copy(&copy, wire); break;
	case END_FORK: answer.error = end_copy(copy); break;
	}
	return answer;
}

static bool map(unsigned char *at)
{
	int flags = MAP_PRIVATE | MAP_ANONYMOUS | MAP_FIXED_NOREPLACE;
	return mmap(at, PAGE, PROT_READ | PROT_WRITE, flags, -1, 0) == at;
}

/* Maps the area, and behind it the empty page. The answer to it tells the guest's owner that the process has
 * its turn. */
static struct answer settle(size_t slots)
{
	struct answer answer = { 0 };
	bool is_mapped = true;
	for (size_t slot = 0; slot <= slots; slot++)
		is_mapped &= map(address(slot));
	if (!is_mapped || madvise(address(slots), PAGE, MADV_MERGEABLE))
		answer.error = errno;
	return answer;
}

static _Noreturn void live(size_t slots, int wire)
{
	struct order order;
	struct answer answer = settle(slots);
	prctl(PR_SET_PDEATHSIG, SIGKILL);
	while (write(wire, &answer, sizeof answer) == sizeof answer
	       && read(wire, &order, sizeof order) == sizeof order)
		answer = obey(&order, wire);
	_exit(0);
}

/* The owner's side. */

static struct answer hear(const struct guest *guest)
{
	struct answer answer;
	if (read(guest->wire, &answer, sizeof answer) != sizeof answer)
		fail("a guest does not answer");
	return answer;
}

static struct answer tell(const struct guest *guest, struct order order)
{
	if (write(guest->wire, &order, sizeof order) != sizeof order)
		fail("a guest does not listen");
	return hear(guest);
}

/* The same, for what must not fail. */
static struct answer must(const struct guest *guest, struct order order)
{
	struct answer answer = tell(guest, order);
	if (answer.error)
		fail(strerror(answer.error));
	return answer;
}

void guest_start(struct guest *guest)
{
	int ends[2];
	if (socketpair(AF_UNIX, SOCK_SEQPACKET | SOCK_CLOEXEC, 0, ends))
		fail("no socket for a guest");
	guest->pid = fork();
	if (guest->pid < 0)
		fail("no process for a guest");
	if (!guest->pid) {
		close(ends[0]);
		live(guest->slots, ends[1]);
	}
	close(ends[1]);
	guest->wire = ends[0];
	if (hear(guest).error)
		fail("no area for a guest");
}

void guest_end(struct guest *guest)
{
	if (guest->has_copy)
		must(guest, (struct order){ .deed = END_FORK });
	close(guest->wire);
	kill(guest->pid, SIGKILL);
	waitpid(guest->pid, NULL, 0);
}

void guest_store(struct guest *guest, size_t slot, int node, const unsigned char content[CONTENT])
{
	struct order order = { .deed = STORE, .slot = slot, .node = node };
	memcpy(order.content, content, CONTENT);
	must(guest, order);
}

bool guest_load(struct guest *guest, size_t slot, unsigned char content[CONTENT])
{
	struct answer answer = must(guest, (struct order){ .deed = LOAD, .slot = slot });
	memcpy(content, answer.content, CONTENT);
	return answer.is_whole;
}

void guest_touch(struct guest *guest, size_t slot, int node)
{
	must(guest, (struct order){ .deed = TOUCH, .slot = slot, .node = node });
}

void guest_discard(struct guest *guest, size_t slot)
{
	must(guest, (struct order){ .deed = DISCARD, .slot = slot });
}

int guest_mark(struct guest *guest, size_t slot, size_t count, bool mergeable)
{
	struct order order = { .deed = MARK, .slot = slot, .count = count, .mergeable = mergeable };
	return tell(guest, order).error;
}

int guest_mark_all(struct guest *guest)
{
	return tell(guest, (struct order){ .deed = MARK_ALL }).error;
}

void guest_fork(struct guest *guest)
{
	must(guest, (struct order){ .deed = FORK });
	guest->has_copy = true;
}

void guest_hold(struct guest *guest, size_t slot)
{
	must(guest, (struct order){ .deed = HOLD, .slot = slot });
}

void guest_look(struct guest *guest, unsigned char content[CONTENT])
{
	memcpy(content, must(guest, (struct order){ .deed = LOOK }).content, CONTENT);
}

void guest_leave(struct guest *guest)
{
	must(guest, (struct order){ .deed = LEAVE });
}

bool guest_move(const struct guest *guest, size_t slot, int node, bool all)
{
	void *page = address(slot);
	int status = -1;
	long left = syscall(SYS_move_pages, guest->pid, 1UL, &page, &node, &status, all ? MOVE_ALL : MOVE);
	return left == 0 && status == node;
}

int guest_node(const struct guest *guest, size_t slot)
{
	void *page = address(slot);
	int status = -1;
	syscall(SYS_move_pages, guest->pid, 1UL, &page, NULL, &status, 0);
	return status;
}

/* One number of a file of /proc that has a number for each page. */
static uint64_t number_at(const char *path, uint64_t index)
{
	uint64_t number = 0;
	int file = open(path, O_RDONLY);
	if (file < 0 || pread(file, &number, sizeof number, (off_t)(index * sizeof number)) < 0)
		fail(path);
	close(file);
	return number;
}

static uint64_t frame_at(pid_t pid, const unsigned char *page)
{
	char path[64];
	snprintf(path, sizeof path, "/proc/%d/pagemap", pid);
	uint64_t entry = number_at(path, (uintptr_t)page / PAGE);
	return entry >> 63 ? entry & ((1ULL << 55) - 1) : 0;
}

uint64_t guest_frame(const struct guest *guest, size_t slot)
{
	return frame_at(guest->pid, address(slot));
}

/* Tells it by the kernel's account of the process: where the page's mapping is told, its line `KSM:` has KB. */
static bool smaps_tells_merged(const struct guest *guest, size_t slot)
{
	char path[64], line[256];
	unsigned long start, end, kilobytes = 0;
	bool is_there = false;
	snprintf(path, sizeof path, "/proc/%d/smaps", guest->pid);
	FILE *file = fopen(path, "r");
	if (!file)
		fail(path);
	while (!kilobytes && fgets(line, sizeof line, file)) {
		if (sscanf(line, "%lx-%lx ", &start, &end) == 2)
			is_there = start == (uintptr_t)address(slot);
		else if (is_there)
			sscanf(line, "KSM: %lu", &kilobytes);
	}
	fclose(file);
	return kilobytes;
}

static bool flags_tell_merged(uint64_t frame)
{
	return number_at("/proc/kpageflags", frame) >> KSM_FLAG & 1;
}

/* Some kernels, 6.12 among them, set the flag of each anonymous page. Then a page of our own has it too. */
static bool flags_can_be_trusted(void)
{
	static unsigned char page[2 * PAGE];
	static int answer = -1;
	if (answer < 0) {
		page[PAGE] = 1;
		answer = !flags_tell_merged(frame_at(getpid(), page + PAGE));
	}
	return answer;
}

bool guest_is_merged(const struct guest *guest, size_t slot)
{
	uint64_t frame = guest_frame(guest, slot);
	if (!frame)
		return false;
	return flags_can_be_trusted() ? flags_tell_merged(frame) : smaps_tells_merged(guest, slot);
}

bool guest_is_zero(const struct guest *guest, size_t slot)
{
	uint64_t frame = guest_frame(guest, slot);
	return frame && number_at("/proc/kpageflags", frame) >> ZERO_FLAG & 1;
}
