#include "ksm.h"

#include <dirent.h>
#include <errno.h>
#include <fcntl.h>
#include <signal.h>
#include <stdlib.h>
#include <string.h>
#include <sys/mman.h>
#include <sys/syscall.h>
#include <sys/wait.h>
#include <time.h>
#include <unistd.h>

#include "fail.h"
#include "trace.h"

#define FOLDER "/sys/kernel/mm/ksm/"

enum { FIRST_SLEEP = 10000000, LOOKS = 100000, LOOK_NANOSECONDS = 100000, PIDS = 32768, PAGE = 4096, MOVE = 2,
       WHOLE_PASS = 1000000 };

/* ksmd sleeps for so many milliseconds, and wakes up where the number changes. */
static long sleep_millisecs = FIRST_SLEEP;
static char ksmd_stat[64];

/* What a script finds: what the kernel has at its start, or where that is of no use here another value. */
static struct { const char *name; long value; } knobs[] = {
	{ "merge_across_nodes", -1 }, { "max_page_sharing", -1 }, { "use_zero_pages", 0 }, { "smart_scan", 0 },
	{ "stable_node_chains_prune_millisecs", 0 }, { "run", -1 },
};
enum { KNOBS = sizeof knobs / sizeof *knobs };

/* Reads a small file as text. The number of bytes, or -1. */
static ssize_t read_text(const char *path, char *text, size_t size)
{
	int file = open(path, O_RDONLY);
	if (file < 0)
		return -1;
	ssize_t count = read(file, text, size - 1);
	close(file);
	text[count > 0 ? count : 0] = 0;
	return count;
}

long ksm_read(const char *name)
{
	char path[128], text[64];
	snprintf(path, sizeof path, FOLDER "%s", name);
	return read_text(path, text, sizeof text) > 0 ? atol(text) : -1;
}

int ksm_write(const char *name, long value)
{
	char path[128];
	snprintf(path, sizeof path, FOLDER "%s", name);
	int file = open(path, O_WRONLY);
	if (file < 0)
		return errno;
	int error = dprintf(file, "%ld", value) < 0 ? errno : 0;
	close(file);
	return error;
}

static int is_file(const struct dirent *entry)
{
	return *entry->d_name != '.';
}

void ksm_files(FILE *out)
{
	struct dirent **entries;
	int count = scandir(FOLDER, &entries, is_file, alphasort);
	if (count < 0)
		fail(FOLDER);
	for (int i = 0; i < count; i++) {
		fprintf(out, " %s", entries[i]->d_name);
		free(entries[i]);
	}
	free(entries);
}

void ksm_process(pid_t pid, FILE *out)
{
	char path[64], text[256], name[64];
	long value;
	int length;
	snprintf(path, sizeof path, "/proc/%d/ksm_merging_pages", pid);
	if (read_text(path, text, sizeof text) > 0)
		fprintf(out, " ksm_merging_pages=%ld", atol(text));
	snprintf(path, sizeof path, "/proc/%d/ksm_stat", pid);
	if (read_text(path, text, sizeof text) < 0)
		return;
	fprintf(out, " ksm_stat:");
	for (char *at = text; sscanf(at, "%63s %ld%n", name, &value, &length) == 2; at += length)
		fprintf(out, " %s=%ld", name, value);
}

long ksm_zero_pages_of_all(void)
{
	char path[64], text[256];
	struct dirent *entry;
	long all = 0;
	DIR *processes = opendir("/proc");
	while (processes && (entry = readdir(processes))) {
		snprintf(path, sizeof path, "/proc/%.16s/ksm_stat", entry->d_name);
		const char *found = read_text(path, text, sizeof text) > 0 ? strstr(text, "ksm_zero_pages ") : NULL;
		all += found ? atol(found + strlen("ksm_zero_pages ")) : 0;
	}
	closedir(processes);
	return all;
}

static void find_ksmd(void)
{
	char path[64], text[64];
	for (int pid = 1; pid < PIDS; pid++) {
		snprintf(path, sizeof path, "/proc/%d/comm", pid);
		if (read_text(path, text, sizeof text) > 0 && !strcmp(text, "ksmd\n")) {
			snprintf(ksmd_stat, sizeof ksmd_stat, "/proc/%d/stat", pid);
			return;
		}
	}
	fail("there is no ksmd");
}

/* Tells whether ksmd waits to be woken: then it has read how long it sleeps, and no wake-up is lost. */
static int ksmd_is_asleep(void)
{
	char text[512];
	if (read_text(ksmd_stat, text, sizeof text) < 0)
		fail("ksmd is gone");
	const char *state = strrchr(text, ')');
	return state && state[1] && state[2] == 'S';
}

void wait_for_ksmd(void)
{
	const struct timespec pause = { .tv_nsec = LOOK_NANOSECONDS };
	for (int look = 0; look < LOOKS; look++) {
		if (ksmd_is_asleep())
			return;
		nanosleep(&pause, NULL);
	}
	fail("ksmd does not come to rest");
}

/* A new page may lie in a list of the processor, whose reference keeps ksmd from merging it until the next pass. To
 * move a page empties these lists. */
static void drain_lists(void)
{
	static unsigned char page[2 * PAGE];
	void *moved = page + PAGE;
	int node = 0, status;
	page[PAGE] = 1;
	syscall(SYS_move_pages, 0, 1UL, &moved, &node, &status, MOVE);
}

void ksmd_batch(unsigned long steps)
{
	wait_for_ksmd();
	drain_lists();
	ksm_write("pages_to_scan", (long)steps);
	ksm_write("sleep_millisecs", ++sleep_millisecs);
	wait_for_ksmd();
	ksm_write("pages_to_scan", 0);
	trace_counters();
}

unsigned long ksm_start(void)
{
	long visits = ksm_read("pages_to_scan");
	find_ksmd();
	for (size_t i = 0; i < KNOBS; i++)
		if (knobs[i].value < 0)
			knobs[i].value = ksm_read(knobs[i].name);
	ksm_write("pages_to_scan", 0);
	return (unsigned long)visits;
}

/* A pass with merge_across_nodes 0, over a process that has an area and no page in it: as it begins all unstable trees
 * are emptied. Else that of the second node keeps what earlier scripts left in it, and the kernel may read it long
 * after it was freed. */
static void empty_trees(void)
{
	pid_t child = fork();
	if (child < 0)
		fail("no process to empty the trees");
	if (!child) {
		void *area = mmap(NULL, PAGE, PROT_READ | PROT_WRITE, MAP_PRIVATE | MAP_ANONYMOUS, -1, 0);
		_exit(madvise(area, PAGE, MADV_MERGEABLE) || raise(SIGSTOP));
	}
	waitpid(child, NULL, WUNTRACED);
	if (ksm_write("merge_across_nodes", 0) || ksm_write("run", 1))
		fail("a pass between scripts can't be made");
	ksmd_batch(WHOLE_PASS);
	kill(child, SIGKILL);
	waitpid(child, NULL, 0);
	if (ksm_write("run", 2))
		fail("not all pages could be unmerged");
}

void ksm_reset(void)
{
	ksm_write("run", 0);
	if (ksm_write("run", 2))
		fail("not all pages could be unmerged");
	empty_trees();
	for (size_t i = 0; i < KNOBS; i++) {
		int error = ksm_write(knobs[i].name, knobs[i].value);
		if (error && error != ENOENT)
			fail("a knob could not be set again");
	}
	ksm_write("sleep_millisecs", ++sleep_millisecs);
}
