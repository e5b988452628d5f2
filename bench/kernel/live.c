/* The first program of a machine on which ksmd runs freely: processes whose pages it merges write, discard, fork,
 * move, unmerge and exit, while `examples/trace --live` looks on. What that prints goes to the second serial line.
 *
 * Its argument is how many seconds. */

#include <dirent.h>
#include <fcntl.h>
#include <stdbool.h>
#include <stdio.h>
#include <stdlib.h>
#include <string.h>
#include <sys/mman.h>
#include <sys/mount.h>
#include <sys/reboot.h>
#include <sys/syscall.h>
#include <sys/wait.h>
#include <unistd.h>

#define TRACING "/sys/kernel/tracing/"

enum { PAGE = 4096, PAGES = 256, CONTENTS = 6, WORKERS = 4, NODES = 2, MOVE_ALL = 4, TURNS = 1000 };

static const char *const knobs[][2] = {
	{ "run", "1" }, { "max_page_sharing", "8" }, { "use_zero_pages", "1" }, { "pages_to_scan", "200" },
	{ "sleep_millisecs", "50" }, { "stable_node_chains_prune_millisecs", "100" },
};

static void put(const char *name, const char *text)
{
	char path[128];
	snprintf(path, sizeof path, "/sys/kernel/mm/ksm/%s", name);
	int file = open(path, O_WRONLY);
	if (file >= 0 && write(file, text, strlen(text)) < 0)
		perror(path);
	close(file);
}

static bool chance(int one_in)
{
	return rand() % one_in == 0;
}

static void turn(unsigned char *area)
{
	unsigned char *page = area + (size_t)(rand() % PAGES) * PAGE;
	void *moved = page;
	int node = rand() % NODES, status;
	memset(page, rand() % CONTENTS, PAGE);
	if (chance(20))
		madvise(page, 8 * PAGE, MADV_DONTNEED);
	if (chance(50))
		syscall(SYS_move_pages, 0, 1UL, &moved, &node, &status, MOVE_ALL);
	if (chance(300)) {
		madvise(area, PAGES / 2 * PAGE, MADV_UNMERGEABLE);
		madvise(area, PAGES / 2 * PAGE, MADV_MERGEABLE);
	}
	if (chance(300) && !fork()) {
		usleep(300000);
		_exit(0);
	}
	while (waitpid(-1, NULL, WNOHANG) > 0)
		;
	usleep(chance(10) ? 50000 : 5000);
}

static void work(int seed)
{
	srand((unsigned)seed);
	unsigned char *area = mmap(NULL, (PAGES + 8) * PAGE, PROT_READ | PROT_WRITE, MAP_PRIVATE | MAP_ANONYMOUS, -1, 0);
	madvise(area, PAGES * PAGE, MADV_MERGEABLE);
	for (int i = 0; i < PAGES; i++)
		memset(area + (size_t)i * PAGE, rand() % CONTENTS, PAGE);
	for (int turns = rand() % TURNS; turns >= 0; turns--)
		turn(area);
	_exit(0);
}

/* Keeps so many workers, and unmerges all pages now and then. */
static void keep_busy(void)
{
	int seed = 0;
	for (int workers = 0;; workers--) {
		for (; workers < WORKERS; workers++)
			if (!fork())
				work(++seed * WORKERS + workers);
		waitpid(-1, NULL, 0);
		if (chance(3)) {
			put("run", "2");
			put("run", "1");
		}
		seed++;
	}
}

/* The tool takes away its probes and its instance. */
static void tell_what_is_left(int replies)
{
	char text[256];
	struct dirent *entry;
	int probes = open(TRACING "kprobe_events", O_RDONLY);
	if (probes < 0 || read(probes, text, sizeof text) != 0)
		dprintf(replies, "left: probes\n");
	DIR *instances = opendir(TRACING "instances");
	while (instances && (entry = readdir(instances)))
		if (*entry->d_name != '.')
			dprintf(replies, "left: instance %s\n", entry->d_name);
}

int main(int count, char **words)
{
	mount("proc", "/proc", "proc", 0, NULL);
	mount("sysfs", "/sys", "sysfs", 0, NULL);
	mount("dev", "/dev", "devtmpfs", 0, NULL);
	mount("tracefs", TRACING, "tracefs", 0, NULL);
	mount("tmpfs", "/tmp", "tmpfs", 0, NULL);
	for (size_t i = 0; i < sizeof knobs / sizeof *knobs; i++)
		put(knobs[i][0], knobs[i][1]);
	pid_t busy = fork();
	if (!busy)
		keep_busy();
	int replies = open("/dev/ttyS1", O_WRONLY);
	pid_t looker = fork();
	if (!looker) {
		dup2(replies, 1);
		dup2(replies, 2);
		execl("/python", "/python", "/trace", "--live", "--seconds", count > 1 ? words[1] : "20", NULL);
		perror("/python");
		_exit(1);
	}
	waitpid(looker, NULL, 0);
	tell_what_is_left(replies);
	dprintf(replies, "end\n");
	usleep(300000);
	reboot(RB_POWER_OFF);
	for (;;)
		pause();
}
