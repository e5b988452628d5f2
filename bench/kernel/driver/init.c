/* The only program of the machine: it runs each script of the folder /scripts under the kernel's own ksmd,
 * and writes the replies to the second serial line.
 *
 * Beside NAME.ksm there may be NAME.setup, lines of a file of /sys/kernel/mm/ksm and a number, which are
 * written before the script is run. A file that the kernel does not have is left out. A file `trace` says what is
 * traced meanwhile. */

#include <dirent.h>
#include <errno.h>
#include <fcntl.h>
#include <stdio.h>
#include <stdlib.h>
#include <string.h>
#include <sys/mount.h>
#include <sys/reboot.h>
#include <sys/utsname.h>
#include <termios.h>
#include <unistd.h>

#include "fail.h"
#include "ksm.h"
#include "script.h"
#include "trace.h"

#define FOLDER "/scripts/"

enum { TEXT = 1 << 20 };

static FILE *replies;

static _Noreturn void stop(const char *last)
{
	if (replies) {
		fprintf(replies, "%s\n", last);
		fflush(replies);
		tcdrain(fileno(replies));
	}
	reboot(RB_POWER_OFF);
	for (;;)
		pause();
}

_Noreturn void fail(const char *what)
{
	char last[256];
	snprintf(last, sizeof last, "failed: %s", what);
	stop(last);
}

static void mount_all(void)
{
	if (mount("proc", "/proc", "proc", 0, NULL) || mount("sysfs", "/sys", "sysfs", 0, NULL)
	    || mount("dev", "/dev", "devtmpfs", 0, NULL))
		fail("a file system can't be mounted");
}

/* The bytes go out as they are. */
static void open_replies(void)
{
	struct termios line;
	replies = fopen("/dev/ttyS1", "w");
	if (!replies || tcgetattr(fileno(replies), &line))
		fail("no second serial line");
	cfmakeraw(&line);
	cfsetspeed(&line, B115200);
	tcsetattr(fileno(replies), TCSANOW, &line);
}

/* Reads a file whole. NULL where there is none. */
static char *read_file(const char *path)
{
	static char text[TEXT];
	FILE *file = fopen(path, "r");
	if (!file)
		return NULL;
	text[fread(text, 1, sizeof text - 1, file)] = 0;
	fclose(file);
	return text;
}

static void write_knob(const char *line)
{
	char name[64];
	long value;
	if (sscanf(line, "%63s %ld", name, &value) != 2)
		return;
	int error = ksm_write(name, value);
	if (error && error != ENOENT)
		fail("a knob of a setup can't be set");
}

static void set_up(const char *script)
{
	char path[512];
	snprintf(path, sizeof path, FOLDER "%.*s.setup", (int)(strrchr(script, '.') - script), script);
	char *text = read_file(path);
	for (char *line; text && (line = strsep(&text, "\n")); )
		write_knob(line);
}

/* The console tells which script runs, among all that the kernel reports there. */
static void announce(const char *script)
{
	char line[512];
	int length = snprintf(line, sizeof line, "<2>ksmbook: script %s\n", script);
	int log = open("/dev/kmsg", O_WRONLY | O_CLOEXEC);
	if (log < 0 || write(log, line, (size_t)length) != length)
		fail("the kernel's log can't be written");
	close(log);
}

static void run(const char *script, unsigned long visits)
{
	char path[512];
	snprintf(path, sizeof path, FOLDER "%s", script);
	announce(script);
	ksm_reset();
	set_up(script);
	fprintf(replies, "script %s\n", script);
	fflush(replies);
	trace_counters();
	script_run(read_file(path), visits, replies);
	trace_copy(replies);
	fflush(replies);
}

static int is_script(const struct dirent *entry)
{
	const char *dot = strrchr(entry->d_name, '.');
	return dot && !strcmp(dot, ".ksm");
}

int main(void)
{
	struct dirent **scripts;
	struct utsname system;
	mount_all();
	open_replies();
	uname(&system);
	fprintf(replies, "linux %s %s\n", system.release, system.version);
	trace_start();
	unsigned long visits = ksm_start();
	int count = scandir(FOLDER, &scripts, is_script, alphasort);
	for (int i = 0; i < count; i++)
		run(scripts[i]->d_name, visits);
	stop("end");
}
