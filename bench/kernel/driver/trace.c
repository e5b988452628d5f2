#include "trace.h"

#include <fcntl.h>
#include <stdbool.h>
#include <string.h>
#include <sys/mount.h>
#include <unistd.h>

#include "fail.h"
#include "ksm.h"

#define ORDERS "/scripts/trace"
#define FOLDER "/sys/kernel/tracing/"

static bool is_traced;

static void append(const char *name, const char *text)
{
	char path[256];
	snprintf(path, sizeof path, FOLDER "%s", name);
	int file = open(path, O_WRONLY | O_APPEND);
	if (file < 0 || write(file, text, strlen(text)) < 0)
		fail(path);
	close(file);
}

/* The events of ksm came with Linux 6.3: where there are none, the line for them is passed over. */
static bool is_there(const char *name)
{
	return strcmp(name, "events/ksm/enable") || !access(FOLDER "events/ksm", F_OK);
}

void trace_start(void)
{
	char line[512];
	FILE *orders = fopen(ORDERS, "r");
	if (!orders)
		return;
	if (mount("tracefs", FOLDER, "tracefs", 0, NULL))
		fail("there is no tracefs");
	while (fgets(line, sizeof line, orders)) {
		char *text = strchr(line, ' ');
		if (!text)
			fail("an order for the trace has no text");
		*text++ = 0;
		if (is_there(line))
			append(line, text);
	}
	fclose(orders);
	append("trace_marker", "ksm: nobody entered\n");
	is_traced = true;
}

void trace_counters(void)
{
	char text[256];
	if (!is_traced)
		return;
	append("trace_marker", "ksm: read at rest\n");
	snprintf(text, sizeof text, "ksm: full_scans=%ld pages_shared=%ld pages_sharing=%ld max_page_sharing=%ld "
		"stable_node_dups=%ld ksm_zero_pages=%ld zero=%ld\n", ksm_read("full_scans"), ksm_read("pages_shared"),
		ksm_read("pages_sharing"), ksm_read("max_page_sharing"), ksm_read("stable_node_dups"),
		ksm_read("ksm_zero_pages"), ksm_read("ksm_zero_pages") < 0 ? -1 : ksm_zero_pages_of_all());
	append("trace_marker", text);
}

void trace_copy(FILE *replies)
{
	char line[512];
	if (!is_traced)
		return;
	FILE *trace = fopen(FOLDER "trace", "r");
	if (!trace)
		fail("the trace can't be read");
	while (fgets(line, sizeof line, trace))
		if (*line != '#')
			fprintf(replies, "trace %s", line);
	fclose(trace);
	close(open(FOLDER "trace", O_WRONLY | O_TRUNC));
}
