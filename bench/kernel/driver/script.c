#include "script.h"

#include <errno.h>
#include <stdbool.h>
#include <stdlib.h>
#include <string.h>

#include "fail.h"
#include "guest.h"
#include "ksm.h"

enum { PAGES = 4096, GUESTS = 256, WORDS = 6, NODES = 2, WHOLE_PASS = 1000000 };

/* What the language calls refusals, as far as they are met here. */
enum refusal {
	UNKNOWN_PAGE = 2, ALREADY_REGISTERED = 3, NOT_RUNNING = 5, SHARED_PAGES = 6, BAD_VALUE = 7, IN_USE = 8,
	UNKNOWN_PLACE = 10, BAD_NODE = 11
};

/* A page that the script registers somewhere. */
struct page {
	unsigned long guest, number;
	struct guest *owner;
	size_t slot;
	bool is_registered, is_mergeable;
	int home;
	uint64_t first_frame;
};

static struct page pages[PAGES];
static struct guest guests[GUESTS];
static size_t page_count, guest_count;
static FILE *out;
static unsigned long visits;
static bool at_pass_start;
static struct page *held;

/* The pages, in order. */

static int in_order(const void *left, const void *right)
{
	const struct page *a = left, *b = right;
	if (a->guest != b->guest)
		return a->guest < b->guest ? -1 : 1;
	return (a->number > b->number) - (a->number < b->number);
}

static struct page *find(const char *guest, const char *number)
{
	struct page key = { .guest = strtoul(guest, NULL, 10), .number = strtoul(number, NULL, 10) };
	return bsearch(&key, pages, page_count, sizeof *pages, in_order);
}

/* The page, where it is registered. */
static struct page *registered(const char *guest, const char *number)
{
	struct page *page = find(guest, number);
	return page && page->is_registered ? page : NULL;
}

static struct guest *guest_of(const char *number)
{
	unsigned long wanted = strtoul(number, NULL, 10);
	for (size_t i = 0; i < page_count; i++)
		if (pages[i].is_registered && pages[i].guest == wanted)
			return pages[i].owner;
	return NULL;
}

static uint64_t frame_of(const struct page *page)
{
	return page->is_registered ? guest_frame(page->owner, page->slot) : 0;
}

static bool is_merged(const struct page *page)
{
	return page->is_registered && guest_is_merged(page->owner, page->slot);
}

/* Tells whether a page has no frame of its own: it is merged, or mapped from the zero page. */
static bool is_shared(const struct page *page)
{
	return is_merged(page) || (page->is_registered && guest_is_zero(page->owner, page->slot));
}

static size_t count_shared(void)
{
	size_t count = 0;
	for (size_t i = 0; i < page_count; i++)
		count += is_shared(&pages[i]);
	return count;
}

static size_t count_mergeable(void)
{
	size_t count = 0;
	for (size_t i = 0; i < page_count; i++)
		count += pages[i].is_registered && pages[i].is_mergeable;
	return count;
}

/* Moves each page that has a frame of its own to its home. The kernel gives frames where it likes. */
static void bring_home(void)
{
	for (size_t i = 0; i < page_count; i++) {
		struct page *page = &pages[i];
		if (page->is_registered && !is_shared(page) && guest_node(page->owner, page->slot) != page->home
		    && !guest_move(page->owner, page->slot, page->home, false))
			fail("a page does not come home");
	}
}

/* Replies. */

static void say(const char *text)
{
	fprintf(out, "%s\n", text);
}

static void refuse(enum refusal why)
{
	fprintf(out, "refused %d\n", why);
}

static void say_error(int error)
{
	if (!error)
		say("ok");
	else if (error == EBUSY)
		refuse(SHARED_PAGES);
	else if (error == EINVAL)
		refuse(BAD_VALUE);
	else
		fprintf(out, "error %s\n", strerror(error));
}

static void say_content(const unsigned char content[CONTENT])
{
	for (size_t i = 0; i < CONTENT; i++)
		fprintf(out, "%02x", content[i]);
	say("");
}

/* Reads 2 digits, which fill all bytes, or two for each byte. */
static void read_content(const char *digits, unsigned char content[CONTENT])
{
	bool is_short = strlen(digits) == 2;
	for (size_t i = 0; i < CONTENT; i++)
		if (sscanf(digits + (is_short ? 0 : 2 * i), "%2hhx", &content[i]) != 1)
			fail("no digits of a page");
}

static bool is_node(const char *node)
{
	return strtoul(node, NULL, 10) < NODES;
}

/* The lines. Each gets its words behind the first. */

static void do_reg(char **words)
{
	struct page *page = find(words[0], words[1]);
	unsigned char content[CONTENT];
	if (!is_node(words[2]))
		return refuse(BAD_NODE);
	if (page->is_registered)
		return refuse(ALREADY_REGISTERED);
	read_content(words[3], content);
	page->home = atoi(words[2]);
	page->is_registered = page->is_mergeable = true;
	int error = guest_mark(page->owner, page->slot, 1, true);
	guest_store(page->owner, page->slot, page->home, content);
	page->first_frame = frame_of(page);
	say_error(error);
}

static void do_drop(char **words)
{
	struct page *page = registered(words[0], words[1]);
	if (!page)
		return refuse(UNKNOWN_PAGE);
	guest_discard(page->owner, page->slot);
	page->is_registered = false;
	say("ok");
}

static void do_put(char **words)
{
	struct page *page = registered(words[0], words[1]);
	unsigned char content[CONTENT];
	if (!page)
		return refuse(UNKNOWN_PAGE);
	read_content(words[2], content);
	guest_store(page->owner, page->slot, page->home, content);
	say("ok");
}

static void do_get(char **words)
{
	struct page *page = registered(words[0], words[1]);
	unsigned char content[CONTENT];
	if (!page)
		return refuse(UNKNOWN_PAGE);
	if (!guest_load(page->owner, page->slot, content))
		return say("torn");
	say_content(content);
}

static void do_ticket(char **words)
{
	struct page *page = registered(words[0], words[1]), *first = pages;
	if (!page)
		return refuse(UNKNOWN_PAGE);
	if (!is_merged(page))
		return say("private");
	uint64_t frame = frame_of(page);
	while (frame_of(first) != frame)
		first++;
	fprintf(out, "place %lu:%lu\n", first->guest, first->number);
}

/* The page by which a line names a place, where it is merged. */
static struct page *at_place(char *word)
{
	char *colon = strchr(word, ':');
	if (!colon)
		return NULL;
	struct page *page = registered(word, colon + 1);
	return page && is_merged(page) ? page : NULL;
}

static void do_rmap(char **words)
{
	struct page *page = at_place(words[0]);
	if (!page)
		return refuse(UNKNOWN_PLACE);
	uint64_t frame = frame_of(page);
	fprintf(out, "rmap");
	for (size_t i = 0; i < page_count; i++)
		if (frame_of(&pages[i]) == frame)
			fprintf(out, " %lu:%lu", pages[i].guest, pages[i].number);
	say("");
}

/* Whole passes are batches that end with the pass; the rest is a batch of so many steps. */
static void do_scan(char **words)
{
	unsigned long wanted = words[0] ? strtoul(words[0], NULL, 10) : visits, left = wanted;
	unsigned long in_a_pass = count_mergeable();
	if (ksm_read("run") != 1)
		return refuse(NOT_RUNNING);
	if (!in_a_pass && wanted) {
		ksmd_batch(WHOLE_PASS);
		return say("scanned 0");
	}
	for (; at_pass_start && left && left >= in_a_pass; left -= in_a_pass)
		ksmd_batch(WHOLE_PASS);
	if (left) {
		long passes = ksm_read("full_scans");
		ksmd_batch(left);
		at_pass_start = ksm_read("full_scans") != passes;
	}
	fprintf(out, "scanned %lu\n", wanted);
}

/* A line that Linux does not have. */
static void do_nothing(char **words)
{
	(void)words;
	say("-");
}

static void do_unmerge(char **words)
{
	struct guest *guest = guest_of(words[0]);
	size_t before = count_shared();
	if (!guest)
		return refuse(UNKNOWN_PAGE);
	int error = guest_mark(guest, 0, guest->slots, false);
	if (error)
		return say_error(error);
	fprintf(out, "unmerged %zu\n", before - count_shared());
	bring_home();
	for (size_t i = 0; i < page_count; i++)
		if (pages[i].owner == guest)
			pages[i].is_mergeable = false;
}

static void do_mergeable(char **words)
{
	struct guest *guest = guest_of(words[0]);
	if (!guest)
		return refuse(UNKNOWN_PAGE);
	say_error(guest_mark(guest, 0, guest->slots, true));
	for (size_t i = 0; i < page_count; i++)
		if (pages[i].owner == guest)
			pages[i].is_mergeable = true;
}

static void do_move(char **words)
{
	struct page *page = registered(words[0], words[1]);
	int node = atoi(words[2]);
	if (!is_node(words[2]))
		return refuse(BAD_NODE);
	if (!page)
		return refuse(UNKNOWN_PAGE);
	if (node != page->home && is_shared(page))
		guest_touch(page->owner, page->slot, node);
	else if (node != page->home && !guest_move(page->owner, page->slot, node, false))
		return say("error not moved");
	page->home = node;
	say("ok");
}

static void do_movedup(char **words)
{
	struct page *page = at_place(words[0]);
	if (!is_node(words[1]))
		return refuse(BAD_NODE);
	if (!page)
		return refuse(UNKNOWN_PLACE);
	if (!guest_move(page->owner, page->slot, atoi(words[1]), true))
		return refuse(IN_USE);
	say("ok");
}

/* ksmd's own number of visits is 0 except in a batch, so the script's is kept here. */
static void set_visits(long value)
{
	wait_for_ksmd();
	int error = ksm_write("pages_to_scan", value);
	if (!error)
		visits = (unsigned long)ksm_read("pages_to_scan");
	ksm_write("pages_to_scan", 0);
	say_error(error);
}

static void set_run(long value)
{
	size_t before = count_shared();
	int error = ksm_write("run", value);
	if (error || value != 2)
		return say_error(error);
	fprintf(out, "unmerged %zu\n", before - count_shared());
	bring_home();
	at_pass_start = true;
}

static void do_set(char **words)
{
	long value = atol(words[1]);
	if (!strcmp(words[0], "pages_to_scan"))
		set_visits(value);
	else if (!strcmp(words[0], "run"))
		set_run(value);
	else
		say_error(ksm_write(words[0], value));
}

static void do_show(char **words)
{
	bool is_visits = !strcmp(words[0], "pages_to_scan");
	fprintf(out, "%ld\n", is_visits ? (long)visits : ksm_read(words[0]));
}

static void do_stat(char **words)
{
	(void)words;
	fprintf(out, "stat shared=%ld sharing=%ld unshared=%ld volatile=%ld chains=%ld dups=%ld full_scans=%ld\n",
		ksm_read("pages_shared"), ksm_read("pages_sharing"), ksm_read("pages_unshared"),
		ksm_read("pages_volatile"), ksm_read("stable_node_chains"), ksm_read("stable_node_dups"),
		ksm_read("full_scans"));
}

/* Lines for Linux alone. */

/* Where each page lies: a frame is named by the page that was registered on it, if there is one. */
static void do_frames(char **words)
{
	(void)words;
	fprintf(out, "frames");
	for (size_t i = 0; i < page_count; i++) {
		const struct page *page = &pages[i], *first = pages;
		if (!page->is_registered)
			continue;
		while (first < pages + page_count && first->first_frame != frame_of(page))
			first++;
		fprintf(out, " %lu:%lu=", page->guest, page->number);
		if (first < pages + page_count)
			fprintf(out, "%lu:%lu", first->guest, first->number);
		else
			fprintf(out, "new");
	}
	say("");
}

static void do_hold(char **words)
{
	held = registered(words[0], words[1]);
	if (!held)
		return refuse(UNKNOWN_PAGE);
	guest_hold(held->owner, held->slot);
	say("ok");
}

/* The bytes that the page had when it was held. */
static void do_look(char **words)
{
	unsigned char content[CONTENT];
	(void)words;
	if (!held)
		return say("nothing is held");
	guest_look(held->owner, content);
	say_content(content);
}

static void do_leave(char **words)
{
	(void)words;
	if (held)
		guest_leave(held->owner);
	held = NULL;
	say("ok");
}

/* Each file of /sys/kernel/mm/ksm. */
static void do_files(char **words)
{
	(void)words;
	fprintf(out, "files");
	ksm_files(out);
	say("");
}

/* What the kernel tells of a guest's process. */
static void do_process(char **words)
{
	struct guest *guest = guest_of(words[0]);
	if (!guest)
		return refuse(UNKNOWN_PAGE);
	fprintf(out, "process");
	ksm_process(guest->pid, out);
	say("");
}

static void do_markall(char **words)
{
	struct guest *guest = guest_of(words[0]);
	if (!guest)
		return refuse(UNKNOWN_PAGE);
	say_error(guest_mark_all(guest));
}

static void do_fork(char **words)
{
	struct guest *guest = guest_of(words[0]);
	if (!guest || guest->has_copy)
		return refuse(UNKNOWN_PAGE);
	guest_fork(guest);
	say("ok");
}

static const struct { const char *name; int words; void (*act)(char **); } forms[] = {
	{ "reg", 5, do_reg }, { "drop", 3, do_drop }, { "put", 4, do_put }, { "get", 3, do_get },
	{ "ticket", 3, do_ticket }, { "rmap", 2, do_rmap }, { "scan", 1, do_scan }, { "scan", 2, do_scan },
	{ "nothing", 1, do_nothing }, { "unmerge", 2, do_unmerge }, { "mergeable", 2, do_mergeable },
	{ "move", 4, do_move }, { "movedup", 3, do_movedup }, { "set", 3, do_set }, { "show", 2, do_show },
	{ "stat", 1, do_stat }, { "frames", 1, do_frames }, { "hold", 3, do_hold }, { "look", 1, do_look },
	{ "leave", 1, do_leave }, { "files", 1, do_files }, { "process", 2, do_process },
	{ "markall", 2, do_markall }, { "fork", 2, do_fork },
};

/* Splits a line into its words. */
static int split(char *line, char **words)
{
	int count = 0;
	char *rest = line;
	for (char *word; count < WORDS && (word = strsep(&rest, " ")); )
		words[count++] = word;
	return count;
}

static void answer(char *line)
{
	char *words[WORDS + 1] = { 0 };
	int count = split(line, words);
	for (size_t i = 0; i < sizeof forms / sizeof *forms; i++)
		if (!strcmp(words[0], forms[i].name) && count == forms[i].words)
			return forms[i].act(words + 1);
	say("no line");
}

/* What comes before the first line and after the last. */

/* Notes each page that the script registers. */
static void note_pages(const char *text)
{
	page_count = 0;
	for (const char *line = text; line; line = strchr(line, '\n') ? strchr(line, '\n') + 1 : NULL) {
		struct page page = { 0 };
		if (sscanf(line, "reg %lu %lu", &page.guest, &page.number) != 2)
			continue;
		if (page_count == PAGES)
			fail("too many pages");
		pages[page_count++] = page;
	}
	qsort(pages, page_count, sizeof *pages, in_order);
}

/* Leaves each page once, and gives it its guest and slot. Guests start in order, so ksmd visits them in it. */
static void start_guests(void)
{
	size_t kept = 0;
	guest_count = 0;
	for (size_t i = 0; i < page_count; i++) {
		if (kept && !in_order(&pages[kept - 1], &pages[i]))
			continue;
		if (!guest_count || guests[guest_count - 1].number != pages[i].guest) {
			if (guest_count == GUESTS)
				fail("too many guests");
			guests[guest_count++] = (struct guest){ .number = pages[i].guest };
		}
		struct guest *owner = &guests[guest_count - 1];
		pages[kept] = pages[i];
		pages[kept].owner = owner;
		pages[kept++].slot = owner->slots++;
	}
	page_count = kept;
	for (size_t i = 0; i < guest_count; i++)
		guest_start(&guests[i]);
}

void script_run(char *text, unsigned long first_visits, FILE *replies)
{
	out = replies;
	visits = first_visits;
	at_pass_start = true;
	held = NULL;
	note_pages(text);
	start_guests();
	for (char *line; (line = strsep(&text, "\n")); )
		if (*line)
			answer(line);
	for (size_t i = 0; i < guest_count; i++)
		guest_end(&guests[i]);
}
