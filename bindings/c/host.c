/*
 * A book as large as the library allows, while threads look its pages up: host [PAGES FRAMES READERS SECONDS].
 *
 * PAGES distinct pages, an even number, are laid on FRAMES frames of NODES nodes (four), scanned, made equal in pairs, merged, stored to and dropped, and in
 * between for SECONDS pages come and go, are stored to and merged; meanwhile READERS threads look places up, and read what they hold twice. Each page
 * tells in its words which content it is, so a hold of another life would show words of two contents. Where no numbers are given they are those of
 * this library: frames for each page and some over, as many readers as it has passes, and 10 seconds.
 *
 * Prints a line for each kind of command, `count KIND COMMANDS NANOSECONDS`, then `memory KIND BYTES`, and `readers LOOKUPS HELD WRONG`. Under
 * callgrind it dumps the instructions of each kind by its name (bench/host reads them). Ends with 1 if a hold was wrong, a command was refused, or
 * the counters are not those that follow.
 */
#include "ksmbook.h"

#include <malloc.h>
#include <pthread.h>
#include <stdatomic.h>
#include <stdio.h>
#include <stdlib.h>
#include <string.h>
#include <time.h>

#if defined(__has_include)
#if __has_include(<valgrind/callgrind.h>)
#include <valgrind/callgrind.h>
#endif
#endif
#ifndef CALLGRIND_ZERO_STATS
#define CALLGRIND_ZERO_STATS
#define CALLGRIND_DUMP_STATS_AT(name)
#endif

#ifndef NODES
#define NODES 4
#endif
#define PER_GUEST 1000000
#define SOME 10000 /* commands of a kind that is counted */

static ksm_table book;
static uint64_t page_count, frame_count;
static uint64_t *contents; /* of each page, 0 where it is not there */
static atomic_int done;

static void must(uint32_t answer, const char *what) {
    if (answer != KSM_DONE) {
        fprintf(stderr, "host: %s: %s\n", what, ksm_strerror(answer));
        exit(1);
    }
}

static void is(uint64_t seen, uint64_t wanted, const char *what) {
    if (seen != wanted) {
        fprintf(stderr, "host: %s: %llu, not %llu\n", what, (unsigned long long)seen, (unsigned long long)wanted);
        exit(1);
    }
}

static uint64_t nanoseconds(void) {
    struct timespec now;
    timespec_get(&now, TIME_UTC);
    return (uint64_t)now.tv_sec * 1000000000u + (uint64_t)now.tv_nsec;
}

static uint64_t taken(void) {
    struct mallinfo2 now = mallinfo2();
    return now.uordblks + now.hblkhd;
}

static void fill(uint64_t words[KSM_PAGE_WORDS], uint64_t content) {
    for (uint64_t i = 0; i < KSM_PAGE_WORDS; i++)
        words[i] = content * (2 * i + 1) + i;
}

static int is_whole(const uint64_t words[KSM_PAGE_WORDS]) {
    for (uint64_t i = 0; i < KSM_PAGE_WORDS; i++)
        if (words[i] != words[0] * (2 * i + 1) + i)
            return 0;
    return 1;
}

/* The commands. */
static ksm_made apply(const ksm_command *command, const char *what) {
    ksm_made made;
    must(ksm_book_apply(&book, command, &made), what);
    return made;
}

static void valued(uint16_t kind, uint32_t value) {
    ksm_command command = {.kind = kind, .value = value};
    apply(&command, "a knob");
}

/* A command of a page, whose pair is at home on the same node. Answers whether it was done: else the readers held frames so that none was free. */
static int tried(uint16_t kind, uint64_t page, uint64_t content) {
    ksm_command command = {.kind = kind, .guest = (uint16_t)(page / PER_GUEST), .page = (uint32_t)(page % PER_GUEST)};
    ksm_made made;
    command.node = (uint32_t)(page / 2 % NODES);
    fill(command.bytes, content);
    uint32_t answer = ksm_book_apply(&book, &command, &made);
    if (answer == KSM_NO_FRAME)
        return 0;
    must(answer, kind == KSM_REGISTER ? "a registration" : kind == KSM_STORE ? "a store" : "a drop");
    contents[page] = kind == KSM_DROP ? 0 : content;
    return 1;
}

static void of_page(uint16_t kind, uint64_t page, uint64_t content) {
    if (!tried(kind, page, content))
        must(KSM_NO_FRAME, "a command of a page");
}

static void scan(uint64_t visits) {
    ksm_command command = {.kind = KSM_SCAN, .visits = visits};
    is(apply(&command, "a scan").stop, 0, "a scan stopped");
}

static void read_page(uint64_t page) {
    uint64_t words[KSM_PAGE_WORDS], wanted[KSM_PAGE_WORDS];
    must(ksm_book_read(&book, (uint16_t)(page / PER_GUEST), (uint32_t)(page % PER_GUEST), words), "a read");
    fill(wanted, contents[page]);
    is(memcmp(words, wanted, sizeof words), 0, "a page does not read what was stored");
}

static ksm_counters counters(void) {
    ksm_counters found;
    must(ksm_book_counters(&book, &found), "ksm_book_counters");
    return found;
}

/* What a kind of command costs. */
static uint64_t begun;

static void begin(void) {
    CALLGRIND_ZERO_STATS;
    begun = nanoseconds();
}

#define END(kind, commands) end(kind, commands, nanoseconds()); CALLGRIND_DUMP_STATS_AT(kind)

static void end(const char *kind, uint64_t commands, uint64_t now) {
    printf("count %s %llu %llu\n", kind, (unsigned long long)commands, (unsigned long long)(now - begun));
    fflush(stdout);
}

/* A number that no page had as its content before. */
static uint64_t fresh(void) {
    static uint64_t last = 1;
    return ++last;
}

/* Page k of some, far from one another, and each once. */
static uint64_t spread(uint64_t k, uint64_t count) {
    return k * (page_count / count);
}

static void lay(void) {
    uint64_t before = taken(), some = page_count < SOME ? page_count : SOME;
    for (uint64_t page = 0; page < page_count - some; page++)
        of_page(KSM_REGISTER, page, fresh());
    begin();
    for (uint64_t page = page_count - some; page < page_count; page++)
        of_page(KSM_REGISTER, page, fresh());
    END("register", some);
    printf("memory laid %llu\n", (unsigned long long)((taken() - before) / page_count));
    valued(KSM_SET_LIMIT, 1024);
    valued(KSM_SET_RUN, 1);
    scan(page_count);
    begin();
    scan(page_count);
    END("waits", page_count);
    begin();
    scan(2 * page_count);
    END("visit", 2 * page_count);
    is(counters().unshared, page_count, "pages that wait");
    /* With what is known of the content of each by now. */
    printf("memory page %llu\n", (unsigned long long)((taken() - before) / page_count));
}

static void store_and_read(void) {
    uint64_t some = page_count < SOME ? page_count : SOME;
    begin();
    for (uint64_t k = 0; k < some; k++)
        of_page(KSM_STORE, spread(k, some), fresh());
    END("store", some);
    begin();
    for (uint64_t k = 0; k < some; k++)
        read_page(spread(k, some));
    END("read", some);
}

/* Each second page gets the content of the one before, and both are merged. */
static void merge(void) {
    uint64_t pairs = page_count / 2;
    for (uint64_t k = 0; k < pairs; k++)
        of_page(KSM_STORE, 2 * k + 1, contents[2 * k]);
    scan(page_count);
    begin();
    scan(2 * page_count);
    END("merge", pairs);
    is(counters().shared, pairs, "merged frames");
    is(counters().sharing, pairs, "merged pages");
    begin();
    scan(1000 * page_count);
    END("settled", 1000);
}

/* A merge leaves a frame dying, until a store takes a frame of its node: the first on each node is counted by the frames that it reaps. */
static void store_to_merged(void) {
    uint64_t pairs = page_count / 2, some = page_count / 64 < SOME ? page_count / 64 : SOME, apart = 2 * (pairs / some);
    begin();
    for (uint64_t node = 0; node < NODES; node++)
        of_page(KSM_STORE, 2 * node, fresh());
    END("reap", pairs);
    begin();
    for (uint64_t k = 1; k < some; k++)
        of_page(KSM_STORE, k * apart, fresh());
    END("copy", some - 1);
    for (uint64_t node = 0; node < NODES; node++)
        of_page(KSM_STORE, 2 * node, contents[2 * node + 1]);
    for (uint64_t k = 1; k < some; k++)
        of_page(KSM_STORE, k * apart, contents[k * apart + 1]);
    scan(3 * page_count);
}

static uint64_t drawn(uint64_t *seed, uint64_t below) {
    *seed = *seed * 6364136223846793005u + 1442695040888963407u;
    return (*seed >> 33) % below;
}

/* Pages come and go, are stored to and merged, until the time is over. */
static uint64_t churn(uint64_t seconds, uint64_t *refused) {
    uint64_t seed = 1, commands = 0, end = nanoseconds() + seconds * 1000000000u, spare = frame_count - page_count;
    while (nanoseconds() < end) {
        uint64_t round = spare / 8 < 512 ? spare / 8 + 1 : 512;
        for (uint64_t k = 0; k < round; k++, commands++) {
            uint64_t page = drawn(&seed, page_count), other = contents[page ^ 1];
            uint16_t kind = contents[page] ? KSM_STORE : KSM_REGISTER;
            *refused += !tried(kind, page, drawn(&seed, 2) && other ? other : fresh());
            if (contents[page])
                read_page(page);
        }
        for (uint64_t k = 0; k < round / 8; k++, commands++) {
            uint64_t page = drawn(&seed, page_count);
            if (contents[page])
                of_page(KSM_DROP, page, 0);
        }
        scan(3 * page_count);
        valued(KSM_PRUNE, 0);
        commands += 2;
    }
    return commands;
}

static void drop(void) {
    uint64_t some = page_count < SOME ? page_count : SOME;
    for (uint64_t page = 0; page < page_count; page++)
        if (!contents[page])
            while (!tried(KSM_REGISTER, page, fresh()))
                scan(3 * page_count);
    begin();
    for (uint64_t page = 0; page < some; page++)
        of_page(KSM_DROP, page, 0);
    END("drop", some);
    for (uint64_t page = some; page < page_count; page++)
        of_page(KSM_DROP, page, 0);
    valued(KSM_PRUNE, 0);
    ksm_counters now = counters();
    is(now.shared + now.sharing + now.unshared + now.volatile_pages, 0, "pages that are left");
}

/* The readers. */
typedef struct reader {
    ksm_pass pass;
    uint64_t seed, lookups, held, wrong;
    pthread_t thread;
} reader;

static void look_up(reader *r) {
    uint64_t words[KSM_PAGE_WORDS], again[KSM_PAGE_WORDS], life = 0, later = 0;
    uint32_t at = (uint32_t)drawn(&r->seed, frame_count), place = 0, frame = 0, answer = ksm_find(&r->pass, at);
    r->lookups++;
    if (answer != KSM_DONE) {
        r->wrong += answer > KSM_BUSY;
        return;
    }
    int right = ksm_held(&r->pass, &place, &frame, &life) == KSM_DONE && place == at && ksm_words(&r->pass, words) == KSM_DONE && is_whole(words);
    right = right && ksm_words(&r->pass, again) == KSM_DONE && memcmp(words, again, sizeof words) == 0;
    right = right && ksm_held(&r->pass, &place, &frame, &later) == KSM_DONE && later == life && ksm_leave(&r->pass) == KSM_DONE;
    r->held++;
    r->wrong += !right;
}

static void *look(void *arg) {
    while (!atomic_load(&done))
        look_up(arg);
    return NULL;
}

static uint64_t given(int argc, char **argv, int at, uint64_t otherwise) {
    return argc > at ? strtoull(argv[at], NULL, 10) : otherwise;
}

int main(int argc, char **argv) {
    uint64_t most = (uint64_t)NODES * (KSM_MOST_FRAMES_PER_NODE < (1 << 18) ? KSM_MOST_FRAMES_PER_NODE : 1 << 18);
    frame_count = given(argc, argv, 2, most);
    page_count = given(argc, argv, 1, frame_count - frame_count / 24);
    uint64_t readers = given(argc, argv, 3, KSM_MOST_PASSES), seconds = given(argc, argv, 4, 10), lookups = 0, held = 0, wrong = 0;
    if (readers > KSM_MOST_PASSES || frame_count % NODES || page_count >= frame_count || page_count < 128 || page_count % 2)
        return 2;
    contents = calloc(page_count, sizeof *contents);
    reader *all = calloc(readers + 1, sizeof *all);
    if (contents == NULL || all == NULL)
        return 2;
    uint64_t before = taken();
    begin();
    uint32_t passes = readers ? (uint32_t)readers : 1;
    must(ksm_book_open(&book, NODES, (uint32_t)(frame_count / NODES), passes, KSM_MOST_LIVES, KSM_MOST_TRIES), "ksm_book_open");
    END("open", 1);
    printf("memory frame %llu\n", (unsigned long long)((taken() - before) / frame_count));
    for (uint64_t i = 0; i < readers; i++) {
        all[i].seed = i;
        must(ksm_pass_open(&book, &all[i].pass), "ksm_pass_open");
        if (pthread_create(&all[i].thread, NULL, look, &all[i]))
            must(KSM_MEMORY, "a thread");
    }
    lay();
    store_and_read();
    merge();
    store_to_merged();
    uint64_t refused = 0, commands = churn(seconds, &refused);
    drop();
    atomic_store(&done, 1);
    for (uint64_t i = 0; i < readers; i++) {
        pthread_join(all[i].thread, NULL);
        must(ksm_pass_close(&book, &all[i].pass), "ksm_pass_close");
        lookups += all[i].lookups;
        held += all[i].held;
        wrong += all[i].wrong;
    }
    must(ksm_table_close(&book), "ksm_table_close");
    printf("churn %llu commands in %llu s, %llu refused for a frame\n", (unsigned long long)commands, (unsigned long long)seconds,
           (unsigned long long)refused);
    printf("readers %llu %llu %llu\n", (unsigned long long)lookups, (unsigned long long)held, (unsigned long long)wrong);
    free(contents);
    free(all);
    return wrong != 0 || (readers > 0 && seconds > 0 && held == 0);
}
