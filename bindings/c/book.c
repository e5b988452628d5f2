/*
 * A book against a plain one: book [ROUNDS].
 *
 * Three guests with 16 pages each are stored to, scanned and dropped at random, by commands. Beside the book stands a plain array of what was
 * stored last, and now and then every page is compared with it. Then every number that a book can answer is reached, and a reader looks a merged
 * page up by its place.
 *
 * Link it with the static library and -Wl,--wrap=malloc: the wrapper below refuses memory when it is told to.
 */
#include "ksmbook.h"

#include <stdio.h>
#include <stdlib.h>
#include <string.h>

enum { GUESTS = 3, PAGES = 16 };

static uint64_t reached;

/* How many allocations are granted before one is refused; none is while this is negative. */
static int granted = -1;

void *__real_malloc(size_t size);

void *__wrap_malloc(size_t size) {
    if (granted == 0)
        return NULL;
    if (granted > 0)
        granted--;
    return __real_malloc(size);
}

static void answers(uint32_t answer, uint32_t wanted, const char *call) {
    if (answer != wanted) {
        fprintf(stderr, "book: %s answered %u, not %u\n", call, answer, wanted);
        exit(1);
    }
    reached |= (uint64_t)1 << answer;
}

#define ANSWERS(wanted, call) answers((call), (wanted), #call)

static void is(uint64_t seen, uint64_t wanted, const char *what) {
    if (seen != wanted) {
        fprintf(stderr, "book: %s: %llu, not %llu\n", what, (unsigned long long)seen, (unsigned long long)wanted);
        exit(1);
    }
}

#define IS(wanted, what) is((what), (wanted), #what)

static ksm_command command(uint16_t kind, uint16_t guest, uint32_t page, uint64_t word) {
    ksm_command made = {.kind = kind, .guest = guest, .page = page};
    for (int i = 0; i < KSM_PAGE_WORDS; i++)
        made.bytes[i] = word;
    return made;
}

static ksm_command valued(uint16_t kind, uint32_t value, uint32_t node) {
    ksm_command made = {.kind = kind, .value = value, .node = node};
    return made;
}

static uint32_t apply(ksm_table *book, ksm_command given, ksm_made *made) {
    return ksm_book_apply(book, &given, made);
}

/* What a plain array says of the pages: whether each is there, and its word. */
static int known[GUESTS][PAGES];
static uint64_t words[GUESTS][PAGES];

static void compare(ksm_table *book) {
    uint64_t bytes[KSM_PAGE_WORDS];
    for (uint16_t guest = 0; guest < GUESTS; guest++)
        for (uint32_t page = 0; page < PAGES; page++) {
            uint32_t answer = ksm_book_read(book, guest, page, bytes);
            answers(answer, known[guest][page] ? KSM_DONE : KSM_NOTHING, "ksm_book_read");
            for (int i = 0; known[guest][page] && i < KSM_PAGE_WORDS; i++)
                is(bytes[i], words[guest][page], "a word of a page");
        }
}

static uint32_t drawn(uint64_t *seed) {
    *seed = *seed * 6364136223846793005u + 1442695040888963407u;
    return (uint32_t)(*seed >> 33);
}

static void at_random(uint64_t rounds) {
    ksm_table book = KSM_TABLE_NONE;
    ksm_made made;
    uint64_t seed = 1;
    ANSWERS(KSM_DONE, ksm_book_open(&book, 2, 64, 1, KSM_MOST_LIVES, KSM_MOST_TRIES));
    ANSWERS(KSM_DONE, apply(&book, valued(KSM_SET_RUN, 1, 0), &made));
    for (uint64_t round = 0; round < rounds; round++) {
        uint16_t guest = drawn(&seed) % GUESTS;
        uint32_t page = drawn(&seed) % PAGES, what = drawn(&seed) % 8;
        uint64_t word = drawn(&seed) % 4;
        if (what == 0) {
            ksm_command scan = {.kind = KSM_SCAN, .visits = 100};
            ANSWERS(KSM_DONE, apply(&book, scan, &made));
        } else if (!known[guest][page]) {
            ANSWERS(KSM_DONE, apply(&book, command(KSM_REGISTER, guest, page, word), &made));
            known[guest][page] = 1;
            words[guest][page] = word;
        } else if (what == 1) {
            ANSWERS(KSM_DONE, apply(&book, command(KSM_DROP, guest, page, 0), &made));
            known[guest][page] = 0;
        } else {
            ANSWERS(KSM_DONE, apply(&book, command(KSM_STORE, guest, page, word), &made));
            words[guest][page] = word;
        }
        if (round % 16 == 0)
            compare(&book);
    }
    compare(&book);
    ANSWERS(KSM_DONE, ksm_table_close(&book));
}

/* Two equal pages are merged, and a reader looks the frame up. */
static void merged(void) {
    ksm_table book = KSM_TABLE_NONE;
    ksm_pass pass = KSM_PASS_NONE;
    ksm_made made;
    ksm_counters counters;
    ksm_command scan = {.kind = KSM_SCAN, .visits = 4};
    uint64_t bytes[KSM_PAGE_WORDS], pages[2], count = 0;
    uint32_t place = 99;

    ANSWERS(KSM_DONE, ksm_book_open(&book, 2, 2, 1, 1000, 64));
    ANSWERS(KSM_OPEN, ksm_book_open(&book, 2, 2, 1, 1000, 64));
    ANSWERS(KSM_KIND, ksm_raise(&book, 0));
    ANSWERS(KSM_DONE, ksm_pass_open(&book, &pass));
    ANSWERS(KSM_NOT_RUNNING, apply(&book, scan, &made));
    ANSWERS(KSM_DONE, apply(&book, command(KSM_REGISTER, 0, 0, 7), &made));
    ANSWERS(KSM_ALREADY_REGISTERED, apply(&book, command(KSM_REGISTER, 0, 0, 7), &made));
    ANSWERS(KSM_DONE, apply(&book, command(KSM_REGISTER, 1, 5, 7), &made));
    ANSWERS(KSM_NO_FRAME, apply(&book, command(KSM_REGISTER, 1, 6, 7), &made));
    IS(0, made.node);
    ANSWERS(KSM_UNKNOWN_PAGE, apply(&book, command(KSM_STORE, 0, 1, 7), &made));
    ANSWERS(KSM_BAD_VALUE, apply(&book, valued(KSM_SET_RUN, 3, 0), &made));
    ANSWERS(KSM_DONE, apply(&book, valued(KSM_SET_RUN, 1, 0), &made));
    ANSWERS(KSM_NOTHING, ksm_book_ticket(&book, 0, 0, &place));
    ANSWERS(KSM_DONE, apply(&book, scan, &made));
    IS(4, made.count);
    IS(0, made.stop);
    ANSWERS(KSM_DONE, ksm_book_ticket(&book, 1, 5, &place));
    ANSWERS(KSM_RANGE, ksm_book_mappers(&book, place, pages, 1, &count));
    IS(2, count);
    ANSWERS(KSM_DONE, ksm_book_mappers(&book, place, pages, 2, &count));
    IS(0, pages[0]);
    IS(((uint64_t)1 << 32) + 5, pages[1]);
    ANSWERS(KSM_NOTHING, ksm_book_mappers(&book, 99, pages, 2, &count));
    ANSWERS(KSM_DONE, ksm_book_counters(&book, &counters));
    IS(1, counters.shared);
    IS(1, counters.sharing);
    IS(2, counters.full_scans);

    ANSWERS(KSM_DONE, ksm_find(&pass, place));
    ANSWERS(KSM_DONE, ksm_words(&pass, bytes));
    IS(7, bytes[7]);
    ANSWERS(KSM_SHARED_PAGES, apply(&book, valued(KSM_SET_LIMIT, 3, 0), &made));
    ANSWERS(KSM_BAD_NODE, apply(&book, valued(KSM_MOVE_DUP, place, 2), &made));
    ANSWERS(KSM_UNKNOWN_PLACE, apply(&book, valued(KSM_MOVE_DUP, 3, 1), &made));
    ANSWERS(KSM_IN_USE, apply(&book, valued(KSM_MOVE_DUP, place, 1), &made));
    ANSWERS(KSM_PASSES_OUT, ksm_table_close(&book));
    ANSWERS(KSM_HOLDING, ksm_pass_close(&book, &pass));
    ANSWERS(KSM_DONE, ksm_leave(&pass));
    ANSWERS(KSM_DONE, apply(&book, valued(KSM_MOVE_DUP, place, 1), &made));

    ANSWERS(KSM_DONE, apply(&book, command(KSM_UNMERGE, 1, 0, 0), &made));
    IS(1, made.count);
    ANSWERS(KSM_DONE, apply(&book, command(KSM_MERGEABLE, 1, 0, 0), &made));
    ANSWERS(KSM_DONE, apply(&book, command(KSM_DROP, 0, 0, 0), &made));
    ANSWERS(KSM_DONE, apply(&book, valued(KSM_PRUNE, 0, 0), &made));
    IS(1, made.count);
    ksm_command moving = command(KSM_MOVE_PAGE, 1, 5, 0);
    moving.node = 1;
    ANSWERS(KSM_DONE, apply(&book, moving, &made));
    ANSWERS(KSM_DONE, apply(&book, valued(KSM_SET_ACROSS, 0, 0), &made));
    ANSWERS(KSM_DONE, apply(&book, valued(KSM_SET_LIMIT, 3, 0), &made));
    ANSWERS(KSM_DONE, apply(&book, valued(KSM_SET_PAGES_TO_SCAN, 50, 0), &made));
    ANSWERS(KSM_DONE, apply(&book, valued(KSM_SET_ZERO_PAGES, 1, 0), &made));
    ANSWERS(KSM_COMMAND, apply(&book, valued(0, 0, 0), &made));
    ANSWERS(KSM_COMMAND, apply(&book, valued(15, 0, 0), &made));
    ANSWERS(KSM_DONE, apply(&book, command(KSM_DROP, 1, 5, 0), &made));

    /* Two equal pages of node 1 are merged there; with merge_across_nodes 0 their dup does not move to another node. */
    for (uint32_t page = 0; page < 2; page++) {
        ksm_command there = command(KSM_REGISTER, 2, page, 9);
        there.node = 1;
        ANSWERS(KSM_DONE, apply(&book, there, &made));
    }
    ANSWERS(KSM_DONE, apply(&book, scan, &made));
    ANSWERS(KSM_DONE, ksm_book_ticket(&book, 2, 1, &place));
    ANSWERS(KSM_CROSSES_NODES, apply(&book, valued(KSM_MOVE_DUP, place, 0), &made));
    ANSWERS(KSM_DONE, ksm_pass_close(&book, &pass));
    ANSWERS(KSM_DONE, ksm_table_close(&book));
}

/* Each allocation of an opening is refused in turn, then of a command, until it is done; what is refused has changed nothing. */
static void memory(void) {
    ksm_table book = KSM_TABLE_NONE;
    ksm_made made;
    ksm_counters before, after;
    uint64_t pages[2] = {5, 5}, count = 5;
    uint32_t place, answer = KSM_MEMORY, openings = 0, commands = 0;
    for (int n = 0; answer == KSM_MEMORY; n++) {
        granted = n;
        answer = ksm_book_open(&book, 1, 4, 1, 1000, 64);
        granted = -1;
        openings += answer == KSM_MEMORY;
        IS(answer == KSM_MEMORY, book.at == NULL);
    }
    ANSWERS(KSM_DONE, answer);
    ANSWERS(KSM_DONE, ksm_book_counters(&book, &before));
    answer = KSM_MEMORY;
    for (int n = 0; answer == KSM_MEMORY; n++) {
        granted = n;
        answer = apply(&book, command(KSM_REGISTER, 0, 0, 7), &made);
        granted = -1;
        commands += answer == KSM_MEMORY;
        ANSWERS(KSM_DONE, ksm_book_counters(&book, &after));
        IS(answer == KSM_MEMORY, memcmp(&before, &after, sizeof before) == 0);
    }
    ANSWERS(KSM_DONE, answer);
    ANSWERS(KSM_DONE, apply(&book, command(KSM_REGISTER, 0, 1, 7), &made));
    ANSWERS(KSM_DONE, apply(&book, valued(KSM_SET_RUN, 1, 0), &made));
    ksm_command scan = {.kind = KSM_SCAN, .visits = 4};
    ANSWERS(KSM_DONE, apply(&book, scan, &made));
    ANSWERS(KSM_DONE, ksm_book_ticket(&book, 0, 0, &place));
    granted = 0;
    answer = ksm_book_mappers(&book, place, pages, 2, &count);
    granted = -1;
    ANSWERS(KSM_MEMORY, answer);
    IS(5, count);
    IS(5, pages[0]);
    ANSWERS(KSM_RANGE, ksm_book_mappers(&book, place, pages, 1, &count));
    IS(2, count);
    IS(5, pages[0]);
    IS(1, openings >= 3 && commands >= 1);
    ANSWERS(KSM_DONE, ksm_table_close(&book));
}

/* A book that keeps its journal tells each command with its answer, and wants memory for that alone; another book does neither. */
static void journals(void) {
    ksm_table kept = KSM_TABLE_NONE, counted = KSM_TABLE_NONE;
    ksm_command told;
    ksm_made made = {0};
    uint64_t count = 5;
    uint32_t answer = KSM_MEMORY, wants = 0;
    ANSWERS(KSM_DONE, ksm_book_open_kept(&kept, 1, 2, 1, 1000, 64));
    ANSWERS(KSM_OPEN, ksm_book_open_kept(&kept, 1, 2, 1, 1000, 64));
    ANSWERS(KSM_DONE, ksm_book_open(&counted, 1, 2, 1, 1000, 64));
    ANSWERS(KSM_NOTHING, ksm_book_entry(&kept, 0, &told, &answer, &made));
    for (int n = 0; answer == KSM_MEMORY; n++) {
        granted = n;
        answer = apply(&kept, valued(KSM_SET_LIMIT, 3, 0), &made);
        granted = -1;
        wants += answer == KSM_MEMORY;
    }
    ANSWERS(KSM_DONE, answer);
    granted = 0;
    answer = apply(&counted, valued(KSM_SET_LIMIT, 3, 0), &made);
    granted = -1;
    ANSWERS(KSM_DONE, answer);
    IS(1, wants > 0);
    ANSWERS(KSM_BAD_VALUE, apply(&kept, valued(KSM_SET_LIMIT, 1, 0), &made));
    ANSWERS(KSM_BAD_VALUE, apply(&counted, valued(KSM_SET_LIMIT, 1, 0), &made));
    ANSWERS(KSM_DONE, ksm_book_entries(&kept, &count));
    IS(2, count);
    ANSWERS(KSM_DONE, ksm_book_entries(&counted, &count));
    IS(2, count);
    ANSWERS(KSM_DONE, ksm_book_entry(&kept, 1, &told, &answer, &made));
    IS(KSM_SET_LIMIT, told.kind);
    IS(1, told.value);
    IS(KSM_BAD_VALUE, answer);
    answer = 5;
    ANSWERS(KSM_NOTHING, ksm_book_entry(&kept, 2, &told, &answer, &made));
    ANSWERS(KSM_NOTHING, ksm_book_entry(&counted, 1, &told, &answer, &made));
    IS(5, answer);
    ANSWERS(KSM_DONE, ksm_table_close(&kept));
    ANSWERS(KSM_DONE, ksm_table_close(&counted));
}

/* The keeper's calls are refused on a book, and those of a pass. */
static void not_a_table(void) {
    ksm_table book = KSM_TABLE_NONE;
    uint64_t word = 5, life = 5, words[KSM_PAGE_WORDS] = {5};
    uint32_t kind = 5;
    ANSWERS(KSM_DONE, ksm_book_open(&book, 1, 1, 1, 1, 1));
    ksm_pass *wrong = (ksm_pass *)(void *)&book;
    ANSWERS(KSM_OPEN, ksm_table_open(&book, 1, 1, 1, 1, 1));
    ANSWERS(KSM_KIND, ksm_raise(&book, 0));
    ANSWERS(KSM_KIND, ksm_put(&book, 0, 0, 0));
    ANSWERS(KSM_KIND, ksm_open_frame(&book, 0));
    ANSWERS(KSM_KIND, ksm_publish(&book, 0, 0));
    ANSWERS(KSM_KIND, ksm_withdraw(&book, 0));
    ANSWERS(KSM_KIND, ksm_add(&book, 0));
    ANSWERS(KSM_KIND, ksm_sub(&book, 0));
    ANSWERS(KSM_KIND, ksm_freeze(&book, 0));
    ANSWERS(KSM_KIND, ksm_reap(&book, 0));
    ANSWERS(KSM_KIND, ksm_load(&book, 0, 0, &word));
    ANSWERS(KSM_KIND, ksm_frame(&book, 0, &kind, &word, &life));
    ANSWERS(KSM_KIND, ksm_find(wrong, 0));
    ANSWERS(KSM_KIND, ksm_look_up(wrong, 0, words));
    ANSWERS(KSM_KIND, ksm_leave(wrong));
    IS(5, word);
    IS(5, life);
    IS(5, kind);
    IS(5, words[0]);
    ANSWERS(KSM_DONE, ksm_table_close(&book));
}

/* What is no book, or not open, is refused by every call. */
static void no_books(void) {
    ksm_table none = KSM_TABLE_NONE, table = KSM_TABLE_NONE;
    ksm_command given = valued(KSM_PRUNE, 0, 0);
    ksm_made made;
    ksm_counters counters;
    uint64_t bytes[KSM_PAGE_WORDS], count;
    uint32_t place;
    ANSWERS(KSM_SHAPE, ksm_book_open(&none, KSM_MOST_NODES + 1, 1, 1, 1, 1));
    ANSWERS(KSM_CLOSED, apply(&none, given, &made));
    ANSWERS(KSM_CLOSED, ksm_book_read(&none, 0, 0, bytes));
    ANSWERS(KSM_CLOSED, ksm_book_ticket(&none, 0, 0, &place));
    ANSWERS(KSM_CLOSED, ksm_book_mappers(&none, 0, bytes, 1, &count));
    ANSWERS(KSM_CLOSED, ksm_book_counters(&none, &counters));
    ANSWERS(KSM_CLOSED, ksm_book_entries(&none, &count));
    ANSWERS(KSM_CLOSED, ksm_book_entry(&none, 0, &given, &place, &made));
    ANSWERS(KSM_DONE, ksm_table_open(&table, 1, 1, 1, 1, 1));
    ANSWERS(KSM_KIND, apply(&table, given, &made));
    ANSWERS(KSM_KIND, ksm_book_read(&table, 0, 0, bytes));
    ANSWERS(KSM_KIND, ksm_book_ticket(&table, 0, 0, &place));
    ANSWERS(KSM_KIND, ksm_book_mappers(&table, 0, bytes, 1, &count));
    ANSWERS(KSM_KIND, ksm_book_counters(&table, &counters));
    ANSWERS(KSM_KIND, ksm_book_entries(&table, &count));
    ANSWERS(KSM_KIND, ksm_book_entry(&table, 0, &given, &place, &made));
    ANSWERS(KSM_DONE, ksm_table_close(&table));
}

int main(int argc, char **argv) {
    at_random(argc > 1 ? strtoull(argv[1], NULL, 10) : 20000);
    merged();
    memory();
    journals();
    not_a_table();
    no_books();
    for (uint32_t n = KSM_NOTHING; n <= KSM_BAD_NODE; n++)
        if ((n == KSM_NOTHING || n == KSM_COMMAND || n >= KSM_UNKNOWN_PAGE) && !(reached >> n & 1)) {
            fprintf(stderr, "book: %u was not reached\n", n);
            return 1;
        }
    puts("the book is as a plain one, and every number of a book was reached");
    return 0;
}
