/*
 * A shared book under eight threads, beside a model: shared [COMMANDS].
 *
 * Each thread has a guest of its own, and an array of what it stored there last, by which it checks what it reads. All give COMMANDS (5,000) commands
 * each, look merged pages up, read the counters, and two of them audit. The book keeps its journal. In the end a second book, by one thread, does
 * the commands in the journal's order, and
 *   - each thread finds its own commands there, in its order, with the answers that it got;
 *   - the second book answers each alike, but for a refusal that readers caused (KSM_IN_USE, KSM_NO_FRAME), which changes nothing;
 *   - each row of counters is that of a moment of the journal: behind the thread's last command and before its next one, and no earlier than the
 *     row that it read before;
 *   - an audit finds at each place the page that the book says is merged there.
 * Then threads that do nothing else read counters beside commands, a book is closed while threads call it, and every refusal is reached. Ends with 1
 * at the first that is not so.
 */
#include "ksmbook.h"

#include <pthread.h>
#include <stdatomic.h>
#include <stdio.h>
#include <stdlib.h>
#include <string.h>

#define THREADS 8
#define PAGES 8
#define FRAMES 256
#define PLACES FRAMES
#define AUDITORS 3
#define PASSES (THREADS + 1 + AUDITORS)

typedef struct given {
    ksm_command command;
    uint32_t answer;
    ksm_made made;
} given;

/* A row of counters, and how many commands its thread had given. */
typedef struct row {
    uint64_t own;
    ksm_counters counters;
} row;

typedef struct caller {
    uint32_t number;
    uint64_t seed, count, rows, held, audits;
    int known[PAGES];
    uint64_t words[PAGES];
    ksm_pass pass;
    given *commands;
    row *seen;
} caller;

static ksm_shared book; /* all zero: not open */
static caller callers[THREADS];
static uint64_t commands = 5000;

static void fail(const char *what, uint64_t number) {
    fprintf(stderr, "shared: %s: %llu\n", what, (unsigned long long)number);
    exit(1);
}

static void is(uint32_t answer, uint32_t wanted, const char *call) {
    if (answer != wanted) {
        fprintf(stderr, "shared: %s answered %u (%s), not %u\n", call, answer, ksm_strerror(answer), wanted);
        exit(1);
    }
}

#define IS(wanted, call) is((call), (wanted), #call)

static uint32_t drawn(caller *c, uint32_t below) {
    c->seed = c->seed * 6364136223846793005u + 1442695040888963407u;
    return (uint32_t)((c->seed >> 33) % below);
}

static int is_whole(const uint64_t *words) {
    for (int i = 1; i < KSM_PAGE_WORDS; i++)
        if (words[i] != words[0])
            return 0;
    return 1;
}

/* What thread 0 alone gives, so that each command tells whose it is: by its guest, a scan by its visits. */
static ksm_command of_all(caller *c) {
    static const uint32_t VALUES[] = {1, 50, 1, 256, 1};
    ksm_command made = {0};
    uint32_t n = drawn(c, 8);
    made.kind = (uint16_t)(n < 5 ? KSM_SET_RUN + n : n < 6 ? KSM_PRUNE : KSM_MOVE_DUP);
    if (n != 5)
        made.value = n < 5 ? VALUES[n] + drawn(c, 2) * (n != 3) : drawn(c, PLACES / 8);
    return made;
}

static ksm_command next(caller *c) {
    ksm_command made = {0};
    uint32_t n = drawn(c, 16), page = drawn(c, PAGES);
    if (c->number == 0 && n < 3)
        return of_all(c);
    made.guest = (uint16_t)c->number;
    made.page = page;
    if (n < 5) {
        made.kind = KSM_SCAN;
        made.visits = 8 * drawn(c, 20) + c->number;
        made.guest = 0;
        made.page = 0;
    } else if (n == 5) {
        made.kind = KSM_DROP;
    } else if (n == 6) {
        made.kind = drawn(c, 4) ? KSM_MERGEABLE : KSM_UNMERGE;
        made.page = 0;
    } else {
        uint64_t word = drawn(c, 5);
        made.kind = c->known[page] ? KSM_STORE : KSM_REGISTER;
        for (int i = 0; i < KSM_PAGE_WORDS; i++)
            made.bytes[i] = word;
    }
    return made;
}

/* What the thread knows of its pages behind a command. */
static void learn(caller *c, const given *g) {
    if (g->answer != KSM_DONE)
        return;
    if (g->command.kind == KSM_REGISTER || g->command.kind == KSM_STORE) {
        c->known[g->command.page] = 1;
        c->words[g->command.page] = g->command.bytes[0];
    } else if (g->command.kind == KSM_DROP) {
        c->known[g->command.page] = 0;
    }
}

static void read_own(caller *c) {
    uint64_t words[KSM_PAGE_WORDS];
    uint32_t page = drawn(c, PAGES);
    IS(c->known[page] ? KSM_DONE : KSM_NOTHING, ksm_shared_read(&book, (uint16_t)c->number, page, words));
    if (c->known[page] && (!is_whole(words) || words[0] != c->words[page]))
        fail("a page does not read what was stored last", page);
}

static void look_own_up(caller *c) {
    uint64_t words[KSM_PAGE_WORDS];
    uint32_t place, answer = ksm_shared_ticket(&book, (uint16_t)c->number, drawn(c, PAGES), &place);
    if (answer == KSM_NOTHING)
        return;
    is(answer, KSM_DONE, "ksm_shared_ticket");
    answer = ksm_look_up(&c->pass, place, words);
    if (answer > KSM_BUSY || (answer == KSM_DONE && !is_whole(words)))
        fail("a lookup", answer);
    c->held += answer == KSM_DONE;
}

static void audit_all(caller *c) {
    static _Thread_local ksm_row rows[PLACES];
    uint64_t count = 0;
    uint32_t answer = ksm_shared_audit(&book, 2, rows, PLACES, &count);
    if (answer == KSM_NO_PASS)
        return;
    is(answer, KSM_DONE, "ksm_shared_audit");
    if (count != PLACES)
        fail("rows of an audit", count);
    for (uint32_t p = 0; p < PLACES; p++)
        if (rows[p].answer > KSM_BUSY || !is_whole(rows[p].words) || (rows[p].answer == KSM_DONE) != (rows[p].life > 0))
            fail("a row of an audit", p);
    c->audits++;
}

static void *call_all(void *arg) {
    caller *c = arg;
    while (c->count < commands) {
        given *g = &c->commands[c->count];
        g->command = next(c);
        g->answer = ksm_shared_apply(&book, &g->command, &g->made);
        if (g->answer == KSM_MEMORY || g->answer == KSM_COMMAND || g->answer == KSM_CLOSED)
            fail("a command", g->answer);
        learn(c, g);
        c->count++;
        read_own(c);
        look_own_up(c);
        row *r = &c->seen[c->rows++];
        r->own = c->count;
        IS(KSM_DONE, ksm_shared_counters(&book, &r->counters));
        if (c->number < 2 && c->count % 64 == 0)
            audit_all(c);
    }
    return NULL;
}

/* Whose command an entry is. */
static uint32_t caller_of(const ksm_command *command) {
    switch (command->kind) {
    case KSM_REGISTER:
    case KSM_STORE:
    case KSM_DROP:
    case KSM_UNMERGE:
    case KSM_MERGEABLE:
        return command->guest;
    case KSM_SCAN:
        return (uint32_t)(command->visits % 8);
    default:
        return 0;
    }
}

/* Finds the thread's own commands in the journal, one after another; `at` gets the place of each there. */
static void find_own(uint64_t entries, uint64_t (*at)[THREADS]) {
    uint64_t found[THREADS] = {0};
    for (uint64_t k = 0; k < entries; k++) {
        ksm_command command;
        ksm_made made = {0};
        uint32_t answer = 0;
        IS(KSM_DONE, ksm_shared_entry(&book, k, &command, &answer, &made));
        uint32_t of = caller_of(&command);
        const given *g = &callers[of].commands[found[of]];
        if (found[of] == commands || memcmp(&g->command, &command, sizeof command) != 0 || g->answer != answer)
            fail("an entry is not the next command of its thread", k);
        if (answer == KSM_DONE && memcmp(&g->made, &made, sizeof made) != 0)
            fail("an entry made something else", k);
        at[found[of]++][of] = k;
    }
    for (uint32_t of = 0; of < THREADS; of++)
        if (found[of] != commands)
            fail("the journal has not each command of a thread", of);
}

/* A second book does the commands in the journal's order; `moments` gets the counters behind each. */
static void replay(uint64_t entries, ksm_counters *moments) {
    ksm_table again = KSM_TABLE_NONE;
    ksm_command command;
    ksm_made made, now;
    uint32_t answer = 0;
    IS(KSM_DONE, ksm_book_open(&again, 1, FRAMES, 1, KSM_MOST_LIVES, KSM_MOST_TRIES));
    IS(KSM_DONE, ksm_book_counters(&again, &moments[0]));
    for (uint64_t k = 0; k < entries; k++) {
        IS(KSM_DONE, ksm_shared_entry(&book, k, &command, &answer, &made));
        if (answer != KSM_IN_USE && answer != KSM_NO_FRAME) {
            is(ksm_book_apply(&again, &command, &now), answer, "ksm_book_apply of the second book");
            if (answer == KSM_DONE && memcmp(&made, &now, sizeof made) != 0)
                fail("the second book made something else", k);
        }
        IS(KSM_DONE, ksm_book_counters(&again, &moments[k + 1]));
    }
    IS(KSM_DONE, ksm_table_close(&again));
}

/* Each row is of a moment between two commands of its thread, and moments go forward. */
static uint64_t place_rows(const caller *c, uint64_t (*at)[THREADS], uint64_t entries, const ksm_counters *moments) {
    uint64_t moment = 0, others = 0;
    for (uint64_t i = 0; i < c->rows; i++) {
        const row *r = &c->seen[i];
        uint64_t first = at[r->own - 1][c->number] + 1, last = r->own < commands ? at[r->own][c->number] : entries;
        moment = moment < first ? first : moment;
        while (moment <= last && memcmp(&moments[moment], &r->counters, sizeof r->counters) != 0)
            moment++;
        if (moment > last)
            fail("a row of counters is of no moment between two commands of its thread", i);
        others += moment > first;
    }
    return others;
}

/* Nobody calls any more: an audit finds the merged pages where the book says that they are. */
static void audit_still(void) {
    static ksm_row rows[PLACES];
    uint64_t count = 0, pages[THREADS * PAGES], words[KSM_PAGE_WORDS];
    IS(KSM_RANGE, ksm_shared_audit(&book, AUDITORS, rows, PLACES - 1, &count));
    if (count != PLACES || rows[0].life != 0)
        fail("rows of an audit without room", count);
    IS(KSM_DONE, ksm_shared_audit(&book, AUDITORS, rows, PLACES, &count));
    for (uint32_t p = 0; p < PLACES; p++) {
        if (ksm_shared_mappers(&book, p, pages, THREADS * PAGES, &count) != KSM_DONE)
            continue;
        IS(KSM_DONE, ksm_shared_read(&book, (uint16_t)(pages[0] >> 32), (uint32_t)pages[0], words));
        is(rows[p].answer, KSM_DONE, "the audit of a place with pages");
        if (memcmp(rows[p].words, words, sizeof words) != 0)
            fail("an audit found another page", p);
    }
}

static void many_threads(void) {
    pthread_t threads[THREADS];
    uint64_t entries = 0, held = 0, audits = 0, others = 0;
    IS(KSM_DONE, ksm_shared_open_kept(&book, 1, FRAMES, PASSES, KSM_MOST_LIVES, KSM_MOST_TRIES));
    for (uint32_t i = 0; i < THREADS; i++) {
        caller *c = &callers[i];
        *c = (caller){.number = i, .seed = i + 1, .commands = calloc(commands, sizeof *c->commands), .seen = calloc(commands, sizeof *c->seen)};
        IS(KSM_DONE, ksm_shared_pass_open(&book, &c->pass));
        if (c->commands == NULL || c->seen == NULL || pthread_create(&threads[i], NULL, call_all, c))
            fail("no memory or no thread", i);
    }
    for (uint32_t i = 0; i < THREADS; i++)
        pthread_join(threads[i], NULL);
    IS(KSM_DONE, ksm_shared_entries(&book, &entries));
    uint64_t (*at)[THREADS] = calloc(commands, sizeof *at);
    ksm_counters *moments = calloc(entries + 1, sizeof *moments);
    if (at == NULL || moments == NULL)
        fail("no memory", entries);
    find_own(entries, at);
    replay(entries, moments);
    audit_still();
    for (uint32_t i = 0; i < THREADS; i++) {
        caller *c = &callers[i];
        others += place_rows(c, at, entries, moments);
        held += c->held;
        audits += c->audits;
        IS(KSM_PASSES_OUT, ksm_shared_close(&book));
        IS(KSM_DONE, ksm_shared_pass_close(&book, &c->pass));
        free(c->commands);
        free(c->seen);
    }
    free(at);
    free(moments);
    IS(KSM_DONE, ksm_shared_close(&book));
    printf("%llu commands of %d threads as one book does them, %llu lookups held, %llu audits, each row of counters of a moment"
           " (%llu behind a command of another thread)\n",
           (unsigned long long)entries, THREADS, (unsigned long long)held, (unsigned long long)audits, (unsigned long long)others);
    if (held == 0 || audits == 0)
        fail("nothing was held or audited", held);
}

/* Threads that do nothing but read the counters: each page of one moment is counted once, and no row is older than the one before. */
static atomic_int is_written;

static void *read_rows(void *arg) {
    caller *c = arg;
    ksm_counters now;
    for (uint64_t scans = 0; !atomic_load(&is_written); scans = now.full_scans, c->rows++) {
        IS(KSM_DONE, ksm_shared_counters(&book, &now));
        if (now.shared + now.sharing + now.unshared + now.volatile_pages + now.zero != PAGES)
            fail("a row is of two moments", c->rows);
        if (now.full_scans < scans)
            fail("a row is older than the one before", c->rows);
    }
    return NULL;
}

static void whole_rows(void) {
    pthread_t threads[THREADS - 1];
    ksm_made made;
    uint64_t rows = 0;
    IS(KSM_DONE, ksm_shared_open(&book, 1, 2 * PAGES, 1, KSM_MOST_LIVES, 1));
    IS(KSM_DONE, ksm_shared_apply(&book, &(ksm_command){.kind = KSM_SET_RUN, .value = 1}, &made));
    for (uint32_t page = 0; page < PAGES; page++)
        IS(KSM_DONE, ksm_shared_apply(&book, &(ksm_command){.kind = KSM_REGISTER, .page = page}, &made));
    for (uint32_t i = 0; i < THREADS - 1; i++) {
        callers[i] = (caller){.number = i};
        if (pthread_create(&threads[i], NULL, read_rows, &callers[i]))
            fail("no thread", i);
    }
    for (uint64_t n = 0; n < 20 * commands; n++) {
        ksm_command store = {.kind = KSM_STORE, .page = (uint32_t)(n % PAGES), .bytes = {n / 7 % 3}}, scan = {.kind = KSM_SCAN, .visits = 5};
        IS(KSM_DONE, ksm_shared_apply(&book, n % 2 ? &store : &scan, &made));
    }
    atomic_store(&is_written, 1);
    for (uint32_t i = 0; i < THREADS - 1; i++) {
        pthread_join(threads[i], NULL);
        rows += callers[i].rows;
    }
    IS(KSM_DONE, ksm_shared_close(&book));
    printf("%llu rows of counters were read beside %llu commands, each of one moment\n", (unsigned long long)rows, (unsigned long long)(20 * commands));
}

/* Each call of a thread is done, or tells that the book is closed. */
static void *until_closed(void *arg) {
    caller *c = arg;
    ksm_command prune = {.kind = KSM_PRUNE};
    ksm_made made;
    ksm_counters counters;
    uint64_t count;
    ksm_row rows[1];
    for (uint32_t answer = KSM_DONE; answer != KSM_CLOSED;) {
        switch (drawn(c, 5)) {
        case 0:
            answer = ksm_shared_apply(&book, &prune, &made);
            break;
        case 1:
            answer = ksm_shared_counters(&book, &counters);
            break;
        case 2:
            answer = ksm_shared_entries(&book, &count);
            break;
        case 3:
            answer = ksm_shared_audit(&book, 1, rows, 1, &count);
            break;
        default:
            answer = ksm_shared_pass_open(&book, &c->pass);
            if (answer == KSM_DONE)
                IS(KSM_DONE, ksm_shared_pass_close(&book, &c->pass));
        }
        if (answer != KSM_DONE && answer != KSM_CLOSED && answer != KSM_NO_PASS)
            fail("a call beside a close", answer);
        c->count++;
    }
    return NULL;
}

static void closed_beside_calls(int rounds) {
    pthread_t threads[THREADS];
    for (int round = 0; round < rounds; round++) {
        IS(KSM_DONE, ksm_shared_open(&book, 1, 1, 2, 1, 1));
        for (uint32_t i = 0; i < THREADS; i++) {
            callers[i] = (caller){.number = i, .seed = (uint64_t)round * THREADS + i};
            if (pthread_create(&threads[i], NULL, until_closed, &callers[i]))
                fail("no thread", i);
        }
        uint32_t answer;
        do
            answer = ksm_shared_close(&book);
        while (answer == KSM_PASSES_OUT);
        is(answer, KSM_DONE, "ksm_shared_close beside calls");
        for (uint32_t i = 0; i < THREADS; i++)
            pthread_join(threads[i], NULL);
    }
}

/* What each call answers of this handle, which is NULL or closed. */
static void refused(ksm_shared *of, uint32_t wanted) {
    ksm_pass pass = KSM_PASS_NONE;
    ksm_command command = {.kind = KSM_PRUNE};
    ksm_made made = {7, 7, 7};
    ksm_counters counters = {7, 7, 7, 7, 7, 7, 7, 7};
    ksm_row rows[1] = {{7, 7, 7, {7}}};
    uint64_t words[KSM_PAGE_WORDS] = {7}, count = 7;
    uint32_t place = 7;
    IS(wanted, ksm_shared_close(of));
    IS(wanted, ksm_shared_pass_open(of, &pass));
    IS(wanted == KSM_NULL ? KSM_NULL : KSM_CLOSED, ksm_shared_pass_close(of, &pass));
    IS(wanted, ksm_shared_apply(of, &command, &made));
    IS(wanted, ksm_shared_read(of, 0, 0, words));
    IS(wanted, ksm_shared_ticket(of, 0, 0, &place));
    IS(wanted, ksm_shared_mappers(of, 0, words, 1, &count));
    IS(wanted, ksm_shared_counters(of, &counters));
    IS(wanted, ksm_shared_audit(of, 1, rows, 1, &count));
    IS(wanted, ksm_shared_entries(of, &count));
    IS(wanted, ksm_shared_entry(of, 0, &command, &place, &made));
    if (made.count != 7 || counters.shared != 7 || rows[0].answer != 7 || words[0] != 7 || count != 7 || place != 7 || command.kind != KSM_PRUNE)
        fail("a refused call wrote", wanted);
}

/* A NULL in place of each other pointer, of a book that is open. */
static void nulls(ksm_shared *of) {
    ksm_command command = {.kind = KSM_PRUNE};
    ksm_made made;
    uint64_t words[KSM_PAGE_WORDS], count = 7;
    uint32_t answer;
    IS(KSM_NULL, ksm_shared_pass_open(of, NULL));
    IS(KSM_NULL, ksm_shared_pass_close(of, NULL));
    IS(KSM_NULL, ksm_shared_apply(of, NULL, &made));
    IS(KSM_NULL, ksm_shared_apply(of, &command, NULL));
    IS(KSM_NULL, ksm_shared_read(of, 0, 0, NULL));
    IS(KSM_NULL, ksm_shared_ticket(of, 0, 0, NULL));
    IS(KSM_NULL, ksm_shared_mappers(of, 0, NULL, 1, &count));
    IS(KSM_NULL, ksm_shared_mappers(of, 0, words, 1, NULL));
    IS(KSM_NOTHING, ksm_shared_mappers(of, 0, NULL, 0, &count));
    IS(KSM_NULL, ksm_shared_counters(of, NULL));
    IS(KSM_NULL, ksm_shared_audit(of, 1, NULL, 1, &count));
    IS(KSM_NULL, ksm_shared_audit(of, 1, NULL, 0, NULL));
    IS(KSM_NULL, ksm_shared_entries(of, NULL));
    IS(KSM_NULL, ksm_shared_entry(of, 0, NULL, &answer, &made));
    IS(KSM_NULL, ksm_shared_entry(of, 0, &command, NULL, &made));
    IS(KSM_NULL, ksm_shared_entry(of, 0, &command, &answer, NULL));
}

static void refusals(void) {
    ksm_shared of = KSM_SHARED_NONE, other = KSM_SHARED_NONE;
    ksm_pass pass = KSM_PASS_NONE, second = KSM_PASS_NONE;
    ksm_made made;
    uint64_t count = 7;
    IS(KSM_NULL, ksm_shared_open(NULL, 1, 1, 1, 1, 1));
    IS(KSM_NULL, ksm_shared_open_kept(NULL, 1, 1, 1, 1, 1));
    refused(NULL, KSM_NULL);
    refused(&of, KSM_CLOSED);
    IS(KSM_SHAPE, ksm_shared_open(&of, 0, 1, 1, 1, 1));
    refused(&of, KSM_CLOSED);
    IS(KSM_DONE, ksm_shared_open(&of, 1, 2, 1, 1, 1));
    IS(KSM_OPEN, ksm_shared_open(&of, 1, 2, 1, 1, 1));
    IS(KSM_OPEN, ksm_shared_open_kept(&of, 1, 2, 1, 1, 1));
    IS(KSM_DONE, ksm_shared_open(&other, 1, 2, 1, 1, 1));
    nulls(&of);
    IS(KSM_SHAPE, ksm_shared_audit(&of, 0, NULL, 0, &count));
    IS(KSM_SHAPE, ksm_shared_audit(&of, KSM_MOST_PASSES + 1, NULL, 0, &count));
    IS(KSM_NO_PASS, ksm_shared_audit(&of, 2, NULL, 0, &count));
    if (count != 7)
        fail("a refused audit wrote", count);
    IS(KSM_RANGE, ksm_shared_audit(&of, 1, NULL, 0, &count));
    IS(KSM_DONE, ksm_shared_pass_open(&of, &pass));
    IS(KSM_OPEN, ksm_shared_pass_open(&of, &pass));
    IS(KSM_NO_PASS, ksm_shared_pass_open(&of, &second));
    IS(KSM_NO_PASS, ksm_shared_audit(&of, 1, NULL, 0, &count));
    IS(KSM_OTHER, ksm_shared_pass_close(&other, &pass));
    IS(KSM_PASSES_OUT, ksm_shared_close(&of));
    ksm_command command = {.kind = 99};
    IS(KSM_COMMAND, ksm_shared_apply(&of, &command, &made));
    IS(KSM_NOTHING, ksm_shared_entry(&of, 0, &command, &(uint32_t){0}, &made));
    IS(KSM_DONE, ksm_shared_pass_close(&of, &pass));
    IS(KSM_CLOSED, ksm_shared_pass_close(&of, &pass));
    IS(KSM_DONE, ksm_shared_close(&of));
    refused(&of, KSM_CLOSED);
    IS(KSM_DONE, ksm_shared_close(&other));
}

int main(int argc, char **argv) {
    commands = argc > 1 ? strtoull(argv[1], NULL, 10) : commands;
    refusals();
    many_threads();
    whole_rows();
    closed_beside_calls(commands < 1000 ? 3 : 50);
    puts("a shared book is closed beside calls, and each of its refusals was reached");
    return 0;
}
