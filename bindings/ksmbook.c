/*
 * What stands before the proved calls of ksmbook.h: each pointer is tested for NULL, tables get their numbers, the passes of a table their lock,
 * and a shared book its own.
 *
 * The calls of crates/ksm_ffi have the header's names, but that release/library gives them the prefix `proved_` as it joins both to one library.
 * A handle is there one pointer, which a proved call may take out of its place for the time of the call. So a table has two: that of its keeper
 * or book, which one thread at a time is in a call with, and that of its passes, which any thread uses under the lock.
 */
#include "ksmbook.h"

#include <pthread.h>
#include <sched.h>
#include <stdatomic.h>
#include <string.h>

typedef struct handle { void *at; } handle;

static handle *keeper_of(ksm_table *table) {
    return (handle *)&table->at;
}

static handle *passes_of(ksm_table *table) {
    return (handle *)&table->passes;
}

static handle *pass_of(ksm_pass *pass) {
    return (handle *)&pass->at;
}

/* The proved calls. */
uint32_t proved_ksm_table_open(uint64_t *numbers, handle *table, handle *passes, uint32_t nodes, uint32_t frames_per_node, uint32_t count,
                               uint64_t last_generation, uint32_t tries);
uint32_t proved_ksm_book_open(uint64_t *numbers, handle *book, handle *passes, uint32_t nodes, uint32_t frames_per_node, uint32_t count,
                              uint64_t last_generation, uint32_t tries, _Bool keeps);
uint32_t proved_ksm_table_close(handle *table, handle *passes);
uint32_t proved_ksm_pass_open(handle *passes, handle *pass);
uint32_t proved_ksm_pass_close(handle *passes, handle *pass);

/* A lock is free at 0. It is held for the time of an allocation, so who waits lets others run. */
static void lock(uint32_t *word) {
    while (__atomic_exchange_n(word, 1, __ATOMIC_SEQ_CST) != 0)
        sched_yield();
}

static void unlock(uint32_t *word) {
    __atomic_store_n(word, 0, __ATOMIC_SEQ_CST);
}

/* The number of the next table, and its lock. Two tables of a process never get the same. */
static uint64_t numbers;
static uint32_t numbers_lock;

/* A pass, and nothing else, is open and has no passes. */
static uint32_t closed_or_kind(const void *at) {
    return at == NULL ? KSM_CLOSED : KSM_KIND;
}

uint32_t ksm_table_open(ksm_table *table, uint32_t nodes, uint32_t frames_per_node, uint32_t passes, uint64_t last_generation, uint32_t tries) {
    if (table == NULL)
        return KSM_NULL;
    lock(&numbers_lock);
    uint32_t answer = proved_ksm_table_open(&numbers, keeper_of(table), passes_of(table), nodes, frames_per_node, passes, last_generation, tries);
    unlock(&numbers_lock);
    return answer;
}

static uint32_t book_open(ksm_table *book, uint32_t nodes, uint32_t frames_per_node, uint32_t passes, uint64_t last_generation, uint32_t tries,
                          _Bool keeps) {
    if (book == NULL)
        return KSM_NULL;
    lock(&numbers_lock);
    uint32_t answer = proved_ksm_book_open(&numbers, keeper_of(book), passes_of(book), nodes, frames_per_node, passes, last_generation, tries, keeps);
    unlock(&numbers_lock);
    return answer;
}

uint32_t ksm_book_open(ksm_table *book, uint32_t nodes, uint32_t frames_per_node, uint32_t passes, uint64_t last_generation, uint32_t tries) {
    return book_open(book, nodes, frames_per_node, passes, last_generation, tries, 0);
}

uint32_t ksm_book_open_kept(ksm_table *book, uint32_t nodes, uint32_t frames_per_node, uint32_t passes, uint64_t last_generation, uint32_t tries) {
    return book_open(book, nodes, frames_per_node, passes, last_generation, tries, 1);
}

uint32_t ksm_table_close(ksm_table *table) {
    if (table == NULL)
        return KSM_NULL;
    lock(&table->lock);
    uint32_t answer = table->passes == NULL ? closed_or_kind(table->at) : proved_ksm_table_close(keeper_of(table), passes_of(table));
    unlock(&table->lock);
    return answer;
}

uint32_t ksm_pass_open(ksm_table *table, ksm_pass *pass) {
    if (table == NULL || pass == NULL)
        return KSM_NULL;
    if (pass->at != NULL)
        return KSM_OPEN;
    lock(&table->lock);
    uint32_t answer = table->passes == NULL ? closed_or_kind(table->at) : proved_ksm_pass_open(passes_of(table), pass_of(pass));
    unlock(&table->lock);
    return answer;
}

uint32_t ksm_pass_close(ksm_table *table, ksm_pass *pass) {
    if (table == NULL || pass == NULL)
        return KSM_NULL;
    if (pass->at == NULL)
        return KSM_CLOSED;
    lock(&table->lock);
    uint32_t answer = table->passes == NULL ? closed_or_kind(table->at) : proved_ksm_pass_close(passes_of(table), pass_of(pass));
    unlock(&table->lock);
    return answer;
}

/* The other calls: NULL or the proved call. */
#define KEEPER(name, parameters, arguments) \
    uint32_t proved_##name parameters; \
    uint32_t name parameters { return table == NULL ? (uint32_t)KSM_NULL : proved_##name arguments; }

KEEPER(ksm_raise, (ksm_table *table, uint32_t frame), (table, frame))
KEEPER(ksm_put, (ksm_table *table, uint32_t frame, size_t i, uint64_t word), (table, frame, i, word))
KEEPER(ksm_open_frame, (ksm_table *table, uint32_t frame), (table, frame))
KEEPER(ksm_publish, (ksm_table *table, uint32_t place, uint32_t frame), (table, place, frame))
KEEPER(ksm_replace, (ksm_table *table, uint32_t place, uint32_t frame), (table, place, frame))
KEEPER(ksm_withdraw, (ksm_table *table, uint32_t place), (table, place))
KEEPER(ksm_add, (ksm_table *table, uint32_t frame), (table, frame))
KEEPER(ksm_sub, (ksm_table *table, uint32_t frame), (table, frame))
KEEPER(ksm_freeze, (ksm_table *table, uint32_t frame), (table, frame))
KEEPER(ksm_reap, (ksm_table *table, uint32_t frame), (table, frame))

#define CALL(name, parameters, arguments, is_null) \
    uint32_t proved_##name parameters; \
    uint32_t name parameters { return (is_null) ? (uint32_t)KSM_NULL : proved_##name arguments; }

CALL(ksm_load, (ksm_table *table, uint32_t frame, size_t i, uint64_t *word), (table, frame, i, word), table == NULL || word == NULL)
CALL(ksm_frame, (ksm_table *table, uint32_t frame, uint32_t *kind, uint64_t *references, uint64_t *life), (table, frame, kind, references, life),
     table == NULL || kind == NULL || references == NULL || life == NULL)
CALL(ksm_book_apply, (ksm_table *book, const ksm_command *command, ksm_made *made), (book, command, made),
     book == NULL || command == NULL || made == NULL)
CALL(ksm_book_read, (ksm_table *book, uint16_t guest, uint32_t page, uint64_t bytes[8]), (book, guest, page, bytes), book == NULL || bytes == NULL)
CALL(ksm_book_ticket, (ksm_table *book, uint16_t guest, uint32_t page, uint32_t *place), (book, guest, page, place), book == NULL || place == NULL)
CALL(ksm_book_counters, (ksm_table *book, ksm_counters *counters), (book, counters), book == NULL || counters == NULL)
CALL(ksm_book_entries, (ksm_table *book, uint64_t *count), (book, count), book == NULL || count == NULL)
CALL(ksm_book_entry, (ksm_table *book, uint64_t number, ksm_command *command, uint32_t *answer, ksm_made *made),
     (book, number, command, answer, made), book == NULL || command == NULL || answer == NULL || made == NULL)
CALL(ksm_find, (ksm_pass *pass, uint32_t place), (pass, place), pass == NULL)
CALL(ksm_find_equal, (ksm_pass *pass, uint32_t place, const uint64_t page[8]), (pass, place, page), pass == NULL || page == NULL)
CALL(ksm_look_up, (ksm_pass *pass, uint32_t place, uint64_t words[8]), (pass, place, words), pass == NULL || words == NULL)
CALL(ksm_word, (ksm_pass *pass, size_t i, uint64_t *word), (pass, i, word), pass == NULL || word == NULL)
CALL(ksm_words, (ksm_pass *pass, uint64_t words[8]), (pass, words), pass == NULL || words == NULL)
CALL(ksm_held, (ksm_pass *pass, uint32_t *place, uint32_t *frame, uint64_t *life), (pass, place, frame, life),
     pass == NULL || place == NULL || frame == NULL || life == NULL)
CALL(ksm_leave, (ksm_pass *pass), (pass), pass == NULL)

/* A slice of no numbers has a pointer that is not NULL. */
uint32_t proved_ksm_book_mappers(ksm_table *book, uint32_t place, uint64_t *pages, size_t room, uint64_t *count);

uint32_t ksm_book_mappers(ksm_table *book, uint32_t place, uint64_t *pages, size_t room, uint64_t *count) {
    uint64_t none;
    if (book == NULL || count == NULL || (pages == NULL && room > 0))
        return KSM_NULL;
    return proved_ksm_book_mappers(book, place, pages == NULL ? &none : pages, room, count);
}

uint32_t ksm_reap_all(ksm_table *table, uint32_t *frames, size_t *count) {
    if (table == NULL || count == NULL || (frames == NULL && *count > 0))
        return KSM_NULL;
    uint32_t answer = KSM_DONE;
    size_t left = 0;
    for (size_t i = 0; i < *count; i++) {
        uint32_t one = proved_ksm_reap(table, frames[i]), frame = frames[i];
        if (one == KSM_CLOSED || one == KSM_KIND)
            return one;
        if (one == KSM_DONE)
            continue;
        if (answer == KSM_DONE || (answer == KSM_USED && one != KSM_USED))
            answer = one;
        frames[i] = frames[left];
        frames[left++] = frame;
    }
    *count = left;
    return answer;
}

/*
 * A shared book.
 *
 * The row of counters that was published last is rows[newest % 2]. The next one is written to the other copy, and told by its number behind that. So
 * a row that is read between two looks at one number is whole: its copy is not written before a later number was told. Numbers only grow.
 * Each store releases and each load acquires: who reads a word of a later row sees the number before that row at its second look, and who reads a
 * number sees its row.
 */
#define COUNTERS (sizeof(ksm_counters) / sizeof(uint64_t))

typedef struct shared {
    ksm_table book; /* in a call by who has the lock, but for its passes */
    pthread_mutex_t lock; /* all zero, it is free: PTHREAD_MUTEX_INITIALIZER of Linux */
    uint32_t places; /* changes while no pass is out */
    _Atomic uint32_t is_open;
    _Atomic uint64_t newest, rows[2][COUNTERS];
} shared;

_Static_assert(sizeof(shared) <= sizeof(ksm_shared) && _Alignof(shared) <= _Alignof(ksm_shared), "a shared book has room in its handle");

static shared *inside(ksm_shared *book) {
    return (shared *)(void *)book;
}

static shared *locked(ksm_shared *book) {
    shared *s = inside(book);
    pthread_mutex_lock(&s->lock);
    return s;
}

static uint32_t unlocked(shared *s, uint32_t answer) {
    pthread_mutex_unlock(&s->lock);
    return answer;
}

static uint64_t loaded(const _Atomic uint64_t *word) {
    return atomic_load_explicit(word, memory_order_acquire);
}

static void store(_Atomic uint64_t *word, uint64_t value) {
    atomic_store_explicit(word, value, memory_order_release);
}

static void publish(shared *s) {
    ksm_counters counters;
    uint64_t row[COUNTERS], next = loaded(&s->newest) + 1;
    (void)!ksm_book_counters(&s->book, &counters);
    memcpy(row, &counters, sizeof row);
    for (size_t i = 0; i < COUNTERS; i++)
        store(&s->rows[next % 2][i], row[i]);
    store(&s->newest, next);
}

uint32_t ksm_shared_counters(ksm_shared *book, ksm_counters *counters) {
    if (book == NULL || counters == NULL)
        return KSM_NULL;
    shared *s = inside(book);
    if (!atomic_load(&s->is_open))
        return KSM_CLOSED;
    uint64_t row[COUNTERS], number, newest = loaded(&s->newest);
    do {
        number = newest;
        for (size_t i = 0; i < COUNTERS; i++)
            row[i] = loaded(&s->rows[number % 2][i]);
        newest = loaded(&s->newest);
    } while (newest != number);
    memcpy(counters, row, sizeof row);
    return KSM_DONE;
}

/* Passes are opened meanwhile by threads that have the lock of the passes alone, so an opening has that too. */
static uint32_t shared_open(ksm_shared *book, uint32_t nodes, uint32_t frames_per_node, uint32_t passes, uint64_t last_generation, uint32_t tries,
                            _Bool keeps) {
    if (book == NULL)
        return KSM_NULL;
    shared *s = locked(book);
    lock(&s->book.lock);
    uint32_t answer = book_open(&s->book, nodes, frames_per_node, passes, last_generation, tries, keeps);
    if (answer == KSM_DONE)
        s->places = nodes * frames_per_node;
    unlock(&s->book.lock);
    if (answer == KSM_DONE) {
        publish(s);
        atomic_store(&s->is_open, 1);
    }
    return unlocked(s, answer);
}

uint32_t ksm_shared_open(ksm_shared *book, uint32_t nodes, uint32_t frames_per_node, uint32_t passes, uint64_t last_generation, uint32_t tries) {
    return shared_open(book, nodes, frames_per_node, passes, last_generation, tries, 0);
}

uint32_t ksm_shared_open_kept(ksm_shared *book, uint32_t nodes, uint32_t frames_per_node, uint32_t passes, uint64_t last_generation, uint32_t tries) {
    return shared_open(book, nodes, frames_per_node, passes, last_generation, tries, 1);
}

uint32_t ksm_shared_close(ksm_shared *book) {
    if (book == NULL)
        return KSM_NULL;
    shared *s = locked(book);
    uint32_t answer = ksm_table_close(&s->book);
    if (answer == KSM_DONE)
        atomic_store(&s->is_open, 0);
    return unlocked(s, answer);
}

uint32_t ksm_shared_pass_open(ksm_shared *book, ksm_pass *pass) {
    return book == NULL ? (uint32_t)KSM_NULL : ksm_pass_open(&inside(book)->book, pass);
}

uint32_t ksm_shared_pass_close(ksm_shared *book, ksm_pass *pass) {
    return book == NULL ? (uint32_t)KSM_NULL : ksm_pass_close(&inside(book)->book, pass);
}

uint32_t ksm_shared_apply(ksm_shared *book, const ksm_command *command, ksm_made *made) {
    if (book == NULL)
        return KSM_NULL;
    shared *s = locked(book);
    uint32_t answer = ksm_book_apply(&s->book, command, made);
    if (answer == KSM_DONE)
        publish(s);
    return unlocked(s, answer);
}

/* The other calls: under the lock that of the book, which tests the other pointers. */
#define LOCKED(name, parameters, call, ...) \
    uint32_t name parameters { \
        if (book == NULL) \
            return KSM_NULL; \
        shared *s = locked(book); \
        return unlocked(s, call(&s->book, __VA_ARGS__)); \
    }

LOCKED(ksm_shared_read, (ksm_shared *book, uint16_t guest, uint32_t page, uint64_t bytes[8]), ksm_book_read, guest, page, bytes)
LOCKED(ksm_shared_ticket, (ksm_shared *book, uint16_t guest, uint32_t page, uint32_t *place), ksm_book_ticket, guest, page, place)
LOCKED(ksm_shared_mappers, (ksm_shared *book, uint32_t place, uint64_t *pages, size_t room, uint64_t *count), ksm_book_mappers, place, pages, room,
       count)
LOCKED(ksm_shared_entries, (ksm_shared *book, uint64_t *count), ksm_book_entries, count)
LOCKED(ksm_shared_entry, (ksm_shared *book, uint64_t number, ksm_command *command, uint32_t *answer, ksm_made *made), ksm_book_entry, number, command,
       answer, made)

/* An audit: the next place that nobody has drawn, and the workers. */
typedef struct audit {
    _Atomic uint64_t next;
    uint64_t places;
    ksm_row *rows;
} audit;

typedef struct worker {
    audit *of;
    ksm_pass pass;
    pthread_t thread;
} worker;

static ksm_row looked_up(ksm_pass *pass, uint32_t place) {
    ksm_row row = {0};
    uint32_t where;
    row.answer = ksm_find(pass, place);
    if (row.answer == KSM_DONE) {
        (void)!ksm_held(pass, &where, &row.frame, &row.life);
        (void)!ksm_words(pass, row.words);
        (void)!ksm_leave(pass);
    }
    return row;
}

static void *work(void *given) {
    worker *w = given;
    audit *of = w->of;
    for (uint64_t place = atomic_fetch_add(&of->next, 1); place < of->places; place = atomic_fetch_add(&of->next, 1))
        of->rows[place] = looked_up(&w->pass, (uint32_t)place);
    return NULL;
}

/* Begins the work of each from the second on, in a thread of its own, and does that of the first here. */
static void work_all(worker *workers, uint32_t count) {
    uint32_t begun = 1;
    while (begun < count && pthread_create(&workers[begun].thread, NULL, work, &workers[begun]) == 0)
        begun++;
    work(&workers[0]);
    while (begun > 1)
        pthread_join(workers[--begun].thread, NULL);
}

uint32_t ksm_shared_audit(ksm_shared *book, uint32_t threads, ksm_row *rows, size_t room, uint64_t *count) {
    if (book == NULL || count == NULL || (rows == NULL && room > 0))
        return KSM_NULL;
    shared *s = inside(book);
    audit of = {0};
    worker workers[KSM_MOST_PASSES];
    uint32_t out = 0, answer = threads == 0 || threads > KSM_MOST_PASSES ? KSM_SHAPE : KSM_DONE;
    while (answer == KSM_DONE && out < threads) {
        workers[out] = (worker){.of = &of, .pass = KSM_PASS_NONE};
        answer = ksm_pass_open(&s->book, &workers[out].pass);
        out += answer == KSM_DONE;
    }
    if (answer == KSM_DONE) {
        /* A pass is out, so the book is open and stays so. */
        *count = of.places = s->places;
        of.rows = rows;
        if (room < of.places)
            answer = KSM_RANGE;
        else
            work_all(workers, threads);
    }
    while (out > 0)
        (void)!ksm_pass_close(&s->book, &workers[--out].pass);
    return answer;
}

static const char *const DONE_TEXTS[] = {
    "done",
    "the place was empty",
    "the frame had no reference",
    "the frame was in another life than the place named",
    "all exchanges were lost to others",
    "a word of the frame is not the page's",
    "a reader has a reference on the frame",
    "there is no such page, or no dup for it",
};

static const char *const REFUSED_TEXTS[] = {
    "the handle is not open",
    "the handle stands for something else",
    "the handle that is to be opened is open",
    "a size is out of its range",
    "there is no memory",
    "there is no such frame, place or word",
    "the frame or the place is in a state that does not allow the call",
    "the pass holds a frame",
    "the pass holds nothing",
    "all passes of the table are out",
    "passes of the table are out",
    "the pass is another table's",
    "there is no command of this kind",
    "a pointer is NULL",
};

static const char *const BOOK_TEXTS[] = {
    "the page, or a page of the guest, is not registered",
    "the page is registered",
    "no frame of the node is free",
    "the scan does not run",
    "the knob does not change while pages are shared",
    "the value is out of its knob's range",
    "somebody holds the frame of the dup",
    "pages are not merged across nodes",
    "no dup with items stands at the place",
    "there is no such node",
};

#define TEXT(texts, first) if (answer - (first) < sizeof(texts) / sizeof *(texts)) return (texts)[answer - (first)]

const char *ksm_strerror(uint32_t answer) {
    TEXT(DONE_TEXTS, KSM_DONE);
    TEXT(REFUSED_TEXTS, KSM_CLOSED);
    TEXT(BOOK_TEXTS, KSM_UNKNOWN_PAGE);
    return "no number of ksmbook";
}

uint32_t ksm_version(void) {
    return KSM_VERSION;
}
