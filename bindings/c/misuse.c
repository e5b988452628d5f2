/*
 * Random calls, right and wrong, beside a model that is written from the header alone: misuse [CALLS [SEED]].
 *
 * CALLS (1,000,000) calls of every export, by one thread, on three tables, a book, a shared book and eight passes: with NULL in the place of each
 * pointer, with handles that are closed, closed twice, of another table or of another kind, with frames, places and words that there are not, in
 * states that do not allow the call, and with passes that are lost while they are out. Each answer has to be the model's, and what a call tells too; what a
 * refused call was to write has to be as it was. There is memory for everything, so KSM_MEMORY is wrong anywhere.
 * Prints how often each number was answered, and ends with 1 at the first that is not the model's.
 */
#include "ksmbook.h"

#include <stdio.h>
#include <stdlib.h>
#include <string.h>

#define TABLES 3
#define PASSES 8
#define FRAMES 6
#define NUMBERS 64
#define LIVES 40

typedef struct frame {
    uint32_t kind;
    uint64_t own, readers, life, words[KSM_PAGE_WORDS];
} frame;

typedef struct place {
    int named;
    uint32_t frame;
    uint64_t life;
} place;

typedef struct table {
    ksm_table handle;
    int open;
    uint32_t count, passes, out;
    frame frames[FRAMES];
    place places[FRAMES];
} table;

typedef struct pass {
    ksm_pass handle;
    table *of; /* NULL where it is not open */
    int holds;
    uint32_t place, frame;
    uint64_t life;
} pass;

static table tables[TABLES];
static pass passes[PASSES];
static ksm_table book;
static uint64_t answered[NUMBERS], lost, replaced, call;
static uint64_t state = 1;

static uint32_t drawn(uint32_t below) {
    state = state * 6364136223846793005u + 1442695040888963407u;
    return (uint32_t)((state >> 33) % below);
}

static void is(uint32_t answer, uint32_t wanted, const char *what) {
    if (answer != wanted) {
        fprintf(stderr, "misuse: call %llu, %s answered %u (%s), not %u (%s)\n", (unsigned long long)call, what, answer, ksm_strerror(answer),
                wanted, ksm_strerror(wanted));
        exit(1);
    }
    answered[answer]++;
}

static void same(int is_so, const char *what) {
    if (!is_so) {
        fprintf(stderr, "misuse: call %llu, %s\n", (unsigned long long)call, what);
        exit(1);
    }
}

/* What a keeper's call gets: a table, NULL, the book, or a pass; and what a handle of that kind is answered, 0 for the table's own answer. */
static ksm_table *some_table(table **of, uint32_t *refused) {
    uint32_t n = drawn(20);
    *of = &tables[drawn(TABLES)];
    *refused = (*of)->open ? 0 : KSM_CLOSED;
    if (n == 0) {
        *refused = KSM_NULL;
        return NULL;
    }
    if (n == 1) {
        *refused = KSM_KIND;
        return &book;
    }
    if (n == 2) {
        pass *p = &passes[drawn(PASSES)];
        *refused = p->of != NULL ? KSM_KIND : KSM_CLOSED;
        return (ksm_table *)(void *)&p->handle;
    }
    return &(*of)->handle;
}

static ksm_pass *some_pass(pass **of, uint32_t *refused) {
    uint32_t n = drawn(20);
    *of = &passes[drawn(PASSES)];
    *refused = (*of)->of != NULL ? 0 : KSM_CLOSED;
    if (n == 0) {
        *refused = KSM_NULL;
        return NULL;
    }
    if (n == 1) {
        table *t = &tables[drawn(TABLES)];
        *refused = t->open ? KSM_KIND : KSM_CLOSED;
        return (ksm_pass *)(void *)&t->handle;
    }
    return &(*of)->handle;
}

static void open_table(void) {
    table *t = &tables[drawn(TABLES)];
    uint32_t nodes = drawn(12) == 0 ? KSM_MOST_NODES + 1 : 1 + drawn(2), frames = drawn(12) == 0 ? 0 : 1 + drawn(3), count = drawn(12) == 0 ? KSM_MOST_PASSES + 1 : 1 + drawn(3);
    uint32_t tries = drawn(12) == 0 ? KSM_MOST_TRIES + 1 : 1;
    uint64_t lives = drawn(12) == 0 ? 0 : LIVES;
    if (drawn(20) == 0) {
        is(ksm_table_open(NULL, nodes, frames, count, lives, tries), KSM_NULL, "ksm_table_open");
        return;
    }
    uint32_t wanted = t->open ? KSM_OPEN : nodes > KSM_MOST_NODES || frames == 0 || count > KSM_MOST_PASSES || tries > KSM_MOST_TRIES || lives == 0 ? KSM_SHAPE : KSM_DONE;
    is(ksm_table_open(&t->handle, nodes, frames, count, lives, tries), wanted, "ksm_table_open");
    if (wanted == KSM_DONE) {
        ksm_table handle = t->handle;
        memset(t, 0, sizeof *t);
        t->handle = handle;
        t->open = 1;
        t->count = nodes * frames;
        t->passes = count;
    }
}

static void close_table(void) {
    table *t;
    uint32_t refused;
    ksm_table *handle = some_table(&t, &refused);
    /* The book has no pass out, so it would be closed: that is left for the end. */
    if (handle == &book)
        return;
    uint32_t wanted = refused ? refused : t->out > 0 ? KSM_PASSES_OUT : KSM_DONE;
    is(ksm_table_close(handle), wanted, "ksm_table_close");
    if (wanted == KSM_DONE)
        t->open = 0;
}

static void open_pass(void) {
    table *t;
    pass *p;
    uint32_t refused;
    ksm_table *handle = some_table(&t, &refused);
    p = &passes[drawn(PASSES)];
    if (handle == &book || (void *)handle == (void *)&p->handle)
        return;
    if (drawn(20) == 0) {
        is(ksm_pass_open(handle, NULL), KSM_NULL, "ksm_pass_open");
        return;
    }
    uint32_t wanted = handle == NULL    ? KSM_NULL
                      : p->of != NULL   ? KSM_OPEN
                      : refused         ? refused
                      : t->out == t->passes ? KSM_NO_PASS
                                        : KSM_DONE;
    is(ksm_pass_open(handle, &p->handle), wanted, "ksm_pass_open");
    if (wanted == KSM_DONE) {
        p->of = t;
        p->holds = 0;
        t->out++;
    }
}

static void close_pass(void) {
    table *t;
    pass *p;
    uint32_t refused, is_no_pass;
    ksm_table *handle = some_table(&t, &refused);
    ksm_pass *back = some_pass(&p, &is_no_pass);
    if (handle == &book || (void *)handle == (void *)back)
        return;
    uint32_t wanted = handle == NULL || back == NULL ? KSM_NULL
                      : is_no_pass == KSM_CLOSED     ? KSM_CLOSED
                      : refused                      ? refused
                      : is_no_pass                   ? is_no_pass
                      : p->of != t                   ? KSM_OTHER
                      : p->holds                     ? KSM_HOLDING
                                                     : KSM_DONE;
    is(ksm_pass_close(handle, back), wanted, "ksm_pass_close");
    if (wanted == KSM_DONE) {
        p->of = NULL;
        t->out--;
    }
}

/* A pass is lost: its table stays open for good. */
static void lose_pass(void) {
    pass *p = &passes[drawn(PASSES)];
    if (p->of == NULL || p->holds || drawn(100) != 0)
        return;
    memset(&p->handle, 0, sizeof p->handle);
    p->of = NULL;
    lost++;
}

/* A frame or a place of a table, or now and then one that it has not. */
static uint32_t some_number(const table *t) {
    return t != NULL && t->open && drawn(4) ? drawn(t->count) : drawn(FRAMES + 1);
}

/* Whether a place may be named or emptied; where it may not, it may be replaced. */
static int is_loose(const table *t, uint32_t at) {
    const place *p = &t->places[at];
    return !p->named || t->frames[p->frame].kind != KSM_FRAME_STABLE || t->frames[p->frame].life != p->life;
}

/* The calls of the keeper: a frame or place, which there may not be. */
static void keep(void) {
    table *t;
    uint32_t refused, wanted, n = drawn(10);
    size_t i = drawn(KSM_PAGE_WORDS + 1);
    uint64_t word = state;
    ksm_table *handle = some_table(&t, &refused);
    uint32_t f = some_number(t), at = some_number(t);
    if (drawn(200) == 0)
        f = at = UINT32_MAX, i = SIZE_MAX;
    int is_frame = !refused && f < t->count, is_place = !refused && at < t->count;
    frame *x = is_frame ? &t->frames[f] : &t->frames[0];
    uint32_t kind = x->kind;
    switch (n) {
    case 0:
        wanted = !is_frame ? KSM_RANGE : kind != KSM_FRAME_FREE ? KSM_STATE : KSM_DONE;
        is(ksm_raise(handle, f), refused ? refused : wanted, "ksm_raise");
        if (!refused && wanted == KSM_DONE)
            x->kind = KSM_FRAME_FILLING, x->life++;
        break;
    case 1:
        wanted = !is_frame || i >= KSM_PAGE_WORDS ? KSM_RANGE : kind != KSM_FRAME_FILLING && kind != KSM_FRAME_PRIVATE ? KSM_STATE : KSM_DONE;
        is(ksm_put(handle, f, i, word), refused ? refused : wanted, "ksm_put");
        if (!refused && wanted == KSM_DONE)
            x->words[i] = word;
        break;
    case 2:
        wanted = !is_frame ? KSM_RANGE : kind != KSM_FRAME_FILLING ? KSM_STATE : KSM_DONE;
        is(ksm_open_frame(handle, f), refused ? refused : wanted, "ksm_open_frame");
        if (!refused && wanted == KSM_DONE)
            x->kind = KSM_FRAME_PRIVATE, x->own = 1;
        break;
    case 3:
        wanted = !is_frame || !is_place ? KSM_RANGE : kind != KSM_FRAME_PRIVATE || !is_loose(t, at) ? KSM_STATE : KSM_DONE;
        is(ksm_publish(handle, at, f), refused ? refused : wanted, "ksm_publish");
        if (!refused && wanted == KSM_DONE) {
            x->kind = KSM_FRAME_STABLE;
            t->places[at] = (place){1, f, x->life};
        }
        break;
    case 8:
        wanted = !is_frame || !is_place ? KSM_RANGE : kind != KSM_FRAME_PRIVATE || is_loose(t, at) ? KSM_STATE : KSM_DONE;
        is(ksm_replace(handle, at, f), refused ? refused : wanted, "ksm_replace");
        if (!refused && wanted == KSM_DONE) {
            x->kind = KSM_FRAME_STABLE;
            t->places[at] = (place){1, f, x->life};
            replaced++;
        }
        break;
    case 4:
        wanted = !is_place ? KSM_RANGE : !is_loose(t, at) ? KSM_STATE : KSM_DONE;
        is(ksm_withdraw(handle, at), refused ? refused : wanted, "ksm_withdraw");
        if (!refused && wanted == KSM_DONE)
            t->places[at].named = 0;
        break;
    case 5:
        wanted = !is_frame ? KSM_RANGE : x->own < 1 || x->own >= KSM_MOST_REFERENCES ? KSM_STATE : KSM_DONE;
        is(ksm_add(handle, f), refused ? refused : wanted, "ksm_add");
        if (!refused && wanted == KSM_DONE)
            x->own++;
        break;
    case 6:
        wanted = !is_frame ? KSM_RANGE : x->own < 1 ? KSM_STATE : KSM_DONE;
        is(ksm_sub(handle, f), refused ? refused : wanted, "ksm_sub");
        if (!refused && wanted == KSM_DONE && --x->own == 0)
            x->kind = KSM_FRAME_DYING;
        break;
    case 7:
        wanted = !is_frame ? KSM_RANGE : kind != KSM_FRAME_STABLE ? KSM_STATE : x->readers ? KSM_USED : KSM_DONE;
        is(ksm_freeze(handle, f), refused ? refused : wanted, "ksm_freeze");
        if (!refused && wanted == KSM_DONE)
            x->own = 0, x->kind = KSM_FRAME_DYING;
        break;
    default:
        wanted = !is_frame ? KSM_RANGE : kind != KSM_FRAME_DYING ? KSM_STATE : x->readers ? KSM_USED : KSM_DONE;
        is(ksm_reap(handle, f), refused ? refused : wanted, "ksm_reap");
        if (!refused && wanted == KSM_DONE)
            x->kind = x->life == LIVES ? KSM_FRAME_RETIRED : KSM_FRAME_FREE;
    }
}

/* Several frames reaped in one call. */
static void reap_all(void) {
    table *t;
    uint32_t refused, frames[4], kept[4], wanted = KSM_DONE;
    size_t count = 1 + drawn(4), left = 0, given = count;
    ksm_table *handle = some_table(&t, &refused);
    for (size_t i = 0; i < count; i++)
        frames[i] = kept[i] = drawn(FRAMES + 1);
    if (drawn(20) == 0) {
        is(ksm_reap_all(handle, NULL, &count), KSM_NULL, "ksm_reap_all");
        is(ksm_reap_all(handle, frames, NULL), KSM_NULL, "ksm_reap_all");
        return;
    }
    for (size_t i = 0; !refused && i < given; i++) {
        uint32_t f = frames[i], one;
        frame *x = &t->frames[f < t->count ? f : 0];
        one = f >= t->count ? KSM_RANGE : x->kind != KSM_FRAME_DYING ? KSM_STATE : x->readers ? KSM_USED : KSM_DONE;
        if (one == KSM_DONE)
            x->kind = x->life == LIVES ? KSM_FRAME_RETIRED : KSM_FRAME_FREE;
        else
            kept[left++] = f;
        if (one != KSM_DONE && (wanted == KSM_DONE || (wanted == KSM_USED && one != KSM_USED)))
            wanted = one;
    }
    is(ksm_reap_all(handle, frames, &count), refused ? refused : wanted, "ksm_reap_all");
    if (refused)
        left = given;
    same(count == left && memcmp(frames, kept, left * sizeof *frames) == 0, "ksm_reap_all keeps other frames");
}

/* What a keeper is told. */
static void tell(void) {
    table *t;
    uint32_t refused, f = drawn(FRAMES + 1), kind = 77, wanted;
    size_t i = drawn(KSM_PAGE_WORDS + 1);
    uint64_t own = 77, life = 77, word = 77;
    ksm_table *handle = some_table(&t, &refused);
    int is_frame = !refused && f < t->count;
    const frame *x = &t->frames[is_frame ? f : 0];
    if (drawn(20) == 0) {
        is(ksm_frame(handle, f, NULL, &own, &life), KSM_NULL, "ksm_frame");
        is(ksm_frame(handle, f, &kind, NULL, &life), KSM_NULL, "ksm_frame");
        is(ksm_frame(handle, f, &kind, &own, NULL), KSM_NULL, "ksm_frame");
        is(ksm_load(handle, f, i, NULL), KSM_NULL, "ksm_load");
    }
    wanted = refused ? refused : is_frame ? KSM_DONE : KSM_RANGE;
    is(ksm_frame(handle, f, &kind, &own, &life), wanted, "ksm_frame");
    if (wanted == KSM_DONE)
        same(kind == x->kind && own == x->own && life == x->life, "ksm_frame tells otherwise");
    else
        same(kind == 77 && own == 77 && life == 77, "ksm_frame wrote though it was refused");
    wanted = refused                                                             ? refused
             : !is_frame || i >= KSM_PAGE_WORDS                                  ? KSM_RANGE
             : x->kind < KSM_FRAME_PRIVATE || x->kind > KSM_FRAME_DYING          ? KSM_STATE
                                                                                 : KSM_DONE;
    is(ksm_load(handle, f, i, &word), wanted, "ksm_load");
    same(word == (wanted == KSM_DONE ? x->words[i] : 77), "ksm_load tells otherwise");
}

/* What a lookup is answered; with what is found at a place. */
static uint32_t looked(const pass *p, uint32_t at, frame **found) {
    if (p->holds)
        return KSM_HOLDING;
    if (at >= p->of->count)
        return KSM_RANGE;
    const place *x = &p->of->places[at];
    if (!x->named)
        return KSM_VACANT;
    *found = &p->of->frames[x->frame];
    return (*found)->own + (*found)->readers == 0 ? KSM_ZERO : (*found)->life != x->life ? KSM_LIFE : KSM_DONE;
}

static void holds(pass *p, uint32_t at) {
    p->holds = 1;
    p->place = at;
    p->frame = p->of->places[at].frame;
    p->life = p->of->places[at].life;
    p->of->frames[p->frame].readers++;
}

static void look(void) {
    pass *p;
    uint32_t refused, wanted;
    uint64_t words[KSM_PAGE_WORDS], was[KSM_PAGE_WORDS];
    frame *found = NULL;
    ksm_pass *handle = some_pass(&p, &refused);
    uint32_t at = some_number(p->of);
    memset(words, 77, sizeof words);
    memcpy(was, words, sizeof was);
    wanted = refused ? refused : looked(p, at, &found);
    switch (drawn(4)) {
    case 0:
        is(ksm_find(handle, at), wanted, "ksm_find");
        if (wanted == KSM_DONE)
            holds(p, at);
        break;
    case 1: {
        int equal = wanted == KSM_DONE && drawn(2);
        if (equal)
            memcpy(words, found->words, sizeof words);
        else if (wanted == KSM_DONE)
            memcpy(words, found->words, sizeof words), words[drawn(KSM_PAGE_WORDS)] ^= 1;
        is(ksm_find_equal(handle, at, words), wanted == KSM_DONE && !equal ? (uint32_t)KSM_DIFFERS : wanted, "ksm_find_equal");
        if (wanted == KSM_DONE)
            holds(p, at);
        break;
    }
    case 2:
        is(ksm_look_up(handle, at, words), wanted, "ksm_look_up");
        same(memcmp(words, wanted == KSM_DONE ? found->words : was, sizeof words) == 0, "ksm_look_up tells otherwise");
        break;
    default:
        if (drawn(4) == 0) {
            is(ksm_find_equal(handle, at, NULL), KSM_NULL, "ksm_find_equal");
            is(ksm_look_up(handle, at, NULL), KSM_NULL, "ksm_look_up");
            is(ksm_word(handle, 0, NULL), KSM_NULL, "ksm_word");
            is(ksm_words(handle, NULL), KSM_NULL, "ksm_words");
        }
    }
}

/* What a pass is told that holds a frame, and its leave. */
static void hold(void) {
    pass *p;
    uint32_t refused, at = 77, f = 77, wanted;
    uint64_t words[KSM_PAGE_WORDS], was[KSM_PAGE_WORDS], word = 77, life = 77;
    size_t i = drawn(KSM_PAGE_WORDS + 1);
    ksm_pass *handle = some_pass(&p, &refused);
    memset(words, 77, sizeof words);
    memcpy(was, words, sizeof was);
    wanted = refused ? refused : p->holds ? KSM_DONE : KSM_IDLE;
    const frame *x = wanted == KSM_DONE ? &p->of->frames[p->frame] : NULL;
    is(ksm_words(handle, words), wanted, "ksm_words");
    same(memcmp(words, x ? x->words : was, sizeof words) == 0, "ksm_words tells otherwise");
    is(ksm_word(handle, i, &word), x && i >= KSM_PAGE_WORDS ? (uint32_t)KSM_RANGE : wanted, "ksm_word");
    same(word == (x && i < KSM_PAGE_WORDS ? x->words[i] : 77), "ksm_word tells otherwise");
    is(ksm_held(handle, &at, &f, &life), wanted, "ksm_held");
    same(x ? at == p->place && f == p->frame && life == p->life : at == 77 && f == 77 && life == 77, "ksm_held tells otherwise");
    if (drawn(20) == 0) {
        is(ksm_held(handle, NULL, &f, &life), KSM_NULL, "ksm_held");
        is(ksm_held(handle, &at, NULL, &life), KSM_NULL, "ksm_held");
        is(ksm_held(handle, &at, &f, NULL), KSM_NULL, "ksm_held");
    }
    is(ksm_leave(handle), wanted, "ksm_leave");
    if (wanted == KSM_DONE) {
        p->holds = 0;
        p->of->frames[p->frame].readers--;
    }
}

/* The calls of a book, by handles that are no book, and with NULL. On the book each page reads what was stored last. */
static uint64_t stored[4];

static void of_book(void) {
    table *t;
    uint32_t refused, at = 77, page = drawn(4);
    uint64_t bytes[KSM_PAGE_WORDS], count = 77, pages[2];
    ksm_command command = {0};
    ksm_made made = {77, 77, 77};
    ksm_counters counters;
    ksm_table *handle = some_table(&t, &refused);
    command.kind = KSM_STORE;
    command.page = page;
    if (handle == &book) {
        for (size_t i = 0; i < KSM_PAGE_WORDS; i++)
            command.bytes[i] = state;
        stored[page] = state;
        is(ksm_book_apply(&book, &command, &made), KSM_DONE, "ksm_book_apply");
        same(made.count == 0 && made.stop == 0 && made.node == 0, "ksm_book_apply made something else");
        is(ksm_book_read(&book, 0, page, bytes), KSM_DONE, "ksm_book_read");
        same(bytes[0] == stored[page] && bytes[7] == stored[page], "ksm_book_read reads otherwise");
        is(ksm_book_read(&book, 1, page, bytes), KSM_NOTHING, "ksm_book_read");
        is(ksm_book_ticket(&book, 0, page, &at), KSM_NOTHING, "ksm_book_ticket");
        is(ksm_book_mappers(&book, page, pages, 2, &count), KSM_NOTHING, "ksm_book_mappers");
        is(ksm_book_counters(&book, &counters), KSM_DONE, "ksm_book_counters");
        same(counters.shared == 0 && counters.volatile_pages == 4, "ksm_book_counters counts otherwise");
        command.kind = (uint16_t)(drawn(2) ? 0 : 15);
        is(ksm_book_apply(&book, &command, &made), KSM_COMMAND, "ksm_book_apply");
        is(ksm_book_apply(&book, NULL, &made), KSM_NULL, "ksm_book_apply");
        is(ksm_book_apply(&book, &command, NULL), KSM_NULL, "ksm_book_apply");
        is(ksm_book_read(&book, 0, page, NULL), KSM_NULL, "ksm_book_read");
        is(ksm_book_ticket(&book, 0, page, NULL), KSM_NULL, "ksm_book_ticket");
        is(ksm_book_mappers(&book, 0, NULL, 1, &count), KSM_NULL, "ksm_book_mappers");
        is(ksm_book_mappers(&book, 0, NULL, 0, &count), KSM_NOTHING, "ksm_book_mappers");
        is(ksm_book_mappers(&book, 0, pages, 2, NULL), KSM_NULL, "ksm_book_mappers");
        is(ksm_book_counters(&book, NULL), KSM_NULL, "ksm_book_counters");
        is(ksm_book_entries(&book, NULL), KSM_NULL, "ksm_book_entries");
        is(ksm_book_entry(&book, 0, NULL, &at, &made), KSM_NULL, "ksm_book_entry");
        is(ksm_book_entry(&book, 0, &command, NULL, &made), KSM_NULL, "ksm_book_entry");
        is(ksm_book_entry(&book, 0, &command, &at, NULL), KSM_NULL, "ksm_book_entry");
        is(ksm_book_entry(&book, drawn(4), &command, &at, &made), KSM_NOTHING, "ksm_book_entry");
        is(ksm_book_open(&book, 1, 1, 1, 1, 1), KSM_OPEN, "ksm_book_open");
        is(ksm_book_open_kept(&book, 1, 1, 1, 1, 1), KSM_OPEN, "ksm_book_open_kept");
        return;
    }
    refused = refused ? refused : KSM_KIND;
    is(ksm_book_apply(handle, &command, &made), refused, "ksm_book_apply");
    is(ksm_book_read(handle, 0, 0, bytes), refused, "ksm_book_read");
    is(ksm_book_ticket(handle, 0, 0, &at), refused, "ksm_book_ticket");
    is(ksm_book_mappers(handle, 0, pages, 2, &count), refused, "ksm_book_mappers");
    is(ksm_book_counters(handle, &counters), refused, "ksm_book_counters");
    is(ksm_book_entries(handle, &count), refused, "ksm_book_entries");
    is(ksm_book_entry(handle, 0, &command, &at, &made), refused, "ksm_book_entry");
    same(made.count == 77 && at == 77 && count == 77, "a refused call of a book wrote");
    if (handle == NULL)
        is(ksm_book_open(NULL, 1, 1, 1, 1, 1), KSM_NULL, "ksm_book_open");
    if (handle == NULL)
        is(ksm_book_open_kept(NULL, 1, 1, 1, 1, 1), KSM_NULL, "ksm_book_open_kept");
}

/* The calls of a shared book, open or closed, of two passes and four pages; with a table's pass in the place of its own, and with NULL. */
#define SHARED_FRAMES 6
#define SHARED_PASSES 2

static struct {
    ksm_shared handle;
    int open, known[4];
    uint64_t words[4];
    ksm_pass passes[SHARED_PASSES + 1];
    uint32_t out;
} shared;

static void open_shared(void) {
    uint32_t frames = drawn(4) ? SHARED_FRAMES : KSM_MOST_FRAMES_PER_NODE + 1, wanted;
    wanted = shared.open ? KSM_OPEN : frames > KSM_MOST_FRAMES_PER_NODE ? KSM_SHAPE : KSM_DONE;
    if (drawn(2))
        is(ksm_shared_open(&shared.handle, 1, frames, SHARED_PASSES, LIVES, 1), wanted, "ksm_shared_open");
    else
        is(ksm_shared_open_kept(&shared.handle, 1, frames, SHARED_PASSES, LIVES, 1), wanted, "ksm_shared_open_kept");
    if (wanted == KSM_DONE) {
        shared.open = 1;
        memset(shared.known, 0, sizeof shared.known);
    }
}

static void close_shared(void) {
    uint32_t wanted = !shared.open ? KSM_CLOSED : shared.out > 0 ? KSM_PASSES_OUT : KSM_DONE;
    is(ksm_shared_close(&shared.handle), wanted, "ksm_shared_close");
    if (wanted != KSM_DONE)
        return;
    shared.open = 0;
    is(ksm_shared_close(&shared.handle), KSM_CLOSED, "ksm_shared_close");
}

static void shared_pass(void) {
    pass *p = &passes[drawn(PASSES)];
    ksm_pass *own = &shared.passes[drawn(SHARED_PASSES + 1)];
    uint32_t wanted;
    if (drawn(4) == 0) {
        wanted = p->of == NULL || !shared.open ? KSM_CLOSED : KSM_OTHER;
        is(ksm_shared_pass_close(&shared.handle, &p->handle), wanted, "ksm_shared_pass_close");
    } else if (drawn(2)) {
        wanted = own->at ? KSM_OPEN : !shared.open ? KSM_CLOSED : shared.out == SHARED_PASSES ? KSM_NO_PASS : KSM_DONE;
        is(ksm_shared_pass_open(&shared.handle, own), wanted, "ksm_shared_pass_open");
        shared.out += wanted == KSM_DONE;
    } else {
        wanted = own->at ? KSM_DONE : KSM_CLOSED;
        is(ksm_shared_pass_close(&shared.handle, own), wanted, "ksm_shared_pass_close");
        shared.out -= wanted == KSM_DONE;
    }
}

static void shared_page(void) {
    uint32_t page = drawn(4), at = 77;
    uint64_t bytes[KSM_PAGE_WORDS] = {77}, count = 77, pages[1];
    ksm_command command = {0};
    ksm_made made = {77, 77, 77};
    uint32_t is_there = !shared.open ? KSM_CLOSED : shared.known[page] ? KSM_DONE : KSM_NOTHING, wanted = !shared.open ? KSM_CLOSED : KSM_DONE;
    command.kind = shared.known[page] ? KSM_STORE : KSM_REGISTER;
    command.page = page;
    for (size_t i = 0; i < KSM_PAGE_WORDS; i++)
        command.bytes[i] = state;
    is(ksm_shared_read(&shared.handle, 0, page, bytes), is_there, "ksm_shared_read");
    same(bytes[0] == (is_there == KSM_DONE ? shared.words[page] : 77), "ksm_shared_read reads otherwise");
    is(ksm_shared_apply(&shared.handle, &command, &made), wanted, "ksm_shared_apply");
    same(made.count == (shared.open ? 0 : 77), "ksm_shared_apply made something else");
    shared.known[page] |= shared.open;
    shared.words[page] = state;
    command.kind = 15;
    is(ksm_shared_apply(&shared.handle, &command, &made), shared.open ? KSM_COMMAND : KSM_CLOSED, "ksm_shared_apply");
    is(ksm_shared_ticket(&shared.handle, 0, page, &at), shared.open ? KSM_NOTHING : KSM_CLOSED, "ksm_shared_ticket");
    is(ksm_shared_mappers(&shared.handle, page, pages, 1, &count), shared.open ? KSM_NOTHING : KSM_CLOSED, "ksm_shared_mappers");
    is(ksm_shared_entries(&shared.handle, &count), wanted, "ksm_shared_entries");
    same(shared.open ? count > 0 : count == 77, "ksm_shared_entries tells otherwise");
    is(ksm_shared_entry(&shared.handle, UINT64_MAX, &command, &at, &made), shared.open ? KSM_NOTHING : KSM_CLOSED, "ksm_shared_entry");
}

static void count_shared(void) {
    uint32_t threads = drawn(4), room = SHARED_FRAMES - drawn(2), wanted;
    uint64_t count = 77;
    ksm_row rows[SHARED_FRAMES];
    ksm_counters counters = {77, 77, 77, 77, 77, 77, 77, 77};
    is(ksm_shared_counters(&shared.handle, &counters), shared.open ? KSM_DONE : KSM_CLOSED, "ksm_shared_counters");
    uint64_t known = 0;
    for (int page = 0; page < 4; page++)
        known += shared.known[page] != 0;
    same(counters.volatile_pages == (shared.open ? known : 77), "ksm_shared_counters counts otherwise");
    wanted = threads == 0                           ? KSM_SHAPE
             : !shared.open                         ? KSM_CLOSED
             : shared.out + threads > SHARED_PASSES ? KSM_NO_PASS
             : room < SHARED_FRAMES                 ? KSM_RANGE
                                                    : KSM_DONE;
    is(ksm_shared_audit(&shared.handle, threads, rows, room, &count), wanted, "ksm_shared_audit");
    same(count == (wanted == KSM_DONE || wanted == KSM_RANGE ? SHARED_FRAMES : 77), "ksm_shared_audit counts otherwise");
    for (int place = 0; wanted == KSM_DONE && place < SHARED_FRAMES; place++)
        same(rows[place].answer == KSM_VACANT && rows[place].life == 0, "ksm_shared_audit finds otherwise");
}

static void shared_nulls(void) {
    ksm_command command = {0};
    ksm_made made;
    uint64_t count;
    uint32_t at;
    is(ksm_shared_open(NULL, 1, 1, 1, 1, 1), KSM_NULL, "ksm_shared_open");
    is(ksm_shared_close(NULL), KSM_NULL, "ksm_shared_close");
    is(ksm_shared_pass_open(NULL, &shared.passes[0]), KSM_NULL, "ksm_shared_pass_open");
    is(ksm_shared_pass_close(&shared.handle, NULL), KSM_NULL, "ksm_shared_pass_close");
    is(ksm_shared_apply(&shared.handle, NULL, &made), KSM_NULL, "ksm_shared_apply");
    is(ksm_shared_apply(NULL, &command, &made), KSM_NULL, "ksm_shared_apply");
    is(ksm_shared_read(&shared.handle, 0, 0, NULL), KSM_NULL, "ksm_shared_read");
    is(ksm_shared_ticket(&shared.handle, 0, 0, NULL), KSM_NULL, "ksm_shared_ticket");
    is(ksm_shared_mappers(&shared.handle, 0, NULL, 1, &count), KSM_NULL, "ksm_shared_mappers");
    is(ksm_shared_counters(&shared.handle, NULL), KSM_NULL, "ksm_shared_counters");
    is(ksm_shared_audit(&shared.handle, 1, NULL, 1, &count), KSM_NULL, "ksm_shared_audit");
    is(ksm_shared_audit(NULL, 1, NULL, 0, &count), KSM_NULL, "ksm_shared_audit");
    is(ksm_shared_entries(&shared.handle, NULL), KSM_NULL, "ksm_shared_entries");
    is(ksm_shared_entry(&shared.handle, 0, &command, &at, NULL), KSM_NULL, "ksm_shared_entry");
}

static void of_shared(void) {
    uint32_t n = drawn(40);
    if (n < 2)
        close_shared();
    else if (n < 8)
        open_shared();
    else if (n < 16)
        shared_pass();
    else if (n < 28)
        shared_page();
    else if (n < 38)
        count_shared();
    else
        shared_nulls();
}

static void open_the_book(void) {
    book = KSM_TABLE_NONE;
    is(ksm_book_open(&book, 1, 0, 1, 1, 1), KSM_SHAPE, "ksm_book_open");
    is(ksm_book_open(&book, 1, 8, 1, KSM_MOST_LIVES, 1), KSM_DONE, "ksm_book_open");
    for (uint32_t page = 0; page < 4; page++) {
        ksm_command command = {0};
        ksm_made made;
        command.kind = KSM_REGISTER;
        command.page = page;
        is(ksm_book_apply(&book, &command, &made), KSM_DONE, "ksm_book_apply");
    }
}

/* Whatever is out comes back, and what may be closed is closed. */
static void close_all(void) {
    for (pass *p = passes; p < passes + PASSES; p++) {
        if (p->of == NULL)
            continue;
        if (p->holds)
            is(ksm_leave(&p->handle), KSM_DONE, "ksm_leave");
        is(ksm_pass_close(&p->of->handle, &p->handle), KSM_DONE, "ksm_pass_close");
        is(ksm_pass_close(&p->of->handle, &p->handle), KSM_CLOSED, "ksm_pass_close");
        p->of->out--;
    }
    for (table *t = tables; t < tables + TABLES; t++)
        if (t->open)
            is(ksm_table_close(&t->handle), t->out > 0 ? KSM_PASSES_OUT : KSM_DONE, "ksm_table_close");
    is(ksm_table_close(&book), KSM_DONE, "ksm_table_close");
    is(ksm_table_close(&book), KSM_CLOSED, "ksm_table_close");
    for (ksm_pass *own = shared.passes; own <= shared.passes + SHARED_PASSES; own++) {
        uint32_t wanted = own->at ? KSM_DONE : KSM_CLOSED;
        is(ksm_shared_pass_close(&shared.handle, own), wanted, "ksm_shared_pass_close");
    }
    shared.out = 0;
    close_shared();
}

/* A table of which all passes were lost is given up, so that others are opened in its place. */
static void give_up(void) {
    for (table *t = tables; t < tables + TABLES; t++) {
        uint32_t known = 0;
        for (pass *p = passes; p < passes + PASSES; p++)
            known += p->of == t;
        if (t->open && t->out > 0 && known == 0) {
            is(ksm_table_close(&t->handle), KSM_PASSES_OUT, "ksm_table_close");
            memset(t, 0, sizeof *t);
        }
    }
}

int main(int argc, char **argv) {
    uint64_t calls = argc > 1 ? strtoull(argv[1], NULL, 10) : 1000000;
    state = argc > 2 ? strtoull(argv[2], NULL, 10) : 1;
    if (ksm_version() != KSM_VERSION)
        return 1;
    open_the_book();
    for (call = 0; call < calls; call++) {
        uint32_t n = drawn(100);
        if (n < 4)
            open_table();
        else if (n < 5)
            close_table();
        else if (n < 9)
            open_pass();
        else if (n < 12)
            close_pass();
        else if (n < 13)
            lose_pass();
        else if (n < 14)
            give_up();
        else if (n < 70)
            keep();
        else if (n < 73)
            reap_all();
        else if (n < 76)
            tell();
        else if (n < 88)
            look();
        else if (n < 96)
            hold();
        else if (n < 98)
            of_book();
        else
            of_shared();
    }
    close_all();
    for (uint32_t n = 0; n < NUMBERS; n++)
        if (answered[n])
            printf("%10llu  %2u %s\n", (unsigned long long)answered[n], n, ksm_strerror(n));
    printf("%llu random calls, %llu places replaced, %llu passes lost: each answer is the model's\n", (unsigned long long)calls,
           (unsigned long long)replaced, (unsigned long long)lost);
    return 0;
}
