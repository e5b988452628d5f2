/*
 * Four threads look pages up while the keeper moves them from frame to frame: crowd [LOOKUPS].
 *
 * Each page tells in its words which frame it is in, and in which life, so a reader sees whether all words that it read are of the life that it
 * holds. Readers begin once every place names a page. At the end every count has to be the keeper's own. Prints what was found, and ends with 1
 * if anything was wrong, nothing was held, or no page moved beside the readers.
 */
#include "ksmbook.h"

#include <pthread.h>
#include <sched.h>
#include <stdatomic.h>
#include <stdio.h>
#include <stdlib.h>

/* How large the table is; a build may set others. PLACES is no multiple of 5 or 7, and less than FRAMES. */
#ifndef READERS
#define READERS 4
#define FRAMES 32
#define PLACES 24
#endif

typedef struct reader {
    ksm_pass pass;
    uint64_t lookups;
    uint32_t first;
    uint64_t answers[KSM_USED + 1];
    uint64_t wrong;
} reader;

/* How many readers have not ended, and whether every place names a page. */
static atomic_int reading = 0, begun = 0;

/* Word i of the page in this frame and life. */
static uint64_t word_of(uint64_t frame, uint64_t life, uint64_t i) {
    return (life << 32 | frame << 4 | i) * 0x9E3779B97F4A7C15u;
}

static int is_of(const uint64_t *words, uint64_t frame, uint64_t life) {
    for (uint64_t i = 0; i < KSM_PAGE_WORDS; i++)
        if (words[i] != word_of(frame, life, i))
            return 0;
    return 1;
}

/* Which frame and life the first word tells, by the inverse of the factor. */
static int is_one_life(const uint64_t *words) {
    uint64_t told = words[0] * 0xF1DE83E19937733Du;
    return is_of(words, told >> 4 & 0xFFFFFFF, told >> 32);
}

/* A hold of several calls: its words are read twice, and compared with what it tells of itself. */
static uint32_t hold(reader *r, uint32_t place) {
    uint64_t words[KSM_PAGE_WORDS], life = 0, again = 0;
    uint32_t where = 0, frame = 0, answer = ksm_find(&r->pass, place);
    if (answer != KSM_DONE)
        return answer;
    int right = ksm_words(&r->pass, words) == KSM_DONE && ksm_held(&r->pass, &where, &frame, &life) == KSM_DONE;
    right = right && where == place && is_of(words, frame, life);
    for (size_t i = 0; i < KSM_PAGE_WORDS; i++)
        right = right && ksm_word(&r->pass, i, &again) == KSM_DONE && again == words[i];
    right = right && ksm_leave(&r->pass) == KSM_DONE;
    r->wrong += !right;
    return answer;
}

static void *read_pages(void *arg) {
    reader *r = arg;
    uint64_t words[KSM_PAGE_WORDS];
    uint32_t place = r->first;
    while (!atomic_load(&begun))
        sched_yield();
    for (uint64_t n = 0; n < r->lookups; n++) {
        place = (place + 7) % PLACES;
        uint32_t answer;
        if (n % 8 == 0) {
            answer = hold(r, place);
        } else {
            answer = ksm_look_up(&r->pass, place, words);
            r->wrong += answer == KSM_DONE && !is_one_life(words);
        }
        if (answer > KSM_BUSY)
            r->wrong++;
        else
            r->answers[answer]++;
    }
    atomic_fetch_sub(&reading, 1);
    return NULL;
}

/* Fills a free frame; it is private then. Answers whether it was free. */
static int fill(ksm_table *table, uint32_t frame) {
    uint32_t kind;
    uint64_t references, life;
    if (ksm_raise(table, frame) != KSM_DONE)
        return 0;
    if (ksm_frame(table, frame, &kind, &references, &life) != KSM_DONE)
        return 0;
    for (uint64_t i = 0; i < KSM_PAGE_WORDS; i++)
        if (ksm_put(table, frame, i, word_of(frame, life, i)) != KSM_DONE)
            return 0;
    return ksm_open_frame(table, frame) == KSM_DONE;
}

static uint64_t die(const char *what, uint32_t answer) {
    fprintf(stderr, "crowd: %s answered %u\n", what, answer);
    exit(1);
}

static void must(uint32_t answer, const char *what) {
    if (answer != KSM_DONE)
        die(what, answer);
}

int main(int argc, char **argv) {
    uint64_t lookups = argc > 1 ? strtoull(argv[1], NULL, 10) : 100000000;
    ksm_table table = KSM_TABLE_NONE;
    reader readers[READERS] = {0};
    pthread_t threads[READERS];
    static int at[PLACES];
    uint64_t moves = 0, frozen = 0, wrong = 0, found[KSM_USED + 1] = {0};

    must(ksm_table_open(&table, 4, FRAMES / 4, READERS, KSM_MOST_LIVES, KSM_MOST_TRIES), "ksm_table_open");
    for (uint32_t place = 0; place < PLACES; place++)
        at[place] = -1;
    for (int i = 0; i < READERS; i++) {
        must(ksm_pass_open(&table, &readers[i].pass), "ksm_pass_open");
        readers[i].lookups = lookups / READERS;
        readers[i].first = (uint32_t)i * 5;
    }
    atomic_store(&reading, READERS);
    for (int i = 0; i < READERS; i++)
        if (pthread_create(&threads[i], NULL, read_pages, &readers[i]))
            die("pthread_create", 1);

    /* Each place in turn gets a new frame, and its old one is given up; dying frames are reaped as they come by. */
    uint32_t frame = 0, place = 0;
    while (atomic_load(&reading) > 0) {
        frame = (frame + 1) % FRAMES;
        (void)!ksm_reap(&table, frame);
        if (!fill(&table, frame))
            continue;
        place = (place + 5) % PLACES;
        if (at[place] >= 0) {
            if (moves % 16 == 0 && ksm_freeze(&table, (uint32_t)at[place]) == KSM_DONE)
                frozen++;
            else
                must(ksm_sub(&table, (uint32_t)at[place]), "ksm_sub");
        }
        must(ksm_publish(&table, place, frame), "ksm_publish");
        at[place] = (int)frame;
        if (++moves == PLACES)
            atomic_store(&begun, 1);
    }

    for (int i = 0; i < READERS; i++) {
        pthread_join(threads[i], NULL);
        must(ksm_pass_close(&table, &readers[i].pass), "ksm_pass_close");
        wrong += readers[i].wrong;
        for (int a = 0; a <= KSM_BUSY; a++)
            found[a] += readers[i].answers[a];
    }
    /* KSM_DONE says of ksm_freeze that the count was the keeper's own references, and of ksm_reap that it was 0. */
    for (frame = 0; frame < FRAMES; frame++) {
        uint32_t kind;
        uint64_t references, life;
        must(ksm_frame(&table, frame, &kind, &references, &life), "ksm_frame");
        if (kind == KSM_FRAME_STABLE)
            must(ksm_freeze(&table, frame), "ksm_freeze at the end");
        if (kind == KSM_FRAME_STABLE || kind == KSM_FRAME_DYING)
            must(ksm_reap(&table, frame), "ksm_reap at the end");
    }
    must(ksm_table_close(&table), "ksm_table_close");
    printf("%llu lookups, %llu held, %llu vacant, %llu without a reference, %llu of another life, %llu busy; %llu moves, %llu at once; %llu wrong\n",
           (unsigned long long)(lookups / READERS * READERS), (unsigned long long)found[KSM_DONE], (unsigned long long)found[KSM_VACANT],
           (unsigned long long)found[KSM_ZERO], (unsigned long long)found[KSM_LIFE], (unsigned long long)found[KSM_BUSY],
           (unsigned long long)moves, (unsigned long long)frozen, (unsigned long long)wrong);
    return wrong != 0 || found[KSM_DONE] == 0 || moves <= PLACES;
}
