/*
 * A page cache: one writer replaces pages while readers look them up, and each answer is compared with a plain map: page_cache [SECONDS [READERS]].
 *
 * The writer replaces pages for SECONDS (5), under READERS (7, at most KSM_MOST_PASSES). The map says how many times each page was written. A reader
 * looks there before and after its lookup: the version that it read has to be one of those between, and its words those of that version; and it
 * finds one each time, though pages are replaced all the while. Ends with 1 if anything was wrong, or a reader found nothing.
 */
#include "ksmbook.h"

#include <pthread.h>
#include <stdatomic.h>
#include <stdio.h>
#include <stdlib.h>
#include <string.h>
#include <time.h>

#define KEYS 100
#define FRAMES 128

static pthread_mutex_t map_lock = PTHREAD_MUTEX_INITIALIZER;
static uint64_t map[KEYS];
static atomic_int done_writing;

typedef struct reader {
    ksm_pass pass;
    uint32_t first;
    uint64_t found, wrong;
} reader;

static void must(uint32_t answer, const char *call) {
    if (answer != KSM_DONE) {
        fprintf(stderr, "page_cache: %s: %s\n", call, ksm_strerror(answer));
        exit(1);
    }
}

static uint64_t written(uint32_t key) {
    pthread_mutex_lock(&map_lock);
    uint64_t version = map[key];
    pthread_mutex_unlock(&map_lock);
    return version;
}

static void page_of(uint64_t page[KSM_PAGE_WORDS], uint64_t key, uint64_t version) {
    page[0] = key;
    page[1] = version;
    for (uint64_t i = 2; i < KSM_PAGE_WORDS; i++)
        page[i] = (key << 32 ^ version) * (2 * i + 1);
}

static void *read_pages(void *arg) {
    reader *r = arg;
    uint64_t words[KSM_PAGE_WORDS], page[KSM_PAGE_WORDS];
    uint32_t key = r->first;
    while (!atomic_load(&done_writing)) {
        key = (key + 37) % KEYS;
        uint64_t before = written(key);
        uint32_t answer;
        /* Whom a replacement overtook looks again; no place is ever empty. */
        do
            answer = ksm_look_up(&r->pass, key, words);
        while (answer == KSM_ZERO || answer == KSM_LIFE || answer == KSM_BUSY);
        if (answer != KSM_DONE) {
            r->wrong++;
            continue;
        }
        /* The writer may have published one page that the map does not say yet. */
        uint64_t after = written(key) + 1;
        page_of(page, key, words[1]);
        r->found++;
        r->wrong += memcmp(words, page, sizeof page) != 0 || words[1] < before || words[1] > after;
    }
    return NULL;
}

/* The writer: a frame of its own for each page, and those that readers may still hold. */
static ksm_table table; /* all zero: not open */
static int frame_of[KEYS];
static uint32_t unused[FRAMES], dying[FRAMES];
static int unused_count, dying_count;

static uint32_t free_frame(void) {
    while (unused_count == 0) {
        int left = 0;
        for (int i = 0; i < dying_count; i++) {
            if (ksm_reap(&table, dying[i]) == KSM_DONE)
                unused[unused_count++] = dying[i];
            else
                dying[left++] = dying[i];
        }
        dying_count = left;
    }
    return unused[--unused_count];
}

/* Readers see the page before or this one. */
static void write_page(uint32_t key, uint64_t version) {
    uint64_t page[KSM_PAGE_WORDS];
    uint32_t frame = free_frame();
    page_of(page, key, version);
    must(ksm_raise(&table, frame), "ksm_raise");
    for (size_t i = 0; i < KSM_PAGE_WORDS; i++)
        must(ksm_put(&table, frame, i, page[i]), "ksm_put");
    must(ksm_open_frame(&table, frame), "ksm_open_frame");
    if (frame_of[key] < 0) {
        must(ksm_publish(&table, key, frame), "ksm_publish");
    } else {
        must(ksm_replace(&table, key, frame), "ksm_replace");
        must(ksm_sub(&table, (uint32_t)frame_of[key]), "ksm_sub");
        dying[dying_count++] = (uint32_t)frame_of[key];
    }
    frame_of[key] = (int)frame;
    pthread_mutex_lock(&map_lock);
    map[key] = version;
    pthread_mutex_unlock(&map_lock);
}

int main(int argc, char **argv) {
    time_t seconds = argc > 1 ? atoi(argv[1]) : 5;
    int count = argc > 2 ? atoi(argv[2]) : 7;
    reader readers[KSM_MOST_PASSES] = {0};
    pthread_t threads[KSM_MOST_PASSES];
    uint64_t writes = 0, found = 0, wrong = 0, idle = 0;
    if (argc > 3 || seconds < 1 || count < 1 || count > KSM_MOST_PASSES) {
        fprintf(stderr, "page_cache [SECONDS [READERS]]: at least one second, and 1 to %d readers\n", KSM_MOST_PASSES);
        return 2;
    }
    must(ksm_table_open(&table, 1, FRAMES, (uint32_t)count, KSM_MOST_LIVES, KSM_MOST_TRIES), "ksm_table_open");
    for (uint32_t frame = 0; frame < FRAMES; frame++)
        unused[unused_count++] = frame;
    for (uint32_t key = 0; key < KEYS; key++) {
        frame_of[key] = -1;
        write_page(key, 0);
    }
    for (int i = 0; i < count; i++) {
        must(ksm_pass_open(&table, &readers[i].pass), "ksm_pass_open");
        readers[i].first = (uint32_t)i;
        if (pthread_create(&threads[i], NULL, read_pages, &readers[i]))
            exit(1);
    }
    for (time_t end = time(NULL) + seconds; time(NULL) <= end;)
        for (uint32_t n = 0; n < KEYS; n++, writes++) {
            uint32_t key = n * 61 % KEYS;
            write_page(key, written(key) + 1);
        }
    atomic_store(&done_writing, 1);
    for (int i = 0; i < count; i++) {
        pthread_join(threads[i], NULL);
        must(ksm_pass_close(&table, &readers[i].pass), "ksm_pass_close");
        found += readers[i].found;
        wrong += readers[i].wrong;
        idle += readers[i].found == 0;
    }
    for (uint32_t key = 0; key < KEYS; key++)
        must(ksm_freeze(&table, (uint32_t)frame_of[key]), "ksm_freeze at the end");
    must(ksm_table_close(&table), "ksm_table_close");
    printf("%llu pages written, %llu found by %d readers, %llu not as the map says\n", (unsigned long long)writes, (unsigned long long)found,
           count, (unsigned long long)wrong);
    if (idle != 0)
        fprintf(stderr, "page_cache: %llu readers found nothing\n", (unsigned long long)idle);
    return wrong != 0 || idle != 0;
}
