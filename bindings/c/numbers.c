/*
 * Reaches every number of the header, and shows that a refusal changes nothing: numbers [quick].
 *
 * Link it with the static library and -Wl,--wrap=malloc: the wrapper below refuses memory when it is told to. With `quick` the search for KSM_BUSY,
 * which wants real contention, is left out (under valgrind one thread runs at a time).
 */
#include "ksmbook.h"

#include <pthread.h>
#include <stdatomic.h>
#include <stdio.h>
#include <stdlib.h>
#include <string.h>

static uint32_t reached;

/* How many allocations are granted before one is refused; none is while this is negative. */
static int granted = -1;

void *__real_malloc(size_t size);

void *__wrap_malloc(size_t size) {
    if (granted == 0)
        return NULL;
    if (granted > 0)
        granted--;
    return __real_malloc(size);
}

static void answers(uint32_t answer, uint32_t wanted, const char *call) {
    if (answer != wanted) {
        fprintf(stderr, "numbers: %s answered %u, not %u\n", call, answer, wanted);
        exit(1);
    }
    reached |= 1u << answer;
}

#define ANSWERS(wanted, call) answers((call), (wanted), #call)

static const uint64_t PAGE[KSM_PAGE_WORDS] = {1, 2, 3, 4, 5, 6, 7, 8};

static void give(ksm_table *table, uint32_t frame) {
    ANSWERS(KSM_DONE, ksm_raise(table, frame));
    for (size_t i = 0; i < KSM_PAGE_WORDS; i++)
        ANSWERS(KSM_DONE, ksm_put(table, frame, i, PAGE[i]));
    ANSWERS(KSM_DONE, ksm_open_frame(table, frame));
}

static void is_frame(ksm_table *table, uint32_t frame, uint32_t kind, uint64_t references, uint64_t life) {
    uint32_t k = 99;
    uint64_t r = 99, l = 99;
    ANSWERS(KSM_DONE, ksm_frame(table, frame, &k, &r, &l));
    if (k != kind || r != references || l != life) {
        fprintf(stderr, "numbers: frame %u is of kind %u with %llu references in life %llu\n", frame, k, (unsigned long long)r,
                (unsigned long long)l);
        exit(1);
    }
}

/* A pointer that is NULL is refused by each call, and the other pointers are as they were. */
static void nulls(void) {
    ksm_table table = KSM_TABLE_NONE;
    ksm_pass pass = KSM_PASS_NONE;
    uint64_t words[KSM_PAGE_WORDS] = {0}, word = 0;
    uint32_t a = 0;
    ANSWERS(KSM_NULL, ksm_table_open(NULL, 1, 1, 1, 1, 1));
    ANSWERS(KSM_NULL, ksm_table_close(NULL));
    ANSWERS(KSM_NULL, ksm_pass_open(NULL, &pass));
    ANSWERS(KSM_NULL, ksm_pass_open(&table, NULL));
    ANSWERS(KSM_NULL, ksm_pass_close(NULL, &pass));
    ANSWERS(KSM_NULL, ksm_pass_close(&table, NULL));
    ANSWERS(KSM_NULL, ksm_raise(NULL, 0));
    ANSWERS(KSM_NULL, ksm_put(NULL, 0, 0, 0));
    ANSWERS(KSM_NULL, ksm_open_frame(NULL, 0));
    ANSWERS(KSM_NULL, ksm_publish(NULL, 0, 0));
    ANSWERS(KSM_NULL, ksm_replace(NULL, 0, 0));
    ANSWERS(KSM_NULL, ksm_withdraw(NULL, 0));
    ANSWERS(KSM_NULL, ksm_add(NULL, 0));
    ANSWERS(KSM_NULL, ksm_sub(NULL, 0));
    ANSWERS(KSM_NULL, ksm_freeze(NULL, 0));
    ANSWERS(KSM_NULL, ksm_reap(NULL, 0));
    ANSWERS(KSM_NULL, ksm_load(NULL, 0, 0, &word));
    ANSWERS(KSM_NULL, ksm_load(&table, 0, 0, NULL));
    ANSWERS(KSM_NULL, ksm_frame(NULL, 0, &a, &word, &words[0]));
    ANSWERS(KSM_NULL, ksm_find(NULL, 0));
    ANSWERS(KSM_NULL, ksm_find_equal(NULL, 0, PAGE));
    ANSWERS(KSM_NULL, ksm_find_equal(&pass, 0, NULL));
    ANSWERS(KSM_NULL, ksm_look_up(NULL, 0, words));
    ANSWERS(KSM_NULL, ksm_look_up(&pass, 0, NULL));
    ANSWERS(KSM_NULL, ksm_word(NULL, 0, &word));
    ANSWERS(KSM_NULL, ksm_words(NULL, words));
    ANSWERS(KSM_NULL, ksm_held(NULL, &a, &a, &word));
    ANSWERS(KSM_NULL, ksm_leave(NULL));
}

/* What is no handle of its kind is refused by every call. */
static void closed_and_kinds(void) {
    ksm_table none = KSM_TABLE_NONE, table = KSM_TABLE_NONE;
    ksm_pass idle = KSM_PASS_NONE, pass = KSM_PASS_NONE;
    uint64_t words[KSM_PAGE_WORDS] = {0}, word = 0;
    uint32_t a = 0, b = 0;

    ANSWERS(KSM_CLOSED, ksm_table_close(&none));
    ANSWERS(KSM_CLOSED, ksm_pass_open(&none, &idle));
    ANSWERS(KSM_CLOSED, ksm_pass_close(&none, &idle));
    ANSWERS(KSM_CLOSED, ksm_raise(&none, 0));
    ANSWERS(KSM_CLOSED, ksm_put(&none, 0, 0, 0));
    ANSWERS(KSM_CLOSED, ksm_open_frame(&none, 0));
    ANSWERS(KSM_CLOSED, ksm_publish(&none, 0, 0));
    ANSWERS(KSM_CLOSED, ksm_replace(&none, 0, 0));
    ANSWERS(KSM_CLOSED, ksm_withdraw(&none, 0));
    ANSWERS(KSM_CLOSED, ksm_add(&none, 0));
    ANSWERS(KSM_CLOSED, ksm_sub(&none, 0));
    ANSWERS(KSM_CLOSED, ksm_freeze(&none, 0));
    ANSWERS(KSM_CLOSED, ksm_reap(&none, 0));
    ANSWERS(KSM_CLOSED, ksm_load(&none, 0, 0, &word));
    ANSWERS(KSM_CLOSED, ksm_frame(&none, 0, &a, &word, &words[0]));
    ANSWERS(KSM_CLOSED, ksm_find(&idle, 0));
    ANSWERS(KSM_CLOSED, ksm_find_equal(&idle, 0, PAGE));
    ANSWERS(KSM_CLOSED, ksm_look_up(&idle, 0, words));
    ANSWERS(KSM_CLOSED, ksm_word(&idle, 0, &word));
    ANSWERS(KSM_CLOSED, ksm_words(&idle, words));
    ANSWERS(KSM_CLOSED, ksm_held(&idle, &a, &b, &word));
    ANSWERS(KSM_CLOSED, ksm_leave(&idle));

    ANSWERS(KSM_DONE, ksm_table_open(&table, 1, 1, 1, 1, 1));
    ANSWERS(KSM_DONE, ksm_pass_open(&table, &pass));
    ksm_table *wrong_table = (ksm_table *)(void *)&pass;
    ksm_pass *wrong_pass = (ksm_pass *)(void *)&table;
    ksm_table other = KSM_TABLE_NONE;
    ANSWERS(KSM_DONE, ksm_table_open(&other, 1, 1, 1, 1, 1));
    ANSWERS(KSM_KIND, ksm_table_close(wrong_table));
    ANSWERS(KSM_KIND, ksm_pass_open(wrong_table, &idle));
    ANSWERS(KSM_KIND, ksm_pass_close(&other, wrong_pass));
    ANSWERS(KSM_CLOSED, ksm_pass_close(&none, &pass));
    ANSWERS(KSM_KIND, ksm_raise(wrong_table, 0));
    ANSWERS(KSM_KIND, ksm_put(wrong_table, 0, 0, 0));
    ANSWERS(KSM_KIND, ksm_open_frame(wrong_table, 0));
    ANSWERS(KSM_KIND, ksm_publish(wrong_table, 0, 0));
    ANSWERS(KSM_KIND, ksm_replace(wrong_table, 0, 0));
    ANSWERS(KSM_KIND, ksm_withdraw(wrong_table, 0));
    ANSWERS(KSM_KIND, ksm_add(wrong_table, 0));
    ANSWERS(KSM_KIND, ksm_sub(wrong_table, 0));
    ANSWERS(KSM_KIND, ksm_freeze(wrong_table, 0));
    ANSWERS(KSM_KIND, ksm_reap(wrong_table, 0));
    ANSWERS(KSM_KIND, ksm_load(wrong_table, 0, 0, &word));
    ANSWERS(KSM_KIND, ksm_frame(wrong_table, 0, &a, &word, &words[0]));
    ANSWERS(KSM_KIND, ksm_find(wrong_pass, 0));
    ANSWERS(KSM_KIND, ksm_find_equal(wrong_pass, 0, PAGE));
    ANSWERS(KSM_KIND, ksm_look_up(wrong_pass, 0, words));
    ANSWERS(KSM_KIND, ksm_word(wrong_pass, 0, &word));
    ANSWERS(KSM_KIND, ksm_words(wrong_pass, words));
    ANSWERS(KSM_KIND, ksm_held(wrong_pass, &a, &b, &word));
    ANSWERS(KSM_KIND, ksm_leave(wrong_pass));
    ANSWERS(KSM_OPEN, ksm_table_open(&table, 1, 1, 1, 1, 1));
    ANSWERS(KSM_OPEN, ksm_pass_open(&table, &pass));
    ANSWERS(KSM_OTHER, ksm_pass_close(&other, &pass));
    ksm_table twin = KSM_TABLE_NONE; /* of the same shape, and none of its passes is out */
    ANSWERS(KSM_DONE, ksm_table_open(&twin, 1, 1, 1, 1, 1));
    ANSWERS(KSM_OTHER, ksm_pass_close(&twin, &pass));
    /* Nor does it come back where one of the twin's is out: its pass would be locked out, and one of the two could never be closed. */
    ksm_pass its = KSM_PASS_NONE;
    ANSWERS(KSM_DONE, ksm_pass_open(&twin, &its));
    ANSWERS(KSM_OTHER, ksm_pass_close(&twin, &pass));
    ANSWERS(KSM_OTHER, ksm_pass_close(&table, &its));
    ANSWERS(KSM_DONE, ksm_pass_close(&twin, &its));
    ANSWERS(KSM_DONE, ksm_table_close(&twin));
    ANSWERS(KSM_PASSES_OUT, ksm_table_close(&table));
    ANSWERS(KSM_DONE, ksm_pass_close(&table, &pass));
    ANSWERS(KSM_CLOSED, ksm_pass_close(&table, &pass));
    ANSWERS(KSM_DONE, ksm_table_close(&other));
    ANSWERS(KSM_DONE, ksm_table_close(&table));
    ANSWERS(KSM_CLOSED, ksm_table_close(&table));
}

static void shapes_and_memory(void) {
    ksm_table table = KSM_TABLE_NONE;
    ksm_pass pass = KSM_PASS_NONE;
    uint64_t lives = KSM_MOST_LIVES;
    ANSWERS(KSM_SHAPE, ksm_table_open(&table, 0, 1, 1, 1, 1));
    ANSWERS(KSM_SHAPE, ksm_table_open(&table, KSM_MOST_NODES + 1, 1, 1, 1, 1));
    ANSWERS(KSM_SHAPE, ksm_table_open(&table, 1, KSM_MOST_FRAMES_PER_NODE + 1, 1, 1, 1));
    ANSWERS(KSM_SHAPE, ksm_table_open(&table, 1, 1, KSM_MOST_PASSES + 1, 1, 1));
    ANSWERS(KSM_SHAPE, ksm_table_open(&table, 1, 1, 1, lives + 1, 1));
    ANSWERS(KSM_SHAPE, ksm_table_open(&table, 1, 1, 1, 1, KSM_MOST_TRIES + 1));
    /* Each at its most; of a host's size all at once would be gigabytes. */
    ANSWERS(KSM_DONE, ksm_table_open(&table, KSM_MOST_NODES, 256, KSM_MOST_PASSES, lives, KSM_MOST_TRIES));
    ANSWERS(KSM_DONE, ksm_table_close(&table));
    ANSWERS(KSM_DONE, ksm_table_open(&table, 1, KSM_MOST_FRAMES_PER_NODE, 1, lives, KSM_MOST_TRIES));
    ANSWERS(KSM_DONE, ksm_table_close(&table));

    /* Each allocation of an opening refused in turn. */
    int refused = 0;
    for (int n = 0; table.at == NULL; n++) {
        granted = n;
        uint32_t answer = ksm_table_open(&table, 1, 2, 2, 1, 1);
        granted = -1;
        answers(answer, table.at == NULL ? KSM_MEMORY : KSM_DONE, "ksm_table_open");
        refused += answer == KSM_MEMORY;
    }
    granted = 0;
    uint32_t answer = ksm_pass_open(&table, &pass);
    granted = -1;
    answers(answer, KSM_MEMORY, "ksm_pass_open");
    ksm_pass first = KSM_PASS_NONE;
    ANSWERS(KSM_DONE, ksm_pass_open(&table, &first));
    ANSWERS(KSM_DONE, ksm_pass_open(&table, &pass));
    ksm_pass third = KSM_PASS_NONE;
    ANSWERS(KSM_NO_PASS, ksm_pass_open(&table, &third));
    ANSWERS(KSM_PASSES_OUT, ksm_table_close(&table));
    ANSWERS(KSM_DONE, ksm_pass_close(&table, &pass));
    ANSWERS(KSM_PASSES_OUT, ksm_table_close(&table));
    ANSWERS(KSM_DONE, ksm_pass_open(&table, &third));
    ANSWERS(KSM_DONE, ksm_pass_close(&table, &third));
    ANSWERS(KSM_DONE, ksm_pass_close(&table, &first));
    ANSWERS(KSM_DONE, ksm_table_close(&table));
    if (refused < 4) {
        fprintf(stderr, "numbers: only %d allocations were refused\n", refused);
        exit(1);
    }
}

/* A frame through its lives, and a pass through lookups. */
static void lives_and_lookups(void) {
    ksm_table table = KSM_TABLE_NONE;
    ksm_pass pass = KSM_PASS_NONE;
    uint64_t words[KSM_PAGE_WORDS] = {0}, other[KSM_PAGE_WORDS], word = 0, life = 0;
    uint32_t place = 0, frame = 0;
    memcpy(other, PAGE, sizeof other);
    other[7] = 9;

    ANSWERS(KSM_DONE, ksm_table_open(&table, 2, 2, 1, 2, 1));
    ANSWERS(KSM_DONE, ksm_pass_open(&table, &pass));
    is_frame(&table, 3, KSM_FRAME_FREE, 0, 0);
    ANSWERS(KSM_RANGE, ksm_frame(&table, 4, &frame, &word, &life));
    ANSWERS(KSM_RANGE, ksm_raise(&table, 4));
    ANSWERS(KSM_RANGE, ksm_put(&table, 4, 0, 0));
    ANSWERS(KSM_RANGE, ksm_put(&table, 0, 8, 0));
    ANSWERS(KSM_RANGE, ksm_open_frame(&table, 4));
    ANSWERS(KSM_RANGE, ksm_publish(&table, 4, 0));
    ANSWERS(KSM_RANGE, ksm_publish(&table, 0, 4));
    ANSWERS(KSM_RANGE, ksm_replace(&table, 4, 0));
    ANSWERS(KSM_RANGE, ksm_replace(&table, 0, 4));
    ANSWERS(KSM_RANGE, ksm_withdraw(&table, 4));
    ANSWERS(KSM_RANGE, ksm_add(&table, 4));
    ANSWERS(KSM_RANGE, ksm_sub(&table, 4));
    ANSWERS(KSM_RANGE, ksm_freeze(&table, UINT32_MAX));
    ANSWERS(KSM_RANGE, ksm_reap(&table, 4));
    ANSWERS(KSM_RANGE, ksm_load(&table, 4, 0, &word));
    ANSWERS(KSM_RANGE, ksm_load(&table, 0, SIZE_MAX, &word));
    ANSWERS(KSM_RANGE, ksm_find(&pass, 4));
    ANSWERS(KSM_RANGE, ksm_find_equal(&pass, UINT32_MAX, PAGE));
    ANSWERS(KSM_RANGE, ksm_look_up(&pass, 4, words));

    /* Free: it may be given, and nothing else. */
    ANSWERS(KSM_STATE, ksm_put(&table, 0, 0, 1));
    ANSWERS(KSM_STATE, ksm_open_frame(&table, 0));
    ANSWERS(KSM_STATE, ksm_publish(&table, 0, 0));
    ANSWERS(KSM_STATE, ksm_add(&table, 0));
    ANSWERS(KSM_STATE, ksm_sub(&table, 0));
    ANSWERS(KSM_STATE, ksm_freeze(&table, 0));
    ANSWERS(KSM_STATE, ksm_reap(&table, 0));
    ANSWERS(KSM_STATE, ksm_load(&table, 0, 0, &word));
    ANSWERS(KSM_VACANT, ksm_find(&pass, 0));
    give(&table, 0);
    is_frame(&table, 0, KSM_FRAME_PRIVATE, 1, 1);
    ANSWERS(KSM_STATE, ksm_raise(&table, 0));
    ANSWERS(KSM_DONE, ksm_publish(&table, 1, 0));
    is_frame(&table, 0, KSM_FRAME_STABLE, 1, 1);
    ANSWERS(KSM_STATE, ksm_put(&table, 0, 0, 1));
    ANSWERS(KSM_STATE, ksm_withdraw(&table, 1));

    /* Idle and holding. */
    ANSWERS(KSM_IDLE, ksm_leave(&pass));
    ANSWERS(KSM_IDLE, ksm_word(&pass, 0, &word));
    ANSWERS(KSM_IDLE, ksm_words(&pass, words));
    ANSWERS(KSM_IDLE, ksm_held(&pass, &place, &frame, &life));
    ANSWERS(KSM_DIFFERS, ksm_find_equal(&pass, 1, other));
    ANSWERS(KSM_HOLDING, ksm_find(&pass, 1));
    ANSWERS(KSM_HOLDING, ksm_find_equal(&pass, 1, PAGE));
    ANSWERS(KSM_HOLDING, ksm_look_up(&pass, 1, words));
    ANSWERS(KSM_HOLDING, ksm_pass_close(&table, &pass));
    ANSWERS(KSM_RANGE, ksm_word(&pass, 8, &word));
    ANSWERS(KSM_DONE, ksm_word(&pass, 7, &word));
    ANSWERS(KSM_DONE, ksm_held(&pass, &place, &frame, &life));
    if (word != 8 || place != 1 || frame != 0 || life != 1)
        answers(99, 0, "what is held");
    ANSWERS(KSM_USED, ksm_freeze(&table, 0));
    is_frame(&table, 0, KSM_FRAME_STABLE, 1, 1);
    ANSWERS(KSM_DONE, ksm_add(&table, 0));
    is_frame(&table, 0, KSM_FRAME_STABLE, 2, 1);
    ANSWERS(KSM_DONE, ksm_sub(&table, 0));
    ANSWERS(KSM_DONE, ksm_sub(&table, 0));
    is_frame(&table, 0, KSM_FRAME_DYING, 0, 1);
    ANSWERS(KSM_USED, ksm_reap(&table, 0));
    ANSWERS(KSM_DONE, ksm_words(&pass, words));
    if (memcmp(words, PAGE, sizeof words))
        answers(99, 0, "the words that are held");
    ANSWERS(KSM_DONE, ksm_load(&table, 0, 7, &word));
    ANSWERS(KSM_DONE, ksm_leave(&pass));
    ANSWERS(KSM_ZERO, ksm_find(&pass, 1));
    ANSWERS(KSM_DONE, ksm_reap(&table, 0));
    is_frame(&table, 0, KSM_FRAME_FREE, 0, 1);

    /* The place names the life that ended, until it is named anew. */
    give(&table, 0);
    ANSWERS(KSM_LIFE, ksm_find(&pass, 1));
    ANSWERS(KSM_DONE, ksm_publish(&table, 2, 0));
    ANSWERS(KSM_DONE, ksm_find_equal(&pass, 2, PAGE));
    ANSWERS(KSM_DONE, ksm_leave(&pass));
    ANSWERS(KSM_LIFE, ksm_look_up(&pass, 1, words));
    ANSWERS(KSM_DONE, ksm_withdraw(&table, 1));
    ANSWERS(KSM_VACANT, ksm_look_up(&pass, 1, words));
    memset(words, 0, sizeof words);
    ANSWERS(KSM_DONE, ksm_look_up(&pass, 2, words));
    if (memcmp(words, PAGE, sizeof words))
        answers(99, 0, "the words that were looked up");
    ANSWERS(KSM_IDLE, ksm_leave(&pass));
    for (int i = 1; i < KSM_MOST_REFERENCES; i++)
        ANSWERS(KSM_DONE, ksm_add(&table, 0));
    ANSWERS(KSM_STATE, ksm_add(&table, 0));
    ANSWERS(KSM_DONE, ksm_freeze(&table, 0));
    ANSWERS(KSM_DONE, ksm_reap(&table, 0));
    is_frame(&table, 0, KSM_FRAME_RETIRED, 0, 2);
    ANSWERS(KSM_STATE, ksm_raise(&table, 0));
    ANSWERS(KSM_DONE, ksm_pass_close(&table, &pass));
    ANSWERS(KSM_DONE, ksm_table_close(&table));
}

/* A place that is replaced: the new frame is found there, the old one is held as long as a reader likes. */
static void replaced(void) {
    ksm_table table = KSM_TABLE_NONE;
    ksm_pass pass = KSM_PASS_NONE;
    uint64_t word = 0, life = 0;
    uint32_t place = 0, frame = 0;
    ANSWERS(KSM_DONE, ksm_table_open(&table, 1, 3, 1, 2, 1));
    ANSWERS(KSM_DONE, ksm_pass_open(&table, &pass));
    give(&table, 0);
    ANSWERS(KSM_STATE, ksm_replace(&table, 1, 0)); /* the place is empty */
    ANSWERS(KSM_DONE, ksm_publish(&table, 1, 0));
    ANSWERS(KSM_STATE, ksm_replace(&table, 1, 0)); /* the frame is stable */
    ANSWERS(KSM_STATE, ksm_replace(&table, 1, 1)); /* the frame is free */
    give(&table, 1);
    ANSWERS(KSM_STATE, ksm_publish(&table, 1, 1));
    ANSWERS(KSM_DONE, ksm_find(&pass, 1));
    ANSWERS(KSM_DONE, ksm_replace(&table, 1, 1));
    is_frame(&table, 0, KSM_FRAME_STABLE, 1, 1);
    is_frame(&table, 1, KSM_FRAME_STABLE, 1, 1);
    ANSWERS(KSM_DONE, ksm_sub(&table, 0));
    ANSWERS(KSM_USED, ksm_reap(&table, 0));
    ANSWERS(KSM_DONE, ksm_word(&pass, 7, &word));
    ANSWERS(KSM_DONE, ksm_leave(&pass));
    ANSWERS(KSM_DONE, ksm_reap(&table, 0));
    ANSWERS(KSM_DONE, ksm_find(&pass, 1));
    ANSWERS(KSM_DONE, ksm_held(&pass, &place, &frame, &life));
    if (word != 8 || place != 1 || frame != 1 || life != 1)
        answers(99, 0, "what is held at a place that was replaced");
    ANSWERS(KSM_DONE, ksm_leave(&pass));
    /* What was given up is not replaced, but named anew. */
    ANSWERS(KSM_DONE, ksm_freeze(&table, 1));
    give(&table, 2);
    ANSWERS(KSM_STATE, ksm_replace(&table, 1, 2));
    ANSWERS(KSM_ZERO, ksm_find(&pass, 1));
    ANSWERS(KSM_DONE, ksm_publish(&table, 1, 2));
    ANSWERS(KSM_DONE, ksm_find_equal(&pass, 1, PAGE));
    ANSWERS(KSM_DONE, ksm_leave(&pass));
    ANSWERS(KSM_DONE, ksm_pass_close(&table, &pass));
    ANSWERS(KSM_DONE, ksm_table_close(&table));
}

/* With one exchange a lookup, a second reader of the same frame makes some lookups busy. */
static atomic_int stop;

static void *disturb(void *pass) {
    uint64_t words[KSM_PAGE_WORDS];
    while (!atomic_load(&stop))
        (void)!ksm_look_up(pass, 0, words);
    return NULL;
}

static void busy(void) {
    ksm_table table = KSM_TABLE_NONE;
    ksm_pass pass = KSM_PASS_NONE, other = KSM_PASS_NONE;
    uint64_t words[KSM_PAGE_WORDS];
    pthread_t thread;
    uint32_t answer = KSM_DONE;
    ANSWERS(KSM_DONE, ksm_table_open(&table, 1, 1, 2, 1, 1));
    ANSWERS(KSM_DONE, ksm_pass_open(&table, &pass));
    ANSWERS(KSM_DONE, ksm_pass_open(&table, &other));
    give(&table, 0);
    ANSWERS(KSM_DONE, ksm_publish(&table, 0, 0));
    pthread_create(&thread, NULL, disturb, &other);
    for (uint64_t n = 0; answer != KSM_BUSY && n < 1000000000; n++)
        answer = ksm_look_up(&pass, 0, words);
    atomic_store(&stop, 1);
    pthread_join(thread, NULL);
    answers(answer, KSM_BUSY, "ksm_look_up beside another");
    ANSWERS(KSM_IDLE, ksm_leave(&pass));
    ANSWERS(KSM_DONE, ksm_pass_close(&table, &other));
    ANSWERS(KSM_DONE, ksm_pass_close(&table, &pass));
    ANSWERS(KSM_DONE, ksm_table_close(&table));
}

int main(int argc, char **argv) {
    int quick = argc > 1 && strcmp(argv[1], "quick") == 0;
    nulls();
    closed_and_kinds();
    shapes_and_memory();
    lives_and_lookups();
    replaced();
    if (!quick)
        busy();
    for (uint32_t n = 0; n <= KSM_NULL; n++)
        if ((n <= KSM_USED || n >= KSM_CLOSED) && n != KSM_COMMAND && !(quick && n == KSM_BUSY) && !(reached >> n & 1)) {
            fprintf(stderr, "numbers: %u was not reached\n", n);
            return 1;
        }
    puts(quick ? "every number but KSM_BUSY reached" : "every number reached");
    return 0;
}
