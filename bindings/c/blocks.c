/*
 * Blocks of 4 KiB outside the table, to which a word of a frame points: blocks [SECONDS [READERS]].
 *
 * One keeper replaces blocks for SECONDS (5), while READERS (7, at most KSM_MOST_PASSES) read them; each reader opens its own pass. A block is freed
 * once the frame that pointed to it is reaped, which comes after every read of it: AddressSanitizer and memcheck would see a read behind that. Ends
 * with 1 if a block was not as it was written, or older than a version that the reader knew of, or a reader read none.
 */
#include "ksmbook.h"

#include <pthread.h>
#include <stdatomic.h>
#include <stdio.h>
#include <stdlib.h>
#include <time.h>

#define KEYS 32
#define FRAMES 64
#define WORDS 512

/*
 * ThreadSanitizer does not see the proved code. These lines tell it what the header promises, and no more: a find comes after the publication of the
 * frame that it holds, and a reap that is done after each leave. So it sees a block that is freed or read at any other time.
 */
#if defined(__SANITIZE_THREAD__)
void __tsan_acquire(void *address);
void __tsan_release(void *address);
#define COMES_AFTER(block) __tsan_acquire((void *)(uintptr_t)(block))
#define COMES_BEFORE(block) __tsan_release((void *)(uintptr_t)(block))
#else
#define COMES_AFTER(block) ((void)(block))
#define COMES_BEFORE(block) ((void)(block))
#endif

static ksm_table table; /* all zero: not open */
static atomic_int done;
static _Atomic uint64_t written[KEYS];

static void must(uint32_t answer, const char *call) {
    if (answer != KSM_DONE) {
        fprintf(stderr, "blocks: %s: %s\n", call, ksm_strerror(answer));
        exit(1);
    }
}

static uint64_t *block_of(uint64_t key, uint64_t version) {
    uint64_t *block = malloc(WORDS * sizeof *block);
    if (block == NULL)
        exit(1);
    for (uint64_t i = 0; i < WORDS; i++)
        block[i] = (version << 8 | key) * (2 * i + 1);
    return block;
}

static int is_block(const uint64_t *block, uint64_t key, uint64_t least) {
    uint64_t first = block[0];
    for (uint64_t i = 0; i < WORDS; i++)
        if (block[i] != first * (2 * i + 1))
            return 0;
    return (first & 0xFF) == key && first >> 8 >= least;
}

typedef struct reader {
    uint64_t reads, again, wrong;
} reader;

static void *read_blocks(void *arg) {
    reader *r = arg;
    ksm_pass pass = KSM_PASS_NONE;
    must(ksm_pass_open(&table, &pass), "ksm_pass_open");
    for (uint32_t key = 0; !atomic_load(&done); key = (key + 7) % KEYS) {
        uint64_t least = atomic_load(&written[key]), at = 0;
        uint32_t answer;
        /* Whom a replacement overtook looks again; no place is ever empty. */
        while ((answer = ksm_find(&pass, key)) == KSM_ZERO || answer == KSM_LIFE || answer == KSM_BUSY)
            r->again++;
        must(answer, "ksm_find");
        must(ksm_word(&pass, 0, &at), "ksm_word");
        COMES_AFTER(at);
        r->wrong += !is_block((const uint64_t *)(uintptr_t)at, key, least);
        COMES_BEFORE(at);
        must(ksm_leave(&pass), "ksm_leave");
        r->reads++;
    }
    must(ksm_pass_close(&table, &pass), "ksm_pass_close");
    return NULL;
}

/* The keeper's lists: which frame each key has, which block each frame has, and the frames that have none or wait for readers. */
static uint32_t frame_of[KEYS], unused[FRAMES], dying[FRAMES];
static uint64_t *blocks[FRAMES];
static size_t unused_count, dying_count;

static void reap(void) {
    size_t left = dying_count;
    uint32_t answer = ksm_reap_all(&table, dying, &left);
    if (answer != KSM_USED)
        must(answer, "ksm_reap_all");
    for (; dying_count > left; dying_count--) {
        uint32_t frame = dying[dying_count - 1];
        COMES_AFTER(blocks[frame]);
        free(blocks[frame]);
        unused[unused_count++] = frame;
    }
}

static void put(uint32_t key, uint64_t version) {
    while (unused_count == 0)
        reap();
    uint32_t frame = unused[--unused_count];
    blocks[frame] = block_of(key, version);
    COMES_BEFORE(blocks[frame]);
    must(ksm_raise(&table, frame), "ksm_raise");
    must(ksm_put(&table, frame, 0, (uint64_t)(uintptr_t)blocks[frame]), "ksm_put");
    must(ksm_open_frame(&table, frame), "ksm_open_frame");
    if (version == 0) {
        must(ksm_publish(&table, key, frame), "ksm_publish");
    } else {
        must(ksm_replace(&table, key, frame), "ksm_replace");
        must(ksm_sub(&table, frame_of[key]), "ksm_sub");
        dying[dying_count++] = frame_of[key];
    }
    frame_of[key] = frame;
    atomic_store(&written[key], version);
}

int main(int argc, char **argv) {
    time_t seconds = argc > 1 ? atoi(argv[1]) : 5;
    int readers = argc > 2 ? atoi(argv[2]) : 7;
    reader found[KSM_MOST_PASSES] = {{0}}, all = {0};
    pthread_t threads[KSM_MOST_PASSES];
    uint64_t writes = 0, idle = 0;
    if (argc > 3 || seconds < 1 || readers < 1 || readers > KSM_MOST_PASSES) {
        fprintf(stderr, "blocks [SECONDS [READERS]]: at least one second, and 1 to %d readers\n", KSM_MOST_PASSES);
        return 2;
    }
    must(ksm_table_open(&table, 1, FRAMES, (uint32_t)readers, KSM_MOST_LIVES, KSM_MOST_TRIES), "ksm_table_open");
    for (uint32_t frame = 0; frame < FRAMES; frame++)
        unused[unused_count++] = frame;
    for (uint32_t key = 0; key < KEYS; key++)
        put(key, 0);
    for (int i = 0; i < readers; i++)
        if (pthread_create(&threads[i], NULL, read_blocks, &found[i]))
            exit(1);
    for (time_t end = time(NULL) + seconds; time(NULL) <= end;)
        for (uint32_t key = 0; key < KEYS; key++, writes++)
            put(key, atomic_load(&written[key]) + 1);
    atomic_store(&done, 1);
    for (int i = 0; i < readers; i++) {
        pthread_join(threads[i], NULL);
        all.reads += found[i].reads;
        all.again += found[i].again;
        all.wrong += found[i].wrong;
        idle += found[i].reads == 0;
    }
    reap();
    for (uint32_t key = 0; key < KEYS; key++) {
        must(ksm_freeze(&table, frame_of[key]), "ksm_freeze at the end");
        free(blocks[frame_of[key]]);
    }
    must(ksm_table_close(&table), "ksm_table_close");
    printf("%llu blocks read by %d threads, %llu looked up again, %llu replaced, %llu wrong\n", (unsigned long long)all.reads, readers,
           (unsigned long long)all.again, (unsigned long long)writes, (unsigned long long)all.wrong);
    if (idle != 0)
        fprintf(stderr, "blocks: %llu readers read none\n", (unsigned long long)idle);
    return all.wrong != 0 || idle != 0;
}
