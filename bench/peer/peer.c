/*
 * The same in C: so many lookups by one thread, each on the next of 64 places. peer MODE LOOKUPS.
 */
#include <ksmbook.h>
#include <stdio.h>
#include <stdlib.h>
#include <string.h>
#ifdef WITH_URCU
/* The reader's side inlined, as the library offers it to small programs. */
#define _LGPL_SOURCE
#include <urcu/urcu-memb.h>
#endif

#define PLACES 64

static uint64_t pages[PLACES][KSM_PAGE_WORDS];
static uint64_t *named[PLACES];

static uint64_t sum(const uint64_t *words) {
    uint64_t total = 0;
    for (int i = 0; i < KSM_PAGE_WORDS; i++)
        total += words[i];
    return total;
}

static void must(uint32_t answer) {
    if (answer != KSM_DONE)
        exit(1);
}

static uint64_t none(uint64_t lookups) {
    uint64_t total = 0;
    for (uint32_t place = 0; lookups-- > 0;) {
        place = (place + 37) % PLACES;
        uint64_t *page = pages[place];
        __asm__ volatile("" : "+r"(page) : : "memory");
        total += sum(page);
    }
    return total;
}

static uint64_t by_calls(ksm_pass *pass, uint64_t lookups) {
    uint64_t words[KSM_PAGE_WORDS], total = 0;
    for (uint32_t place = 0; lookups-- > 0;) {
        place = (place + 37) % PLACES;
        if (ksm_find(pass, place) == KSM_DONE && ksm_words(pass, words) == KSM_DONE && ksm_leave(pass) == KSM_DONE)
            total += sum(words);
    }
    return total;
}

static uint64_t by_one_call(ksm_pass *pass, uint64_t lookups) {
    uint64_t words[KSM_PAGE_WORDS], total = 0;
    for (uint32_t place = 0; lookups-- > 0;) {
        place = (place + 37) % PLACES;
        if (ksm_look_up(pass, place, words) == KSM_DONE)
            total += sum(words);
    }
    return total;
}

#ifdef WITH_URCU
static uint64_t by_urcu(uint64_t lookups) {
    uint64_t total = 0;
    urcu_memb_register_thread();
    for (uint32_t place = 0; lookups-- > 0;) {
        place = (place + 37) % PLACES;
        urcu_memb_read_lock();
        total += sum(rcu_dereference(named[place]));
        urcu_memb_read_unlock();
    }
    urcu_memb_unregister_thread();
    return total;
}
#endif

int main(int argc, char **argv) {
    const char *mode = argc > 1 ? argv[1] : "";
    uint64_t lookups = argc > 2 ? strtoull(argv[2], NULL, 10) : 0, total;
    ksm_table table = KSM_TABLE_NONE;
    ksm_pass pass = KSM_PASS_NONE;
    must(ksm_table_open(&table, 1, PLACES, 1, 1, 64));
    must(ksm_pass_open(&table, &pass));
    for (uint32_t place = 0; place < PLACES; place++) {
        must(ksm_raise(&table, place));
        for (size_t i = 0; i < KSM_PAGE_WORDS; i++) {
            pages[place][i] = place + i;
            must(ksm_put(&table, place, i, place + i));
        }
        must(ksm_open_frame(&table, place));
        must(ksm_publish(&table, place, place));
        named[place] = pages[place];
    }
    if (strcmp(mode, "none") == 0)
        total = none(lookups);
    else if (strcmp(mode, "ksmbook-held") == 0)
        total = by_calls(&pass, lookups);
    else if (strcmp(mode, "ksmbook") == 0)
        total = by_one_call(&pass, lookups);
#ifdef WITH_URCU
    else if (strcmp(mode, "liburcu") == 0)
        total = by_urcu(lookups);
#endif
    else
        return 1;
    must(ksm_pass_close(&table, &pass));
    must(ksm_table_close(&table));
    printf("%llu\n", (unsigned long long)total);
    return 0;
}
