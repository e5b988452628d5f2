/*
 * A book that keeps its journal: journal KIND COMMANDS. It registers two pages, sets run to 1, and gives a command of a kind so many times: a store
 * of one byte (0), a scan (1), a refusal (2), a store of other bytes (3). bench/journal measures its memory.
 */
#include "ksmbook.h"

#include <stdio.h>
#include <stdlib.h>

static ksm_command command(uint16_t kind, uint32_t page, uint64_t word) {
    ksm_command made = {.kind = kind, .page = page};
    for (int i = 0; i < KSM_PAGE_WORDS; i++)
        made.bytes[i] = word;
    return made;
}

int main(int argc, char **argv) {
    ksm_table book = KSM_TABLE_NONE;
    ksm_made made;
    ksm_command run = {.kind = KSM_SET_RUN, .value = 1}, scan = {.kind = KSM_SCAN, .visits = 1};
    ksm_command first = command(KSM_REGISTER, 0, 0), second = command(KSM_REGISTER, 1, 1);
    ksm_command kinds[] = {command(KSM_STORE, 0, 0), scan, command(KSM_STORE, 9, 0), command(KSM_STORE, 0, 0x0123456789abcdef)};
    int kind = argc > 2 ? atoi(argv[1]) : 4;
    if (kind < 0 || kind > 3) {
        fprintf(stderr, "journal KIND COMMANDS\n");
        return 2;
    }
    if (ksm_book_open_kept(&book, 1, 4, 1, (uint64_t)1 << 40, 64) != KSM_DONE || ksm_book_apply(&book, &first, &made) != KSM_DONE
        || ksm_book_apply(&book, &second, &made) != KSM_DONE || ksm_book_apply(&book, &run, &made) != KSM_DONE)
        return 1;
    uint32_t wanted = kind == 2 ? KSM_UNKNOWN_PAGE : KSM_DONE;
    uint64_t count = 0, commands = strtoull(argv[2], NULL, 10);
    for (uint64_t n = 0; n < commands; n++)
        if (ksm_book_apply(&book, &kinds[kind], &made) != wanted)
            return 1;
    if (ksm_book_entries(&book, &count) != KSM_DONE || count != commands + 3)
        return 1;
    return ksm_table_close(&book) != KSM_DONE;
}
