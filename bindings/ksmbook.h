/*
 * The frame table and the book of ksmbook for C: pages that one thread keeps, and that other threads look up without a lock.
 *
 * A table has FRAMES and PLACES, as many of each. A frame has 8 words of 64 bits (a page of 64 bytes), a count of references, and a life:
 * how many times it was given. A place is empty, or names a frame in one of its lives. A reader looks a place up and holds the frame that it
 * names: the lookup takes a reference, if the frame is still in the life named and has one. While a reader holds a frame its life does not
 * end and its words do not change. No lookup and no call of the keeper takes a lock or waits.
 *
 * One thread at a time is the KEEPER, by the table's handle. It gives a frame its next life (ksm_raise), fills it (ksm_put), opens it
 * (ksm_open_frame) and names it at a place (ksm_publish, ksm_replace). To take it back it gives its references back (ksm_sub, or ksm_freeze at once if no
 * reader has one) and then reaps it (ksm_reap), which it may try as often as it likes until the last reader has left.
 * A frame is FREE, FILLING, PRIVATE, STABLE, DYING or RETIRED; each call below says where it is allowed.
 *
 * Or a BOOK keeps the frames: the pages of guests, of which those that read the same are merged (ksm_book_open, below). Its handle is that of
 * its table: passes are taken out of it, and it is closed, by the same calls; of the keeper's calls it allows none (KSM_KIND). A SHARED BOOK
 * (ksm_shared_open) is a book with a lock of its own, for several threads.
 *
 * What the calls promise is proved of the code that does them (crates/ksm_ffi); ksmbook.c, which stands before it, is read and tested: it tests
 * each pointer for NULL, draws the numbers by which tables tell their passes apart, takes the lock of a table's passes, has the texts, and what a
 * shared book adds to a book.
 * Each condition of a call is tested, and answered by a number. A call writes to its other pointers with KSM_DONE alone, but where it says
 * otherwise; with any other number all is as it was there. A NULL is refused, as KSM_NULL, in each call.
 * What nothing tests, and you must keep:
 *   - a handle was set to KSM_TABLE_NONE, KSM_PASS_NONE or KSM_SHARED_NONE before its first call, is no copy of another, and only these calls
 *     change it. It stays where it is while it is open;
 *   - a handle is in one call at a time, but that any thread may open and close passes of a table at any time (ksm_pass_open, ksm_pass_close),
 *     also while another thread is in a call with the table, and that a shared book may be in any calls at once. Else it may go from one thread
 *     to another where you order that (a lock, a thread's start or join, or an atomic of sequential consistency). So each reader thread has a pass
 *     of its own, and one thread at a time has the table;
 *   - the other pointers point to as much as is said here, none of it part of a handle; none of two pointers in a call is the same;
 *   - no call is made from a signal handler, or in the child of a fork of a program with threads.
 *
 * Link libksmbook: `pkg-config --cflags --libs ksmbook` where it is installed; or libksmbook-host, of which a table is as large as a host's memory:
 * `pkg-config --cflags --libs ksmbook-host`. A program links one of them.
 *
 * The ABI: KSM_VERSION_MAJOR is in the name of the shared library. Within one major version no number, type or call changes its meaning or its
 * layout; a minor version may add calls and numbers, so treat a number that you do not know by its range: below 10 done, from 10 on refused.
 */
#ifndef KSMBOOK_H
#define KSMBOOK_H

#include <stddef.h>
#include <stdint.h>

#ifdef __cplusplus
extern "C" {
#endif

/* The version of this header, and as one number that grows. ksm_version() tells that of the library. */
#define KSM_VERSION_MAJOR 1
#define KSM_VERSION_MINOR 2
#define KSM_VERSION_PATCH 0
#define KSM_VERSION (KSM_VERSION_MAJOR * 10000 + KSM_VERSION_MINOR * 100 + KSM_VERSION_PATCH)

/* What a call answers has to be looked at. */
#if defined(__GNUC__)
#define KSM_CALL __attribute__((warn_unused_result)) uint32_t
#else
#define KSM_CALL uint32_t
#endif

/* A table with its keeper or its book, and a pass. Not open where all is zero, as a static one is. The fields are the library's. */
typedef struct ksm_table { void *at, *passes; uint32_t lock, unused; } ksm_table;
typedef struct ksm_pass { void *at, *none; uint32_t lock, unused; } ksm_pass;

/* A shared book. Not open where all is zero either, and what is inside is the library's. */
typedef struct ksm_shared { uint64_t inside[32]; } ksm_shared;

/* A handle that is not open, as an expression. */
#if defined(__cplusplus)
#define KSM_TABLE_NONE (ksm_table{nullptr, nullptr, 0, 0})
#define KSM_PASS_NONE (ksm_pass{nullptr, nullptr, 0, 0})
#define KSM_SHARED_NONE (ksm_shared{{0}})
#else
#define KSM_TABLE_NONE ((ksm_table){NULL, NULL, 0, 0})
#define KSM_PASS_NONE ((ksm_pass){NULL, NULL, 0, 0})
#define KSM_SHARED_NONE ((ksm_shared){{0}})
#endif

/* How many words a page has. */
#define KSM_PAGE_WORDS 8

/* The limits of a table, and how many references of its keeper a frame has at most. There are two libraries of these calls: libksmbook, and
   libksmbook-host of a host's size. Their ABI is the same; KSM_HOST, which `pkg-config --cflags ksmbook-host` defines, is for the limits alone. */
#if defined(KSM_HOST)
#define KSM_MOST_NODES 64 /* of libksmbook-host */
#define KSM_MOST_FRAMES_PER_NODE 1048576 /* of libksmbook-host */
#define KSM_MOST_PASSES 256 /* of libksmbook-host */
#define KSM_MOST_LIVES ((uint64_t)1 << 36) /* of libksmbook-host */
#else
#define KSM_MOST_NODES 4 /* of libksmbook */
#define KSM_MOST_FRAMES_PER_NODE 256 /* of libksmbook */
#define KSM_MOST_PASSES 16 /* of libksmbook */
#define KSM_MOST_LIVES ((uint64_t)1 << 40) /* of libksmbook */
#endif
#define KSM_MOST_TRIES 64
#define KSM_MOST_REFERENCES 1024

/* What a call answers. Below 10 it did what it was called for. */
enum {
    KSM_DONE = 0,        /* done; of a lookup: a frame is held */
    KSM_VACANT = 1,      /* the place was empty; nothing is held */
    KSM_ZERO = 2,        /* the frame had no reference; nothing is held */
    KSM_LIFE = 3,        /* the frame was in another life than the place named; nothing is held */
    KSM_BUSY = 4,        /* `tries` exchanges were lost to others; nothing is held */
    KSM_DIFFERS = 5,     /* a frame is held, and a word of it is not the page's */
    KSM_USED = 6,        /* a reader has a reference on the frame; it is as it was */
    KSM_NOTHING = 7,     /* of a book: there is no such page, or no dup for it; nothing is told */
    /* From here on the call was refused, and nothing has changed. */
    KSM_CLOSED = 10,     /* the handle is not open */
    KSM_KIND = 11,       /* the handle stands for something else: a pass, a table, or a book */
    KSM_OPEN = 12,       /* the handle that is to be opened is open */
    KSM_SHAPE = 13,      /* a size is out of its range */
    KSM_MEMORY = 14,     /* there is no memory */
    KSM_RANGE = 15,      /* there is no such frame, place or word */
    KSM_STATE = 16,      /* the frame or the place is in a state that does not allow the call */
    KSM_HOLDING = 17,    /* the pass holds a frame */
    KSM_IDLE = 18,       /* the pass holds nothing */
    KSM_NO_PASS = 19,    /* all passes of the table are out */
    KSM_PASSES_OUT = 20, /* passes of the table are out */
    KSM_OTHER = 21,      /* the pass is another table's */
    KSM_COMMAND = 22,    /* there is no command of this kind */
    KSM_NULL = 23,       /* a pointer is NULL */
    /* Why a book refuses a command. No page, dup, knob or counter has changed; the journal has an entry of it, and a frame that nobody held
       any more may have been taken back. With KSM_MEMORY there is no entry. */
    KSM_UNKNOWN_PAGE = 32,       /* the page, or a page of the guest, is not registered */
    KSM_ALREADY_REGISTERED = 33, /* the page is registered */
    KSM_NO_FRAME = 34,           /* no frame of the node is free */
    KSM_NOT_RUNNING = 35,        /* a scan while `run` is not 1 */
    KSM_SHARED_PAGES = 36,       /* the knob does not change while pages are shared */
    KSM_BAD_VALUE = 37,          /* the value is out of its knob's range */
    KSM_IN_USE = 38,             /* somebody holds the frame of the dup */
    KSM_CROSSES_NODES = 39,      /* the dup was to move to another node, while pages are not merged across nodes */
    KSM_UNKNOWN_PLACE = 40,      /* no dup with items stands at the place */
    KSM_BAD_NODE = 41            /* there is no such node */
};

/* What the keeper uses a frame for. */
enum {
    KSM_FRAME_FREE = 0,    /* it waits for its next life */
    KSM_FRAME_FILLING = 1, /* it has a life, and no reference yet; its words may be stored */
    KSM_FRAME_PRIVATE = 2, /* it has the keeper's references, and is named nowhere; its words may be stored */
    KSM_FRAME_STABLE = 3,  /* it was named at a place; its words stay as they are until its life ends */
    KSM_FRAME_DYING = 4,   /* the keeper has given its last reference back; readers may hold it still */
    KSM_FRAME_RETIRED = 5  /* it has had its last life */
};

/*
 * Opening and closing.
 *
 * ksm_table_open opens a table of nodes times frames_per_node frames, all FREE, and as many places, all empty; with so many passes; a frame is
 * given last_generation times at most, and a lookup makes at most `tries` exchanges. Each is 1 to its KSM_MOST_ above.
 * The table gets a number that no table of this process had before, by which it tells its passes. KSM_DONE, KSM_OPEN, KSM_SHAPE, KSM_MEMORY.
 * ksm_table_close frees it where every pass that was taken out is back, and answers KSM_PASSES_OUT where one is not: a pass is back only by
 * ksm_pass_close, so one that holds a frame, or was lost, keeps its table open. KSM_DONE, KSM_CLOSED, KSM_KIND, KSM_PASSES_OUT.
 * Both are for the thread that has the table.
 *
 * ksm_pass_open takes a pass out of the table, which holds nothing. KSM_DONE, KSM_OPEN, KSM_CLOSED, KSM_KIND, KSM_NO_PASS, KSM_MEMORY.
 * ksm_pass_close gives it back to the table that it came from. KSM_DONE, KSM_CLOSED (either), KSM_KIND (either), KSM_HOLDING, KSM_OTHER.
 * Both are for any thread, also while another has the table. They take a lock of the table that only they and ksm_table_close take, for the time
 * of an allocation; ksm_table_open and ksm_book_open take one that all of them share. No other call takes a lock or waits.
 */
KSM_CALL ksm_table_open(ksm_table *table, uint32_t nodes, uint32_t frames_per_node, uint32_t passes, uint64_t last_generation, uint32_t tries);
KSM_CALL ksm_table_close(ksm_table *table);
KSM_CALL ksm_pass_open(ksm_table *table, ksm_pass *pass);
KSM_CALL ksm_pass_close(ksm_table *table, ksm_pass *pass);

/*
 * The texts and the version. ksm_strerror says a number of this header in words; never NULL, and not to be freed.
 */
const char *ksm_strerror(uint32_t answer);
uint32_t ksm_version(void);

/*
 * The keeper. Each of these may answer KSM_CLOSED, KSM_KIND, KSM_RANGE, or KSM_STATE where it is not allowed.
 *
 * A reap that answers KSM_DONE comes after every read of every reader that held the frame: each of them has left it, and what it read before it
 * left happens before what you do after the reap (both are steps of sequential consistency on one word). So what a frame's words point to may
 * be freed or used again then, and not before. The same holds of a freeze that answers KSM_DONE.
 *
 * A place that is named anew: ksm_replace names the new frame by one step, so a reader finds the old one or the new one, and the place is never
 * empty (KSM_VACANT). Just after it give the references on the old frame back (ksm_sub or ksm_freeze), and reap that when you like. A reader whom
 * this overtakes within its lookup may find the old frame gone (KSM_ZERO, KSM_LIFE): the place names another by then, so it looks the place up
 * again, and it has to look once more only where a whole replacement came between. ksm_publish wants the last reference on the old frame given
 * back first: between the two steps each reader finds the place gone. With neither does a reader find a wrong page.
 *
 * ksm_reap_all reaps each of frames[0 .. *count], in that order. Those that stay are moved to the front, in their order, and *count says how
 * many they are; those that were reaped stand behind them. KSM_DONE where none stays; KSM_USED where readers hold all that stay; else the first
 * of KSM_RANGE and KSM_STATE that a frame was refused with. It writes with each of these numbers.
 */
KSM_CALL ksm_raise(ksm_table *table, uint32_t frame);                             /* FREE: its next life begins; FILLING then */
KSM_CALL ksm_put(ksm_table *table, uint32_t frame, size_t i, uint64_t word);      /* FILLING, PRIVATE: stores word i */
KSM_CALL ksm_open_frame(ksm_table *table, uint32_t frame);                        /* FILLING: one reference; PRIVATE then */
KSM_CALL ksm_publish(ksm_table *table, uint32_t place, uint32_t frame);           /* PRIVATE: STABLE then. Not where the place names a
                                                                                     frame that is STABLE in the life named */
KSM_CALL ksm_replace(ksm_table *table, uint32_t place, uint32_t frame);           /* PRIVATE: STABLE then. Only where the place names a
                                                                                     frame that is STABLE in the life named: that one
                                                                                     stays as it is, and is named there no more */
KSM_CALL ksm_withdraw(ksm_table *table, uint32_t place);                          /* empties the place; not where it names such a frame */
KSM_CALL ksm_add(ksm_table *table, uint32_t frame);                               /* from 1 to KSM_MOST_REFERENCES - 1 of the keeper: one more */
KSM_CALL ksm_sub(ksm_table *table, uint32_t frame);                               /* from 1 on: one less; with the last, DYING then */
KSM_CALL ksm_freeze(ksm_table *table, uint32_t frame);                            /* STABLE: all of the keeper's back, and DYING then, if no
                                                                                     reader has one; else KSM_USED */
KSM_CALL ksm_reap(ksm_table *table, uint32_t frame);                              /* DYING: FREE then, or RETIRED after its last life, if no
                                                                                     reader has one; else KSM_USED */
KSM_CALL ksm_reap_all(ksm_table *table, uint32_t *frames, size_t *count);         /* as above */
KSM_CALL ksm_load(ksm_table *table, uint32_t frame, size_t i, uint64_t *word);    /* PRIVATE, STABLE, DYING: loads word i */
KSM_CALL ksm_frame(ksm_table *table, uint32_t frame, uint32_t *kind, uint64_t *references, uint64_t *life); /* of the keeper: any state */

/*
 * A book: which page of which guest reads what, and which pages are merged into which frame ("dup"). What a command does, to the last counter,
 * is in docs/MODEL.md, and is proved; the state after it is that of the definitions.
 */

/* What a command is. */
enum {
    KSM_REGISTER = 1,           /* guest, page, node, bytes: a new page with these bytes */
    KSM_DROP = 2,               /* guest, page: the page goes */
    KSM_STORE = 3,              /* guest, page, bytes: the page gets these bytes */
    KSM_SCAN = 4,               /* visits: so many visits of the scan */
    KSM_PRUNE = 5,              /* every dup without items goes */
    KSM_UNMERGE = 6,            /* guest: its pages are unmerged, and visited no more */
    KSM_MERGEABLE = 7,          /* guest: its pages are visited again */
    KSM_MOVE_PAGE = 8,          /* guest, page, node: the page gets a frame of this node */
    KSM_MOVE_DUP = 9,           /* value (its place), node: the dup gets another frame of this node */
    KSM_SET_RUN = 10,           /* value: 0 to 2 */
    KSM_SET_PAGES_TO_SCAN = 11, /* value: 1 to 1,000,000 */
    KSM_SET_ACROSS = 12,        /* value: merge_across_nodes, 0 or 1 */
    KSM_SET_LIMIT = 13,         /* value: max_page_sharing, 2 to KSM_MOST_REFERENCES */
    KSM_SET_ZERO_PAGES = 14     /* value: use_zero_pages, 0 or 1 */
};

/* A command. Fields that its kind does not name do not count. */
typedef struct ksm_command {
    uint16_t kind;
    uint16_t guest;
    uint32_t page;
    uint64_t visits;
    uint32_t node;
    uint32_t value;
    uint64_t bytes[8];
} ksm_command;

/* What a command did: how many (visits made, dups pruned, pages unmerged; else 0), with which number it stopped (KSM_MEMORY of a scan,
   KSM_NO_FRAME of an unmerging; else 0), and the node of which no frame was free (for KSM_NO_FRAME, as an answer too; else 0). */
typedef struct ksm_made {
    uint64_t count;
    uint32_t stop;
    uint32_t node;
} ksm_made;

/* The counters, by the names of the kernel's documentation (docs/MODEL.md). */
typedef struct ksm_counters {
    uint64_t shared, sharing, unshared, volatile_pages, zero, chains, dups, full_scans;
} ksm_counters;

/*
 * ksm_book_open opens a book without pages, on a table of its own, as ksm_table_open does. ksm_table_close closes it. Of its journal, the list of
 * the commands with their answers, only how long it is can be told. ksm_book_open_kept opens a book that keeps its journal, so that each entry can
 * be told: a command then takes 9 bytes or more for good, and is refused with KSM_MEMORY where these are not there.
 * Each of the others may answer KSM_CLOSED or KSM_KIND.
 *
 * ksm_book_apply does a command: KSM_DONE, KSM_COMMAND, KSM_MEMORY, or a number from KSM_UNKNOWN_PAGE on. `made` is written with KSM_NO_FRAME too.
 * ksm_book_read loads the bytes of a page: those stored last. KSM_DONE, KSM_NOTHING.
 * ksm_book_ticket tells the place of the dup into which a page is merged, where passes can look it up. KSM_DONE, KSM_NOTHING.
 * ksm_book_mappers tells the pages merged into the dup at a place, ascending, each as guest * 2^32 + page, to pages[0 .. *count], and how many
 * they are. KSM_DONE; KSM_RANGE, which writes *count alone, where `room` is smaller; KSM_NOTHING, KSM_MEMORY. `pages` points to `room` numbers;
 * it may be NULL where `room` is 0.
 * ksm_book_counters counts. KSM_DONE.
 * ksm_book_entries tells how many entries the journal has: the commands that were given, but those that KSM_MEMORY or KSM_COMMAND refused. KSM_DONE.
 * ksm_book_entry tells an entry of a journal that is kept, by its number from 0 on: the command, what it was answered, and what it did, where
 * ksm_book_apply wrote that to `made`. KSM_DONE; KSM_NOTHING where there are not so many, or the journal is not kept.
 */
KSM_CALL ksm_book_open(ksm_table *book, uint32_t nodes, uint32_t frames_per_node, uint32_t passes, uint64_t last_generation, uint32_t tries);
KSM_CALL ksm_book_open_kept(ksm_table *book, uint32_t nodes, uint32_t frames_per_node, uint32_t passes, uint64_t last_generation, uint32_t tries);
KSM_CALL ksm_book_apply(ksm_table *book, const ksm_command *command, ksm_made *made);
KSM_CALL ksm_book_read(ksm_table *book, uint16_t guest, uint32_t page, uint64_t bytes[8]);
KSM_CALL ksm_book_ticket(ksm_table *book, uint16_t guest, uint32_t page, uint32_t *place);
KSM_CALL ksm_book_mappers(ksm_table *book, uint32_t place, uint64_t *pages, size_t room, uint64_t *count);
KSM_CALL ksm_book_counters(ksm_table *book, ksm_counters *counters);
KSM_CALL ksm_book_entries(ksm_table *book, uint64_t *count);
KSM_CALL ksm_book_entry(ksm_table *book, uint64_t number, ksm_command *command, uint32_t *answer, ksm_made *made);

/* How an audit's lookup of a place ended, KSM_DONE to KSM_BUSY; and with KSM_DONE what was held, else zeroes. */
typedef struct ksm_row {
    uint32_t answer;
    uint32_t frame;
    uint64_t life;
    uint64_t words[8];
} ksm_row;

/*
 * A shared book: a book with a lock. Any thread may make any of these calls at any time, also while others do; what comes after the close is
 * answered KSM_CLOSED. Each but the openings may answer KSM_CLOSED.
 *
 * ksm_shared_open and ksm_shared_open_kept open it, as ksm_book_open and ksm_book_open_kept do. KSM_DONE, KSM_OPEN, KSM_SHAPE, KSM_MEMORY.
 * ksm_shared_close closes it where every pass is back, as ksm_table_close does. KSM_DONE, KSM_PASSES_OUT.
 * ksm_shared_pass_open and ksm_shared_pass_close open and close its passes, as ksm_pass_open and ksm_pass_close do, and take no other lock than
 * these. What a pass does takes none.
 * ksm_shared_apply, _read, _ticket, _mappers, _entries and _entry are the calls of a book of these names, one after another under the lock of the
 * book, a mutex: who finds it taken sleeps. So each is done at one moment between its beginning and its end.
 * ksm_shared_counters tells the counters that the last command left, and takes no lock: all are of one moment, which is no earlier than that of any
 * that this thread was told before, nor than the end of a command that came before this call. It reads again only where another command
 * ended meanwhile. KSM_DONE.
 * ksm_shared_audit looks each place up once, by so many threads, 1 to KSM_MOST_PASSES, of which the caller's is one; each has a pass of the book
 * for the time of the call, and draws its next place from one counter. It takes no other lock than that of the passes. rows[p] is how the lookup of
 * place p ended, and *count how many rows there are, as many as places. Where a thread can't be made, those that are there do its work. KSM_DONE;
 * KSM_RANGE, which writes *count alone, where `room` is smaller; KSM_SHAPE, KSM_NO_PASS, KSM_MEMORY. `rows` points to `room` rows; it may be
 * NULL where `room` is 0.
 */
KSM_CALL ksm_shared_open(ksm_shared *book, uint32_t nodes, uint32_t frames_per_node, uint32_t passes, uint64_t last_generation, uint32_t tries);
KSM_CALL ksm_shared_open_kept(ksm_shared *book, uint32_t nodes, uint32_t frames_per_node, uint32_t passes, uint64_t last_generation, uint32_t tries);
KSM_CALL ksm_shared_close(ksm_shared *book);
KSM_CALL ksm_shared_pass_open(ksm_shared *book, ksm_pass *pass);
KSM_CALL ksm_shared_pass_close(ksm_shared *book, ksm_pass *pass);
KSM_CALL ksm_shared_apply(ksm_shared *book, const ksm_command *command, ksm_made *made);
KSM_CALL ksm_shared_read(ksm_shared *book, uint16_t guest, uint32_t page, uint64_t bytes[8]);
KSM_CALL ksm_shared_ticket(ksm_shared *book, uint16_t guest, uint32_t page, uint32_t *place);
KSM_CALL ksm_shared_mappers(ksm_shared *book, uint32_t place, uint64_t *pages, size_t room, uint64_t *count);
KSM_CALL ksm_shared_counters(ksm_shared *book, ksm_counters *counters);
KSM_CALL ksm_shared_audit(ksm_shared *book, uint32_t threads, ksm_row *rows, size_t room, uint64_t *count);
KSM_CALL ksm_shared_entries(ksm_shared *book, uint64_t *count);
KSM_CALL ksm_shared_entry(ksm_shared *book, uint64_t number, ksm_command *command, uint32_t *answer, ksm_made *made);

/*
 * A pass. Each of these may answer KSM_CLOSED or KSM_KIND. The three lookups are for a pass that holds nothing (KSM_HOLDING), of a place that
 * there is (KSM_RANGE); they answer KSM_DONE, KSM_VACANT, KSM_ZERO, KSM_LIFE or KSM_BUSY. The others are for one that holds a frame (KSM_IDLE).
 */
KSM_CALL ksm_find(ksm_pass *pass, uint32_t place);                                /* holds the frame that the place names */
KSM_CALL ksm_find_equal(ksm_pass *pass, uint32_t place, const uint64_t page[8]);  /* the same, and compares its words with a page:
                                                                                     KSM_DONE only if all are equal, else KSM_DIFFERS */
KSM_CALL ksm_look_up(ksm_pass *pass, uint32_t place, uint64_t words[8]);          /* ksm_find, ksm_words and ksm_leave in one call */
KSM_CALL ksm_word(ksm_pass *pass, size_t i, uint64_t *word);                      /* loads word i; KSM_RANGE */
KSM_CALL ksm_words(ksm_pass *pass, uint64_t words[8]);                            /* loads every word */
KSM_CALL ksm_held(ksm_pass *pass, uint32_t *place, uint32_t *frame, uint64_t *life); /* tells where it was found */
KSM_CALL ksm_leave(ksm_pass *pass);                                               /* gives the frame back; the pass holds nothing then */

#ifdef __cplusplus
}
#endif

#endif
