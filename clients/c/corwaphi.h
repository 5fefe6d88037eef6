/* Corwaphi: an ordered map from keys to values in a file, with atomic batches, guards and snapshots, in your own process.
 *
 *     corwaphi store;
 *     uint64_t number;
 *     uint32_t code = corwaphi_open_or_create("first.img", NULL, &store);
 *     if (code == CORWAPHI_OK)
 *         code = corwaphi_put(store, "pear", 4, "green", 5, &number);
 *     if (code == CORWAPHI_OK)
 *         code = corwaphi_sync(store);
 *     if (code != CORWAPHI_OK)
 *         fprintf(stderr, "%s: %s\n", corwaphi_name(code), corwaphi_remedy(code));
 *     corwaphi_close(store);
 *
 * Keys have 1 to 255 bytes, values 0 to 2,048. Each function returns a code (below); what it returns through a pointer is valid only with
 * CORWAPHI_OK, if nothing else is said. Nothing that you pass is kept: it is yours again once the function has returned. A pointer to
 * bytes may be NULL if there are none; any other NULL is CORWAPHI_NULL, unless it is said that it may be NULL.
 *
 * - What was synced is durable. Without a sync a kill of the process loses nothing, and a power cut may lose batches, the last ones first.
 * - After CORWAPHI_IO of a write or a sync every call returns CORWAPHI_STOPPED: close the store and open it again. All that was synced is
 *   there, and perhaps more.
 * - Any thread may make a call, but no signal handler. Reads of other threads come in between the steps of a compaction.
 * - A child of fork doesn't have the store: its calls return CORWAPHI_FORKED, and it may open other ones.
 * - A file has one store at a time, by a lock (flock) that other programs may ignore. Nobody may shorten it: the system ends a process
 *   (SIGBUS) that reads a part of a file that is gone, or one that the disk can't read.
 */
#ifndef CORWAPHI_H
#define CORWAPHI_H

#include <stdbool.h>
#include <stddef.h>
#include <stdint.h>

#ifdef __cplusplus
extern "C" {
#endif

#ifdef __GNUC__
#pragma GCC visibility push(default)
#endif

/* Codes. Those from 1 to 31 are the store's own errors. corwaphi_name and corwaphi_remedy put them into words. */
enum {
    CORWAPHI_OK = 0,
    CORWAPHI_NO_MEMORY = 1,
    CORWAPHI_IO = 2,
    CORWAPHI_STOPPED = 3,
    CORWAPHI_LOG_FULL = 4,
    CORWAPHI_SEALED_WAITING = 5,
    CORWAPHI_NOTHING_TO_ROTATE = 6,
    CORWAPHI_NO_SUCH_SNAPSHOT = 7,
    CORWAPHI_TOO_MANY_SNAPSHOTS = 8,
    CORWAPHI_NO_SUCH_BATCH = 9,
    CORWAPHI_NO_SUCH_JOB = 10,
    CORWAPHI_WRONG_STATE = 11,
    CORWAPHI_FOREIGN_RESULT = 12,
    CORWAPHI_NO_SPACE = 13,
    CORWAPHI_TOO_MANY_RUNS = 14,
    CORWAPHI_TOO_MANY_TABLES = 15,
    CORWAPHI_BAD_KEY = 16,
    CORWAPHI_BAD_VALUE = 17,
    CORWAPHI_BATCH_TOO_BIG = 18,
    CORWAPHI_BAD_RANGE = 19,
    CORWAPHI_EXHAUSTED = 20,
    CORWAPHI_NOT_A_STORE = 21,
    CORWAPHI_BAD_SUPER = 22,
    CORWAPHI_BAD_MANIFEST = 23,
    CORWAPHI_BAD_TABLE = 24,
    CORWAPHI_BAD_GEOMETRY = 25,
    CORWAPHI_TRAIL_FULL = 26,
    CORWAPHI_NOT_YOURS = 27,
    CORWAPHI_BAD_LIMIT = 28,
    CORWAPHI_TOO_MANY_CLIENTS = 29,
    CORWAPHI_GUARD_FAILED = 30,
    CORWAPHI_TOO_MANY_GUARDS = 31,
    CORWAPHI_NO_VALUE = 32,        /* the key has no value; for a cursor: there are no more rows */
    CORWAPHI_SHORT_BUFFER = 33,    /* the bytes don't fit into the buffer */
    CORWAPHI_BAD_TEXT = 34,        /* the bytes are not the text of a batch */
    CORWAPHI_CLOSED = 35,          /* the store was closed, or never opened */
    CORWAPHI_FORKED = 36,          /* the store was opened by the parent of this process */
    CORWAPHI_FILE = 37,            /* the file can't be opened or made: errno says why */
    CORWAPHI_IN_USE = 38,          /* another program, or another store of this one, has the file */
    CORWAPHI_NULL = 39,            /* a pointer that may not be NULL is NULL */
    CORWAPHI_TOO_MANY_STORES = 40, /* CORWAPHI_MOST_STORES are open */
    CORWAPHI_NO_CURSOR = 41        /* the cursor has ended */
};

#define CORWAPHI_MOST_STORES 64
#define CORWAPHI_MOST_KEY 255
#define CORWAPHI_MOST_VALUE 2048
#define CORWAPHI_MOST_TEXT 61440
#define CORWAPHI_MOST_ROWS 64

/* The bytes that are enough for any page: 64 rows, each with 4 bytes more than key and value, and the key that comes next. */
#define CORWAPHI_PAGE_BYTES ((size_t)CORWAPHI_MOST_ROWS * (4 + 255 + 2048) + 4 + 255)

/* The number of a snapshot that means the map as it is now. */
#define CORWAPHI_NOW UINT64_MAX

/* The name of a code, such as "NoSpace", and what to do about it, in a sentence. Both are static; for an unknown code "Unknown" and "". */
const char *corwaphi_name(uint32_t code);
const char *corwaphi_remedy(uint32_t code);

/* ---- stores */

/* An open store, by a number. One that was closed is never mistaken for another one. */
typedef struct corwaphi {
    uint64_t number;
} corwaphi;

struct corwaphi_options {
    uint32_t cache;       /* blocks of 4 KiB that are kept in memory, 1 to 4,096 */
    uint32_t sectors;     /* of a new store: its size, 8,192 to 1,048,576 sectors of 512 bytes. It can't grow */
    uint16_t log_sectors; /* of a new store: the size of each of its three logs, 128 to 2,048 sectors */
};

/* The options if NULL is passed: a cache of 256 blocks, and new stores of 32 MiB with logs of 2,042 sectors. */
#define CORWAPHI_OPTIONS ((struct corwaphi_options){256, 65536, 2042})

/* Makes an empty store in a new file. The file has its name only once it is whole and durable. Returns CORWAPHI_FILE with errno EEXIST if
 * a file of that name is there, and with another errno if the new one can't be made, written or synced; CORWAPHI_BAD_GEOMETRY for a size
 * outside the limits, CORWAPHI_IN_USE if another one is making it, NO_MEMORY, TOO_MANY_STORES. While it works there is a file with
 * `.corwaphi-new` after the name. */
uint32_t corwaphi_create(const char *path, const struct corwaphi_options *options);

/* Opens the store in a file or a block device, also after a crash, and finishes what waits there, as far as there is room for it. Returns
 * CORWAPHI_FILE (errno ENOENT if there is no file), IN_USE, BAD_LIMIT for the cache, BAD_GEOMETRY, NOT_A_STORE, BAD_SUPER,
 * BAD_MANIFEST, BAD_TABLE, EXHAUSTED, NO_MEMORY, IO, TOO_MANY_STORES. */
uint32_t corwaphi_open(const char *path, const struct corwaphi_options *options, corwaphi *store);

/* Opens the store in a file; if no file is there it makes one. Returns the codes of both. */
uint32_t corwaphi_open_or_create(const char *path, const struct corwaphi_options *options, corwaphi *store);

/* Closes a store: waits until no other call works on it, and releases its file and its memory. It doesn't sync. Returns
 * CORWAPHI_CLOSED if it was closed before, or CORWAPHI_FORKED. */
uint32_t corwaphi_close(corwaphi store);

/* ---- writes: each makes room by itself, so it may take longer than others, and may sync. It returns CORWAPHI_NO_SPACE if puts, or deletes
 * while a snapshot is live, find no room although all SSTables were compacted down as far as they can be; and, whatever it writes, if no
 * log with room could be opened, for lack of blocks or memory. It also returns CORWAPHI_EXHAUSTED after 2^63 batches, NO_MEMORY, IO,
 * STOPPED, CLOSED or FORKED. The sequence number of its batch is returned in `number`, which may be NULL. */

/* Puts a value under a key. Also BAD_KEY, BAD_VALUE. */
uint32_t corwaphi_put(corwaphi store, const void *key, size_t key_length, const void *value, size_t value_length, uint64_t *number);

/* Deletes a key, whether it has a value or not. Also BAD_KEY. */
uint32_t corwaphi_delete(corwaphi store, const void *key, size_t key_length, uint64_t *number);

/* Writes a batch, whole or not at all: its text, as a corwaphi_batch has it. Also BAD_TEXT. */
uint32_t corwaphi_write(corwaphi store, const uint8_t *text, size_t text_length, uint64_t *number);

/* Writes a batch if all guards hold at the moment of the write, and otherwise returns CORWAPHI_GUARD_FAILED, and in `place`, which may be
 * NULL, which is the first that doesn't, counted from 0. Guards are the text of a batch too, or no bytes for none: a put says that its key
 * has exactly its value, a delete that its key has none. Also BAD_TEXT, TOO_MANY_GUARDS for more than 16; and BAD_TABLE and IO of a read,
 * which leave the store running. */
uint32_t corwaphi_write_if(corwaphi store, const uint8_t *guards, size_t guards_length, const uint8_t *text, size_t text_length,
                           uint64_t *number, uint8_t *place);

/* Makes all batches durable. Returns IO, STOPPED, CLOSED, FORKED. */
uint32_t corwaphi_sync(corwaphi store);

/* Makes the batches up to a sequence number durable: nothing is done if they are. Also CORWAPHI_NO_SUCH_BATCH. */
uint32_t corwaphi_sync_to(corwaphi store, uint64_t number);

/* Writes what is in memory into SSTables, and compacts all SSTables into the last level, as far as they find room: what deletes and newer
 * values have freed is free then. A step that finds no room or memory is skipped without harm. Returns IO, STOPPED, CLOSED, FORKED. */
uint32_t corwaphi_compact(corwaphi store);

/* ---- batches: a text that grows. `struct corwaphi_batch batch = CORWAPHI_BATCH;` begins one; its fields are to be read only. */

struct corwaphi_batch {
    uint8_t *text;
    size_t length;
    size_t room;
};

#define CORWAPHI_BATCH {NULL, 0, 0}

/* Adds an operation; the last one on a key counts. Returns BAD_KEY, BAD_VALUE, BATCH_TOO_BIG for a text above 61,440 bytes, NO_MEMORY; the
 * batch is then as it was. */
uint32_t corwaphi_batch_put(struct corwaphi_batch *batch, const void *key, size_t key_length, const void *value, size_t value_length);
uint32_t corwaphi_batch_delete(struct corwaphi_batch *batch, const void *key, size_t key_length);

/* Empties a batch and keeps its memory; empties it and frees its memory. */
void corwaphi_batch_clear(struct corwaphi_batch *batch);
void corwaphi_batch_free(struct corwaphi_batch *batch);

/* ---- reads, now (CORWAPHI_NOW) or at a snapshot. They write nothing, and make no system call for what is in the page cache. */

/* Copies the value of a key into `value`, which has `room` bytes, and returns its length. Returns CORWAPHI_NO_VALUE if the key has none;
 * CORWAPHI_SHORT_BUFFER if it doesn't fit, and its length nevertheless: 2,048 bytes are always enough; BAD_KEY,
 * NO_SUCH_SNAPSHOT, BAD_TABLE, IO, NO_MEMORY, STOPPED, CLOSED, FORKED. */
uint32_t corwaphi_get(corwaphi store, uint64_t snapshot, const void *key, size_t key_length, void *value, size_t room, size_t *length);

/* A row: key and value lie in the page or in the cursor that it came from. */
struct corwaphi_row {
    const uint8_t *key;
    size_t key_length;
    const uint8_t *value;
    size_t value_length;
};

/* What a page says about itself, and how far it was read. */
struct corwaphi_page {
    const uint8_t *bytes;
    size_t length;
    size_t rows;     /* those that were not read yet */
    size_t at;
    bool has_next;   /* whether there are more rows after it */
    struct corwaphi_row next; /* where the next page begins: its key, in the page */
};

/* Copies the first `limit` rows, 1 to 64, from the key `from` on into `buffer`, which has `room` bytes; up to the key `to`, which is left
 * out, or to the last one if `to` is NULL, whatever `to_length` is. CORWAPHI_PAGE_BYTES are always enough; CORWAPHI_SHORT_BUFFER means that
 * these aren't. Also BAD_LIMIT, BAD_RANGE if `from` is above `to`, NO_SUCH_SNAPSHOT, BAD_TABLE, IO, NO_MEMORY, STOPPED, CLOSED, FORKED. The
 * page lies in the buffer. */
uint32_t corwaphi_rows(corwaphi store, uint64_t snapshot, const void *from, size_t from_length, const void *to, size_t to_length,
                       uint64_t limit, uint8_t *buffer, size_t room, struct corwaphi_page *page);

/* Reads the next row of a page; false if there is none. */
bool corwaphi_page_row(struct corwaphi_page *page, struct corwaphi_row *row);

/* All rows from a key on, as of one moment: it holds a snapshot from here to corwaphi_cursor_end. One thread at a time may use it. */
struct corwaphi_cursor;
uint32_t corwaphi_cursor_begin(corwaphi store, const void *from, size_t from_length, const void *to, size_t to_length,
                               struct corwaphi_cursor **cursor);

/* The next row, which is valid until the next call for this cursor; CORWAPHI_NO_VALUE after the last one. Any other code leaves the cursor
 * where it was. */
uint32_t corwaphi_cursor_next(struct corwaphi_cursor *cursor, struct corwaphi_row *row);

/* Releases the cursor and its snapshot. NULL is ignored. */
void corwaphi_cursor_end(struct corwaphi_cursor *cursor);

/* Takes a snapshot of the map as it is now, and returns its number. Also TOO_MANY_SNAPSHOTS if there are 32, EXHAUSTED. */
uint32_t corwaphi_snapshot(corwaphi store, uint64_t *snapshot);

/* Releases a snapshot. Also NO_SUCH_SNAPSHOT. */
uint32_t corwaphi_release(corwaphi store, uint64_t snapshot);

struct corwaphi_numbers {
    uint64_t generation;  /* of the manifest */
    uint64_t batches;     /* how many there are */
    uint64_t synced;      /* how many of them are durable */
    uint64_t runs;        /* of level 0 */
    uint64_t tables;      /* of all levels */
    uint32_t log_room;    /* free sectors of the open log */
    uint32_t free_blocks; /* blocks of 4 KiB that no SSTable has */
    bool waiting;         /* whether a flush waits */
};

/* Gets the numbers of a store. Returns STOPPED, CLOSED, FORKED. */
uint32_t corwaphi_stat(corwaphi store, struct corwaphi_numbers *numbers);

#ifdef __GNUC__
#pragma GCC visibility pop
#endif

#ifdef __cplusplus
}
#endif

#endif
