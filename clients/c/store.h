/* The exports of libcorwaphi_c.a, the store itself, for a host of your own. Programs use corwaphi.h, whose host is corwaphi.c.
 *
 * A host keeps a file for itself, and a mapping of it (or a copy in memory). An opening that answers CORWAPHI_OK puts the store's handle
 * into `slot`. Each later call takes the handle, and except close puts it into `slot` again: a handle is passed to one call at a time, and
 * the one that comes back is the next one. `image` is the file as it is now. A call that writes fills `used` bytes of `journal`: the host
 * applies them to the file, in order, before it passes on the answer and before the next call, whatever the answer is:
 *
 *     first sector (u32), number of sectors (u32), both in little endian, and the bytes of these sectors, 512 each:
 *         write them from the byte 512 * (first sector) on
 *     with a number of 0: wait until all that was written is durable (fdatasync)
 *
 * If one of them fails, close the handle, return CORWAPHI_IO, and open the file again. Make no call from a signal handler, nor two at a
 * time with one handle; any thread may make one. No pointer may be null. Memory comes from malloc. All answers are those of corwaphi.h,
 * except CORWAPHI_STORE_WORK_FIRST.
 *
 * A store makes room in steps of work, each a call of its own, so that other calls come in between. Call corwaphi_store_work until it
 * did nothing:
 *
 * - after an opening: this finishes what waits, and opens a log if the open one has no room;
 * - if put, delete, write or write_if answers CORWAPHI_STORE_WORK_FIRST. Nothing was written. Make the same call again after the work, with
 *   no other of these four in between; after at most six times it is written or ends with an error. This work may also end once it did
 *   CORWAPHI_STORE_REST: what is left are compactions that the write needn't wait for. Do some steps of them before each of the next writes
 *   until nothing is left, or else a later write waits for all of them;
 * - after corwaphi_store_compact, which asks that all goes into SSTables, and all SSTables into the last level, as far as they find room.
 *
 * Each of these continues from where the store then is, even if earlier work was not ended. A step that finds no room or memory is
 * skipped. So put, delete, write and write_if answer CORWAPHI_NO_SPACE if a batch finds no room in SSTables, although all were compacted
 * down as far as they can be: one of deletes alone only while a snapshot is live. They also answer it, whatever the batch, if no log with
 * room could be opened, for lack of blocks or memory. CORWAPHI_LOG_FULL is never an answer.
 */
#ifndef CORWAPHI_STORE_H
#define CORWAPHI_STORE_H

#include "corwaphi.h"

/* The bytes of a journal that are enough for any call except format. A shorter one is CORWAPHI_BAD_LIMIT. */
#define CORWAPHI_STORE_JOURNAL ((size_t)65664)

/* The bytes of a journal that are enough for a format with log regions of `log_sectors` sectors. */
#define CORWAPHI_STORE_FORMAT(log_sectors) (520 * (132 + 3 * (size_t)(log_sectors)))

/* What corwaphi_store_work did: nothing, since there is nothing to do; a step; the last step of a flush or a compaction; or any of these
 * two, and what is left are compactions that no write needs to wait for. */
enum { CORWAPHI_STORE_NOTHING = 0, CORWAPHI_STORE_PIECE = 1, CORWAPHI_STORE_JOB = 2, CORWAPHI_STORE_REST = 3 };

/* The answer to a write before which work has to be done. */
enum { CORWAPHI_STORE_WORK_FIRST = 64 };

struct corwaphi_store_handle {
    void *at;
};

/* What is returned about a page: the bytes that it fills, its rows, and whether the key that comes next follows them. */
struct corwaphi_store_page {
    size_t length;
    size_t rows;
    bool has_next;
};

uint32_t corwaphi_store_format(uint8_t *journal, size_t journal_length, size_t *used, uint32_t sectors, uint16_t log_sectors);
uint32_t corwaphi_store_open(struct corwaphi_store_handle *slot, const uint8_t *image, size_t image_length, uint8_t *journal,
                             size_t journal_length, size_t *used, uint32_t sectors, uint32_t cache);
void corwaphi_store_close(struct corwaphi_store_handle handle);

uint32_t corwaphi_store_put(struct corwaphi_store_handle handle, struct corwaphi_store_handle *slot, const uint8_t *image,
                            size_t image_length, uint8_t *journal, size_t journal_length, size_t *used, const uint8_t *key,
                            size_t key_length, const uint8_t *value, size_t value_length, uint64_t *number);
uint32_t corwaphi_store_delete(struct corwaphi_store_handle handle, struct corwaphi_store_handle *slot, const uint8_t *image,
                               size_t image_length, uint8_t *journal, size_t journal_length, size_t *used, const uint8_t *key,
                               size_t key_length, uint64_t *number);
uint32_t corwaphi_store_write(struct corwaphi_store_handle handle, struct corwaphi_store_handle *slot, const uint8_t *image,
                              size_t image_length, uint8_t *journal, size_t journal_length, size_t *used, const uint8_t *text,
                              size_t text_length, uint64_t *number);
uint32_t corwaphi_store_write_if(struct corwaphi_store_handle handle, struct corwaphi_store_handle *slot, const uint8_t *image,
                                 size_t image_length, uint8_t *journal, size_t journal_length, size_t *used, const uint8_t *guards,
                                 size_t guards_length, const uint8_t *text, size_t text_length, uint64_t *number, uint8_t *place);
uint32_t corwaphi_store_sync(struct corwaphi_store_handle handle, struct corwaphi_store_handle *slot, const uint8_t *image,
                             size_t image_length, uint8_t *journal, size_t journal_length, size_t *used);
uint32_t corwaphi_store_sync_to(struct corwaphi_store_handle handle, struct corwaphi_store_handle *slot, const uint8_t *image,
                                size_t image_length, uint8_t *journal, size_t journal_length, size_t *used, uint64_t number);
uint32_t corwaphi_store_work(struct corwaphi_store_handle handle, struct corwaphi_store_handle *slot, const uint8_t *image,
                             size_t image_length, uint8_t *journal, size_t journal_length, size_t *used, uint32_t *did);
uint32_t corwaphi_store_compact(struct corwaphi_store_handle handle, struct corwaphi_store_handle *slot);

uint32_t corwaphi_store_get(struct corwaphi_store_handle handle, struct corwaphi_store_handle *slot, const uint8_t *image,
                            size_t image_length, uint64_t snapshot, const uint8_t *key, size_t key_length, uint8_t *room,
                            size_t room_length, size_t *length);
uint32_t corwaphi_store_rows(struct corwaphi_store_handle handle, struct corwaphi_store_handle *slot, const uint8_t *image,
                             size_t image_length, uint64_t snapshot, const uint8_t *from, size_t from_length, const uint8_t *to,
                             size_t to_length, bool has_to, uint64_t limit, uint8_t *room, size_t room_length,
                             struct corwaphi_store_page *page);
uint32_t corwaphi_store_snapshot(struct corwaphi_store_handle handle, struct corwaphi_store_handle *slot, uint64_t *snapshot);
uint32_t corwaphi_store_release(struct corwaphi_store_handle handle, struct corwaphi_store_handle *slot, uint64_t snapshot);
uint32_t corwaphi_store_stat(struct corwaphi_store_handle handle, struct corwaphi_store_handle *slot, struct corwaphi_numbers *numbers);
uint32_t corwaphi_store_counts(struct corwaphi_store_handle handle, struct corwaphi_store_handle *slot, uint64_t *batches,
                               uint64_t *synced);

#endif
