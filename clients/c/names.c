/* The names of codes, and what to do about them. */
#include "corwaphi.h"

static const struct {
    const char *name, *remedy;
} words[] = {
    {"Ok", ""},
    {"NoMemory", "Free memory and call again: nothing has changed."},
    {"Io", "After a read call again; after a write or a sync close the store and open it again."},
    {"Stopped", "An earlier write or sync failed: close the store and open it again. All that was synced is there, and perhaps more."},
    {"LogFull", "The log has no room for the batch: it is changed by itself, so report this."},
    {"SealedWaiting", "A closed log waits for its flush: it is flushed by itself, so report this."},
    {"NothingToRotate", "The open log has no batch: there is nothing to do."},
    {"NoSuchSnapshot", "The snapshot was released, or is of another opening: take a new one."},
    {"TooManySnapshots", "There are 32 snapshots: release one."},
    {"NoSuchBatch", "The number is above the last batch's: pass one that a write has told."},
    {"NoSuchJob", "Jobs are taken and finished by the library itself: report this."},
    {"WrongState", "Jobs are taken and finished by the library itself: report this."},
    {"ForeignResult", "Jobs are taken and finished by the library itself: report this."},
    {"NoSpace", "Delete what isn't needed and compact, release snapshots, or move to a larger store."},
    {"TooManyRuns", "Compact."},
    {"TooManyTables", "Compact, or move to several stores: one has at most 1,024 tables."},
    {"BadKey", "Use a key of 1 to 255 bytes."},
    {"BadValue", "Split the value: it may have 2,048 bytes."},
    {"BatchTooBig", "Write the batch, and begin another one: its text may have 61,440 bytes."},
    {"BadRange", "The range ends before it begins: swap its keys."},
    {"Exhausted", "The last number was given out: copy all rows into a new store."},
    {"NotAStore", "The file has no store: make one, in a new file."},
    {"BadSuper", "It is another file, or damaged: nothing repairs it, so go back to a backup."},
    {"BadManifest", "The file is damaged: nothing repairs it, so go back to a backup."},
    {"BadTable", "The file is damaged: nothing repairs it, so go back to a backup."},
    {"BadGeometry", "Sizes are 8,192 to 1,048,576 sectors and logs of 128 to 2,048; a file has to have the size that it was made with."},
    {"TrailFull", "Sessions of threads have no place in this library: report this."},
    {"NotYours", "Sessions of threads have no place in this library: report this."},
    {"BadLimit", "Pages have 1 to 64 rows, and caches 1 to 4,096 blocks."},
    {"TooManyClients", "Sessions of threads have no place in this library: report this."},
    {"GuardFailed", "A guard is false: get the values again, make the batch of them, and call again."},
    {"TooManyGuards", "A batch may have 16 guards: guard fewer keys."},
    {"NoValue", "The key has no value, or there are no more rows."},
    {"ShortBuffer", "Pass a larger buffer: 2,048 bytes are enough for a value, and CORWAPHI_PAGE_BYTES for a page."},
    {"BadText", "The bytes are no text of a batch: make it by corwaphi_batch_put and corwaphi_batch_delete."},
    {"Closed", "The store was closed, or never opened: open it."},
    {"Forked", "The store is one of the parent of this process, which alone may call it: open another one here."},
    {"File", "The file can't be opened or made: errno says why."},
    {"InUse", "Another program, or another store of this one, has the file: close it there."},
    {"Null", "Pass a pointer that isn't NULL."},
    {"TooManyStores", "64 stores are open: close one."},
    {"NoCursor", "The cursor has ended: begin another one."},
};

#define COUNT (sizeof words / sizeof words[0])

const char *corwaphi_name(uint32_t code) { return code < COUNT ? words[code].name : "Unknown"; }

const char *corwaphi_remedy(uint32_t code) { return code < COUNT ? words[code].remedy : ""; }
