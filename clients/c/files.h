/* The file of a store, as its host has it. Internal: no program includes this. */
#ifndef CORWAPHI_FILES_H
#define CORWAPHI_FILES_H

#include "store.h"

#include <pthread.h>

struct file {
    int descriptor;       /* -1 for none */
    const uint8_t *image; /* the mapping; NULL for none */
    size_t length;
    uint8_t *journal; /* CORWAPHI_STORE_JOURNAL bytes; NULL for none */
    size_t used;      /* how many of them the last call has filled */
};

/* Held while a descriptor or a mapping is made or released, and during each fork: so no child gets one that it doesn't know of. */
extern pthread_mutex_t corwaphi_table;

/* Applies what a call wrote, in order. Nothing is written of a journal that has half a record, or sectors that the file doesn't have: then,
 * or if a system call fails, it returns false. */
bool corwaphi_file_make(const struct file *file, const uint8_t *journal, size_t used);

/* Opens a file for this store alone, with a descriptor above those of the standard streams; flags are 0 or O_CREAT. */
uint32_t corwaphi_file_open(struct file *file, const char *path, int flags);

/* Maps an open file, and gives it a journal. */
uint32_t corwaphi_file_map(struct file *file);

/* Makes an empty store in a new file at a path, in `file`. */
uint32_t corwaphi_file_create(struct file *file, const char *path, const struct corwaphi_options *options);

/* Releases what a file has. The table is held. */
void corwaphi_file_close(struct file *file);

#endif
