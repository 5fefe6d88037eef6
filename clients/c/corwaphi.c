/* Open stores, in slots, and their calls. Each call applies what it wrote to the file (told) before it returns its answer.
 *
 * A slot's `writing` is held by the thread that writes, compacts or closes, during all its calls of the store; `calling` for each single
 * call. They are locked in this order, and the table last. */
#define _GNU_SOURCE
#include "files.h"

#include <errno.h>
#include <stdatomic.h>
#include <string.h>
#include <time.h>
#include <unistd.h>

/* A mutex, and how many have waited for it so long that the others let them go first. */
struct gate {
    pthread_mutex_t mutex;
    atomic_uint impatient;
};

struct slot {
    struct gate writing, calling;
    atomic_uint waiting; /* how many wait for `calling` */
    bool taken;          /* whether a store is in it, or is about to be */
    bool due;            /* whether compactions are left to the next writes */
    uint64_t number;     /* the store's number; 0 while there is none */
    uint64_t last;       /* the last number that was given out here */
    uint64_t forked;     /* the number that a store of this process's parent had here */
    struct file file;
    struct corwaphi_store_handle handle; /* none once a write or a sync of the file has failed */
};

static struct slot slots[CORWAPHI_MOST_STORES];
static pthread_once_t once = PTHREAD_ONCE_INIT;

/* ---- slots, and forks */

static void before_fork(void) { pthread_mutex_lock(&corwaphi_table); }

static void in_parent(void) { pthread_mutex_unlock(&corwaphi_table); }

/* A child closes the descriptors, so that it holds no lock of a file, and never touches the stores: another thread may have been in
 * the middle of a call. */
static void in_child(void)
{
    for (size_t place = 0; place < CORWAPHI_MOST_STORES; place++) {
        struct slot *slot = &slots[place];
        struct slot fresh = {.last = slot->last, .forked = slot->number ? slot->number : slot->forked, .file = {.descriptor = -1}};
        if (slot->file.descriptor >= 0)
            close(slot->file.descriptor);
        memcpy(slot, &fresh, sizeof fresh);
        pthread_mutex_init(&slot->writing.mutex, NULL);
        pthread_mutex_init(&slot->calling.mutex, NULL);
    }
    pthread_mutex_unlock(&corwaphi_table);
}

static void begin(void)
{
    for (size_t place = 0; place < CORWAPHI_MOST_STORES; place++) {
        slots[place].file.descriptor = -1;
        pthread_mutex_init(&slots[place].writing.mutex, NULL);
        pthread_mutex_init(&slots[place].calling.mutex, NULL);
    }
    pthread_atfork(before_fork, in_parent, in_child);
}

static struct slot *reserved(void)
{
    struct slot *slot = NULL;
    pthread_once(&once, begin);
    pthread_mutex_lock(&corwaphi_table);
    for (size_t place = 0; place < CORWAPHI_MOST_STORES && !slot; place++)
        if (!slots[place].taken)
            slot = &slots[place];
    if (slot)
        slot->taken = true;
    pthread_mutex_unlock(&corwaphi_table);
    return slot;
}

/* Releases what a slot has. The caller holds its mutexes, or is the only one that knows it. errno stays as it is. */
static void given_back(struct slot *slot)
{
    int error = errno;
    if (slot->handle.at)
        corwaphi_store_close(slot->handle);
    slot->handle.at = NULL;
    pthread_mutex_lock(&corwaphi_table);
    corwaphi_file_close(&slot->file);
    slot->number = 0;
    slot->taken = false;
    pthread_mutex_unlock(&corwaphi_table);
    errno = error;
}

/* A thread that has tried so often in vain to take a mutex is impatient. By then it has waited for one to two milliseconds. */
#define PATIENCE 16

/* Takes the mutex, if nobody has it and no other thread is impatient. */
static bool took(struct gate *gate)
{
    return !atomic_load(&gate->impatient) && !pthread_mutex_trylock(&gate->mutex);
}

/* Takes the mutex. Most calls take microseconds, and to wake a thread after each would take longer: so a thread that finds the mutex taken
 * tries again after pauses, and the one that has it goes on for some calls. An impatient thread waits to be woken, and all others let it
 * go first. */
static void taken(struct gate *gate)
{
    for (int tries = 0; tries < PATIENCE; tries++) {
        if (took(gate))
            return;
        nanosleep(&(struct timespec){0, 1000L << (tries < 6 ? tries : 6)}, NULL);
    }
    atomic_fetch_add(&gate->impatient, 1);
    pthread_mutex_lock(&gate->mutex);
    atomic_fetch_sub(&gate->impatient, 1);
}

/* Waits for the right to call the store of a slot. */
static void called(struct slot *slot)
{
    if (took(&slot->calling))
        return;
    atomic_fetch_add(&slot->waiting, 1);
    taken(&slot->calling);
    atomic_fetch_sub(&slot->waiting, 1);
}

static void left(struct slot *slot, bool writes)
{
    pthread_mutex_unlock(&slot->calling.mutex);
    if (writes)
        pthread_mutex_unlock(&slot->writing.mutex);
}

/* Finds the slot of a store, and waits for the right to call it; if it writes, first for the right to write. */
static uint32_t entered(corwaphi store, bool writes, struct slot **found)
{
    struct slot *slot = &slots[store.number % CORWAPHI_MOST_STORES];
    pthread_once(&once, begin);
    if (writes)
        taken(&slot->writing);
    called(slot);
    *found = slot;
    if (store.number && slot->number == store.number)
        return CORWAPHI_OK;
    uint32_t answer = store.number && slot->forked == store.number ? CORWAPHI_FORKED : CORWAPHI_CLOSED;
    left(slot, writes);
    return answer;
}

/* Lets calls of other threads in, between two steps of work. */
static void let_others(struct slot *slot)
{
    if (!atomic_load(&slot->waiting))
        return;
    left(slot, false);
    nanosleep(&(struct timespec){0, 50000}, NULL);
    called(slot);
}

/* ---- calls of the store */

#define HANDLE slot->handle, &slot->handle
#define IMAGE slot->file.image, slot->file.length
#define JOURNAL slot->file.journal, CORWAPHI_STORE_JOURNAL, &slot->file.used
#define RUNS(call) (slot->handle.at ? (call) : CORWAPHI_STOPPED)

/* The answer of a call, once what it wrote is applied. If that fails the store is dropped: an opening finds out what the file has. */
static uint32_t told(struct slot *slot, uint32_t answer)
{
    if (corwaphi_file_make(&slot->file, slot->file.journal, slot->file.used))
        return answer;
    corwaphi_store_close(slot->handle);
    slot->handle.at = NULL;
    return CORWAPHI_IO;
}

/* Before each write, and once more for each 2 KiB of it, PIECES steps of the compactions that are due are done. */
#define PIECES ((size_t)8)
#define PIECES_FOR ((size_t)2048)

/* Does a step of what the store has to do, and returns what it was. The store goes on as it then is, whatever it found no room for. */
static uint32_t piece_done(struct slot *slot)
{
    uint32_t did;
    bool done = RUNS(told(slot, corwaphi_store_work(HANDLE, IMAGE, JOURNAL, &did))) == CORWAPHI_OK;
    return done ? did : CORWAPHI_STORE_NOTHING;
}

/* Does all that the store has to do. */
static void worked(struct slot *slot)
{
    slot->due = false;
    while (piece_done(slot))
        let_others(slot);
}

/* Does what a write waits for. Compactions that it needn't wait for are left to the next writes. */
static void readied_for_write(struct slot *slot)
{
    uint32_t did;
    while ((did = piece_done(slot)) && did != CORWAPHI_STORE_REST)
        let_others(slot);
    slot->due = did == CORWAPHI_STORE_REST;
}

/* Continues the compactions that are due, before a write of `bytes` bytes. */
static void went_on(struct slot *slot, size_t bytes)
{
    for (size_t pieces = PIECES * (1 + bytes / PIECES_FOR); slot->due && pieces; pieces--) {
        slot->due = piece_done(slot) != CORWAPHI_STORE_NOTHING;
        let_others(slot);
    }
}

/* What is to be written: a put, a delete, a batch, or a batch under guards. */
struct change {
    enum { PUT, DELETE, WRITE, WRITE_IF } kind;
    const uint8_t *first, *second;
    size_t first_length, second_length;
    uint64_t number;
    uint8_t place;
};

static uint32_t tried(struct slot *slot, struct change *it)
{
    switch (it->kind) {
    case PUT:
        return RUNS(told(slot, corwaphi_store_put(HANDLE, IMAGE, JOURNAL, it->first, it->first_length, it->second, it->second_length,
                                                  &it->number)));
    case DELETE:
        return RUNS(told(slot, corwaphi_store_delete(HANDLE, IMAGE, JOURNAL, it->first, it->first_length, &it->number)));
    case WRITE:
        return RUNS(told(slot, corwaphi_store_write(HANDLE, IMAGE, JOURNAL, it->first, it->first_length, &it->number)));
    default:
        return RUNS(told(slot, corwaphi_store_write_if(HANDLE, IMAGE, JOURNAL, it->first, it->first_length, it->second,
                                                       it->second_length, &it->number, &it->place)));
    }
}

/* Writes, once the work that comes first is done. */
static uint32_t changed(corwaphi store, struct change it, uint64_t *number, uint8_t *place)
{
    static const uint8_t none[1];
    struct slot *slot;
    if ((!it.first && it.first_length) || (!it.second && it.second_length))
        return CORWAPHI_NULL;
    it.first = it.first ? it.first : none;
    it.second = it.second ? it.second : none;
    uint32_t answer = entered(store, true, &slot);
    if (answer)
        return answer;
    bool ran = slot->handle.at;
    went_on(slot, it.first_length + it.second_length);
    while ((answer = tried(slot, &it)) == CORWAPHI_STORE_WORK_FIRST)
        readied_for_write(slot);
    if (ran && !slot->handle.at)
        answer = CORWAPHI_IO;
    left(slot, true);
    if (answer == CORWAPHI_OK && number)
        *number = it.number;
    if (answer == CORWAPHI_GUARD_FAILED && place)
        *place = it.place;
    return answer;
}

uint32_t corwaphi_put(corwaphi store, const void *key, size_t key_length, const void *value, size_t value_length, uint64_t *number)
{
    return changed(store, (struct change){PUT, key, value, key_length, value_length, 0, 0}, number, NULL);
}

uint32_t corwaphi_delete(corwaphi store, const void *key, size_t key_length, uint64_t *number)
{
    return changed(store, (struct change){DELETE, key, NULL, key_length, 0, 0, 0}, number, NULL);
}

uint32_t corwaphi_write(corwaphi store, const uint8_t *text, size_t text_length, uint64_t *number)
{
    return changed(store, (struct change){WRITE, text, NULL, text_length, 0, 0, 0}, number, NULL);
}

uint32_t corwaphi_write_if(corwaphi store, const uint8_t *guards, size_t guards_length, const uint8_t *text, size_t text_length,
                           uint64_t *number, uint8_t *place)
{
    return changed(store, (struct change){WRITE_IF, guards, text, guards_length, text_length, 0, 0}, number, place);
}

uint32_t corwaphi_compact(corwaphi store)
{
    struct slot *slot;
    uint32_t answer = entered(store, true, &slot);
    if (answer)
        return answer;
    answer = RUNS(corwaphi_store_compact(HANDLE));
    if (answer == CORWAPHI_OK) {
        worked(slot);
        /* Only a failure of the file drops the store. */
        answer = slot->handle.at ? CORWAPHI_OK : CORWAPHI_IO;
    }
    left(slot, true);
    return answer;
}

/* The whole body of a function that makes one call. */
#define CALLS(call)                                     \
    do {                                                \
        struct slot *slot;                              \
        uint32_t answer = entered(store, false, &slot); \
        if (answer)                                     \
            return answer;                              \
        answer = RUNS(call);                            \
        left(slot, false);                              \
        return answer;                                  \
    } while (0)

uint32_t corwaphi_sync(corwaphi store) { CALLS(told(slot, corwaphi_store_sync(HANDLE, IMAGE, JOURNAL))); }

uint32_t corwaphi_sync_to(corwaphi store, uint64_t number) { CALLS(told(slot, corwaphi_store_sync_to(HANDLE, IMAGE, JOURNAL, number))); }

uint32_t corwaphi_get(corwaphi store, uint64_t snapshot, const void *key, size_t key_length, void *value, size_t room, size_t *length)
{
    uint8_t none[1] = {0};
    if ((!key && key_length) || (!value && room) || !length)
        return CORWAPHI_NULL;
    CALLS(corwaphi_store_get(HANDLE, IMAGE, snapshot, key ? key : none, key_length, value ? value : none, room, length));
}

static uint32_t rows_copied(corwaphi store, uint64_t snapshot, const uint8_t *from, size_t from_length, const uint8_t *to,
                            size_t to_length, uint64_t limit, uint8_t *buffer, size_t room, struct corwaphi_store_page *page)
{
    static const uint8_t none[1];
    CALLS(corwaphi_store_rows(HANDLE, IMAGE, snapshot, from ? from : none, from_length, to ? to : none, to ? to_length : 0, to != NULL, limit,
                              buffer, room, page));
}

uint32_t corwaphi_rows(corwaphi store, uint64_t snapshot, const void *from, size_t from_length, const void *to, size_t to_length,
                       uint64_t limit, uint8_t *buffer, size_t room, struct corwaphi_page *page)
{
    struct corwaphi_store_page copied;
    if ((!from && from_length) || !buffer || !page)
        return CORWAPHI_NULL;
    uint32_t answer = rows_copied(store, snapshot, from, from_length, to, to_length, limit, buffer, room, &copied);
    if (answer)
        return answer;
    *page = (struct corwaphi_page){.bytes = buffer, .length = copied.length, .rows = copied.rows, .has_next = copied.has_next};
    if (copied.has_next) {
        struct corwaphi_page rest = *page;
        while (corwaphi_page_row(&rest, &page->next))
            ;
        rest.rows = 1;
        corwaphi_page_row(&rest, &page->next);
    }
    return CORWAPHI_OK;
}

uint32_t corwaphi_snapshot(corwaphi store, uint64_t *snapshot)
{
    if (!snapshot)
        return CORWAPHI_NULL;
    CALLS(corwaphi_store_snapshot(HANDLE, snapshot));
}

uint32_t corwaphi_release(corwaphi store, uint64_t snapshot) { CALLS(corwaphi_store_release(HANDLE, snapshot)); }

uint32_t corwaphi_stat(corwaphi store, struct corwaphi_numbers *numbers)
{
    if (!numbers)
        return CORWAPHI_NULL;
    CALLS(corwaphi_store_stat(HANDLE, numbers));
}

/* ---- opening, making, closing */

static const struct corwaphi_options usual = CORWAPHI_OPTIONS;

/* The store in the file of a slot, ready for writes. */
static uint32_t readied(struct slot *slot, uint32_t cache)
{
    uint32_t answer = corwaphi_file_map(&slot->file);
    if (answer)
        return answer;
    answer = corwaphi_store_open(&slot->handle, IMAGE, JOURNAL, (uint32_t)(slot->file.length / 512), cache);
    if (!corwaphi_file_make(&slot->file, slot->file.journal, slot->file.used))
        return CORWAPHI_IO;
    if (answer)
        return answer;
    worked(slot);
    return slot->handle.at ? CORWAPHI_OK : CORWAPHI_IO;
}

uint32_t corwaphi_open(const char *path, const struct corwaphi_options *options, corwaphi *store)
{
    if (!path || !store)
        return CORWAPHI_NULL;
    *store = (corwaphi){0};
    struct slot *slot = reserved();
    if (!slot)
        return CORWAPHI_TOO_MANY_STORES;
    called(slot);
    uint32_t answer = corwaphi_file_open(&slot->file, path, 0);
    if (!answer)
        answer = readied(slot, options ? options->cache : usual.cache);
    slot->due = false;
    if (answer) {
        given_back(slot);
    } else {
        pthread_mutex_lock(&corwaphi_table);
        slot->last = slot->last ? slot->last + CORWAPHI_MOST_STORES : CORWAPHI_MOST_STORES + (uint64_t)(slot - slots);
        slot->number = slot->last;
        store->number = slot->last;
        pthread_mutex_unlock(&corwaphi_table);
    }
    left(slot, false);
    return answer;
}

uint32_t corwaphi_create(const char *path, const struct corwaphi_options *options)
{
    if (!path)
        return CORWAPHI_NULL;
    struct slot *slot = reserved();
    if (!slot)
        return CORWAPHI_TOO_MANY_STORES;
    uint32_t answer = corwaphi_file_create(&slot->file, path, options ? options : &usual);
    called(slot);
    given_back(slot);
    left(slot, false);
    return answer;
}

uint32_t corwaphi_open_or_create(const char *path, const struct corwaphi_options *options, corwaphi *store)
{
    uint32_t answer = corwaphi_open(path, options, store);
    if (answer != CORWAPHI_FILE || errno != ENOENT)
        return answer;
    answer = corwaphi_create(path, options);
    if (answer && !(answer == CORWAPHI_FILE && errno == EEXIST))
        return answer;
    return corwaphi_open(path, options, store);
}

uint32_t corwaphi_close(corwaphi store)
{
    struct slot *slot;
    uint32_t answer = entered(store, true, &slot);
    if (answer)
        return answer;
    given_back(slot);
    left(slot, true);
    return CORWAPHI_OK;
}
