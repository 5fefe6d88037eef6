/* Each system call by which the host works on the file fails in turn, falls short, or is interrupted: `faults PATH`. What was synced is
 * there after the next opening, no batch is there in part, and a store whose write or sync has failed takes no more calls. */
#include "model.h"

#include <errno.h>
#include <sys/file.h>
#include <sys/mman.h>
#include <unistd.h>

#define MOST 4000

enum way { WELL, FAILS, SHORT, INTERRUPTED };

static enum way way;
static uint64_t calls, failing;
static bool has_failed;

/* Whether this call is the one that goes wrong. */
static bool is_it(void)
{
    if (way == WELL || calls++ != failing)
        return false;
    has_failed = true;
    return true;
}

ssize_t __real_pwrite(int file, const void *bytes, size_t length, off_t at);
ssize_t __wrap_pwrite(int file, const void *bytes, size_t length, off_t at);
ssize_t __wrap_pwrite(int file, const void *bytes, size_t length, off_t at)
{
    if (!is_it())
        return __real_pwrite(file, bytes, length, at);
    if (way == SHORT)
        return __real_pwrite(file, bytes, length > 700 ? 700 : 1 + length / 2, at);
    /* A write that fails may have written a part. */
    if (way == FAILS && length > 512)
        CHECK(__real_pwrite(file, bytes, 512, at) == 512);
    errno = way == FAILS ? EIO : EINTR;
    return -1;
}

#define WRAPPED(name, parameters, arguments)                          \
    int __real_##name parameters;                                     \
    int __wrap_##name parameters;                                     \
    int __wrap_##name parameters                                      \
    {                                                                 \
        if (way == SHORT || !is_it())                                 \
            return __real_##name arguments;                           \
        errno = way == FAILS ? EIO : EINTR;                           \
        return -1;                                                    \
    }

WRAPPED(fdatasync, (int file), (file))
WRAPPED(fsync, (int file), (file))
WRAPPED(ftruncate, (int file, off_t length), (file, length))

/* A call that doesn't wait is not interrupted. */
int __real_flock(int file, int operation);
int __wrap_flock(int file, int operation);
int __wrap_flock(int file, int operation)
{
    if (way != FAILS || operation == LOCK_UN || !is_it())
        return __real_flock(file, operation);
    errno = ENOLCK;
    return -1;
}

int __real_open(const char *path, int flags, ...);
int __wrap_open(const char *path, int flags, ...);
int __wrap_open(const char *path, int flags, ...)
{
    if (way != FAILS || !is_it())
        return __real_open(path, flags, 0644);
    errno = EMFILE;
    return -1;
}

void *__real_mmap(void *at, size_t length, int access, int flags, int file, off_t from);
void *__wrap_mmap(void *at, size_t length, int access, int flags, int file, off_t from);
void *__wrap_mmap(void *at, size_t length, int access, int flags, int file, off_t from)
{
    if (way != FAILS || !is_it())
        return __real_mmap(at, length, access, flags, file, from);
    errno = ENOMEM;
    return MAP_FAILED;
}

static const struct corwaphi_options options = {16, 8192, 128};
static struct map maps[MOST + 1];
static uint64_t written, synced;
static corwaphi store;

static bool has_stopped(uint32_t code)
{
    if (code == CORWAPHI_OK)
        return false;
    EXPECT(CORWAPHI_IO, code);
    EXPECT(CORWAPHI_STOPPED, corwaphi_put(store, "k", 1, "v", 1, NULL));
    EXPECT(CORWAPHI_STOPPED, corwaphi_sync(store));
    EXPECT(CORWAPHI_STOPPED, corwaphi_compact(store));
    return true;
}

/* Opens, writes batches of three keys, syncs some, and compacts, until all is done or the store has stopped. */
static void lead(const char *path)
{
    uint32_t code = corwaphi_open(path, &options, &store);
    if (code != CORWAPHI_OK) {
        CHECK(code == CORWAPHI_FILE || code == CORWAPHI_IO || code == CORWAPHI_NO_MEMORY);
        return;
    }
    for (uint32_t step = 0; step < 260; step++) {
        struct corwaphi_batch batch = CORWAPHI_BATCH;
        struct map *next = &maps[written + 1];
        CHECK(written < MOST);
        *next = maps[written];
        for (int operations = 0; operations < 3; operations++) {
            uint8_t key[CORWAPHI_MOST_KEY], value[CORWAPHI_MOST_VALUE];
            uint32_t place = below(KEYS), number = 1 + below(1u << 30);
            EXPECT(CORWAPHI_OK, corwaphi_batch_put(&batch, key, key_of(place, key), value, value_of(number, value)));
            next->numbers[place] = number;
        }
        code = corwaphi_write(store, batch.text, batch.length, NULL);
        corwaphi_batch_free(&batch);
        /* A batch that failed may be there after the next opening. */
        written++;
        if (has_stopped(code))
            return;
        if (step % 40 == 39) {
            if (has_stopped(corwaphi_compact(store)))
                return;
        } else if (step % 3 == 2) {
            if (has_stopped(corwaphi_sync(store)))
                return;
            synced = written;
        }
    }
}

static void check(void)
{
    struct corwaphi_numbers numbers;
    EXPECT(CORWAPHI_OK, corwaphi_stat(store, &numbers));
    CHECK(synced <= numbers.batches && numbers.batches <= written);
    for (uint32_t place = 0; place < KEYS; place++) {
        uint8_t key[CORWAPHI_MOST_KEY], value[CORWAPHI_MOST_VALUE], wanted[CORWAPHI_MOST_VALUE];
        size_t length = 0;
        uint32_t code = corwaphi_get(store, CORWAPHI_NOW, key, key_of(place, key), value, sizeof value, &length);
        EXPECT(maps[numbers.batches].numbers[place] ? CORWAPHI_OK : CORWAPHI_NO_VALUE, code);
        if (code == CORWAPHI_OK)
            CHECK(length == value_of(maps[numbers.batches].numbers[place], wanted) && !memcmp(value, wanted, length));
    }
}

static void ready(enum way each, uint64_t place)
{
    memset(maps, 0, sizeof maps[0]);
    written = synced = calls = 0;
    has_failed = false;
    failing = place;
    way = each;
}

/* Whether a call went wrong; the store has to be there and to have what was synced. */
static bool has_outlasted(const char *path)
{
    EXPECT(CORWAPHI_OK, corwaphi_open(path, &options, &store));
    check();
    EXPECT(CORWAPHI_OK, corwaphi_close(store));
    return has_failed;
}

/* A store that can't be made leaves no file, and the next one can be made. */
static uint64_t make_all(const char *path, enum way each)
{
    uint64_t place = 0, runs = 0;
    /* Most calls write zeros. */
    for (;; place += place > 6 && place < 60 ? 9 : 1) {
        unlink(path);
        ready(each, place);
        uint32_t code = corwaphi_create(path, &options);
        way = WELL;
        if (!has_failed || each != FAILS) {
            EXPECT(CORWAPHI_OK, code);
        } else {
            EXPECT(CORWAPHI_FILE, code);
            /* But if the name in the folder can't be synced the file is there, and whole. */
            if (access(path, F_OK))
                EXPECT(CORWAPHI_OK, corwaphi_create(path, &options));
        }
        if (!has_outlasted(path))
            return runs;
        runs++;
    }
}

/* The calls of a run fail in turn, in its middle every seventeenth. */
static uint64_t lead_all(const char *path, enum way each)
{
    uint64_t runs = 0;
    for (uint64_t place = 0;; place += place < 30 ? 1 : 17) {
        unlink(path);
        EXPECT(CORWAPHI_OK, corwaphi_create(path, &options));
        ready(each, place);
        lead(path);
        way = WELL;
        corwaphi_close(store);
        if (!has_outlasted(path))
            return runs;
        runs++;
    }
}

int main(int count, char **words)
{
    CHECK(count == 2);
    uint64_t made = 0, led = 0;
    for (enum way each = FAILS; each <= INTERRUPTED; each++) {
        made += make_all(words[1], each);
        led += lead_all(words[1], each);
    }
    printf("%llu stores were made and %llu led with a call that failed, fell short or was interrupted: what was synced is there\n",
           (unsigned long long)made, (unsigned long long)led);
    return 0;
}
