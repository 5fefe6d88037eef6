/* Crashes of journals: `crash CRASHES SEED`. The host applies them (corwaphi_file_make) by system calls that a model of a disk replaces:
 * durable sectors, and pending writes. A crash comes at any write or sync of any journal, of openings too, keeps any of the pending writes
 * and drops the others; then the store is opened again, and its map has to be that of some batch between the last one that was synced and
 * the last one that was written. */
#include "model.h"
#include "../files.h"

#include <errno.h>
#include <unistd.h>

#define SECTORS 8192
#define DISK 1000
#define NAMES 24
#define MOST_BATCHES 400000
#define MOST_PENDING 8192

typedef uint8_t sector[512];

static sector *stands, *image;
static struct {
    uint32_t at;
    sector bytes;
} pending[MOST_PENDING];
static int pending_count;
static uint8_t journal[CORWAPHI_STORE_JOURNAL];
static const struct file file = {.descriptor = DISK, .length = (size_t)SECTORS * 512};
static uint16_t (*maps)[NAMES]; /* by the number of batches; 0 for no value */
static struct corwaphi_store_handle handle;
static uint64_t crashes, within_openings, openings, operations, jobs, rests, tables_most;
static uint64_t generation; /* of the valid manifest */
static uint32_t one_in = 60;
static bool is_calm = true; /* whether no crash comes */

#define HANDLE handle, &handle
#define IMAGE image[0], (size_t)SECTORS * 512
#define JOURNAL journal, sizeof journal, &used

static void crash(void)
{
    uint32_t mode = below(3);
    for (int place = 0; place < pending_count; place++)
        if (mode == 0 || (mode == 1 && below(2)))
            memcpy(stands[pending[place].at], pending[place].bytes, 512);
    pending_count = 0;
    memcpy(image, stands, (size_t)SECTORS * 512);
    crashes++;
}

/* A system call that fails, since the crash has come. */
static int crashes_in(uint32_t calls)
{
    if (is_calm || below(calls))
        return 0;
    crash();
    errno = EIO;
    return -1;
}

/* The system calls on the model: DISK is its descriptor. */
ssize_t __wrap_pwrite(int descriptor, const void *bytes, size_t length, off_t at);
ssize_t __wrap_pwrite(int descriptor, const void *bytes, size_t length, off_t at)
{
    CHECK(descriptor == DISK && length && length % 512 == 0 && at % 512 == 0 && (size_t)at + length <= (size_t)SECTORS * 512);
    for (size_t done = 0; done < length; done += 512) {
        if (crashes_in(one_in * 10))
            return -1;
        CHECK(pending_count < MOST_PENDING);
        pending[pending_count].at = (uint32_t)(((size_t)at + done) / 512);
        memcpy(pending[pending_count].bytes, (const uint8_t *)bytes + done, 512);
        memcpy(image[pending[pending_count].at], (const uint8_t *)bytes + done, 512);
        pending_count++;
        operations++;
    }
    return (ssize_t)length;
}

int __wrap_fdatasync(int descriptor);
int __wrap_fdatasync(int descriptor)
{
    CHECK(descriptor == DISK);
    if (crashes_in(one_in))
        return -1;
    for (int place = 0; place < pending_count; place++)
        memcpy(stands[pending[place].at], pending[place].bytes, 512);
    pending_count = 0;
    operations++;
    return 0;
}

/* Applies a journal to the disk; false if a crash comes. */
static bool make(size_t used)
{
    uint64_t before = crashes;
    bool made = corwaphi_file_make(&file, journal, used);
    CHECK(made == (crashes == before));
    return made && !crashes_in(one_in * 10);
}

/* A manifest is durable once the journal of the call that wrote it is applied: nothing is pending. */
static void check_manifest(void)
{
    struct corwaphi_numbers numbers;
    EXPECT(CORWAPHI_OK, corwaphi_store_stat(HANDLE, &numbers));
    CHECK(numbers.generation == generation || pending_count == 0);
    generation = numbers.generation;
}

static void open_store(void)
{
    for (;;) {
        size_t used = 0;
        EXPECT(CORWAPHI_OK, corwaphi_store_open(&handle, IMAGE, JOURNAL, SECTORS, 16));
        openings++;
        if (make(used)) {
            check_manifest();
            return;
        }
        within_openings++;
        corwaphi_store_close(handle);
    }
}

/* A store is made on a disk that doesn't crash. */
static void begin(void)
{
    size_t used, room = CORWAPHI_STORE_FORMAT(128);
    uint8_t *format = malloc(room);
    EXPECT(CORWAPHI_OK, corwaphi_store_format(format, room, &used, SECTORS, 128));
    CHECK(corwaphi_file_make(&file, format, used));
    free(format);
    is_calm = false;
    open_store();
}

static uint16_t value_at(uint32_t name)
{
    char key[8];
    uint8_t value[1024];
    size_t length;
    snprintf(key, sizeof key, "k%02u", name);
    uint32_t code = corwaphi_store_get(HANDLE, IMAGE, CORWAPHI_NOW, (uint8_t *)key, 3, value, sizeof value, &length);
    if (code == CORWAPHI_NO_VALUE)
        return 0;
    EXPECT(CORWAPHI_OK, code);
    CHECK(length >= 2);
    return (uint16_t)(value[0] | value[1] << 8);
}

/* Does a step of work; false if a crash comes. */
static bool work(uint32_t *did)
{
    size_t used;
    EXPECT(CORWAPHI_OK, corwaphi_store_work(HANDLE, IMAGE, JOURNAL, did));
    jobs += *did == CORWAPHI_STORE_JOB;
    rests += *did == CORWAPHI_STORE_REST;
    if (!make(used))
        return false;
    check_manifest();
    return true;
}

/* Continues compactions that were left to the next writes, some steps or none; false if a crash comes. */
static bool go_on(void)
{
    uint32_t did = CORWAPHI_STORE_REST;
    for (uint32_t left = below(12); left && did; left--)
        if (!work(&did))
            return false;
    return true;
}

/* Writes a batch once the work that comes first is done, all of it or what the batch waits for; false if a crash comes. */
static bool write_batch(const struct corwaphi_batch *batch, uint64_t *count)
{
    if (!go_on())
        return false;
    for (;;) {
        size_t used;
        uint64_t number = 0;
        uint32_t code = corwaphi_store_write(HANDLE, IMAGE, JOURNAL, batch->text, batch->length, &number);
        if (code == CORWAPHI_OK)
            CHECK(number == ++*count);
        if (code != CORWAPHI_STORE_WORK_FIRST) {
            EXPECT(CORWAPHI_OK, code);
            return make(used);
        }
        CHECK(used == 0);
        bool whole = below(2);
        for (uint32_t did = CORWAPHI_STORE_PIECE; did && (whole || did != CORWAPHI_STORE_REST);)
            if (!work(&did))
                return false;
    }
}

/* Makes a batch and writes it; false if a crash comes. */
static bool write_some(uint64_t *count)
{
    struct corwaphi_batch batch = CORWAPHI_BATCH;
    uint16_t *next = maps[*count + 1];
    memcpy(next, maps[*count], sizeof maps[0]);
    for (uint32_t left = 1 + below(12); left; left--) {
        uint8_t value[1024] = {0};
        char key[8];
        uint32_t name = below(NAMES);
        snprintf(key, sizeof key, "k%02u", name);
        next[name] = (uint16_t)(below(5) ? 1 + below(65535) : 0);
        value[0] = (uint8_t)next[name];
        value[1] = (uint8_t)(next[name] >> 8);
        EXPECT(CORWAPHI_OK, next[name] ? corwaphi_batch_put(&batch, key, 3, value, 2 + below(1000)) : corwaphi_batch_delete(&batch, key, 3));
    }
    bool is_up = write_batch(&batch, count);
    corwaphi_batch_free(&batch);
    return is_up;
}

int main(int argument_count, char **words)
{
    CHECK(argument_count == 3);
    uint64_t wanted = strtoull(words[1], NULL, 10), synced = 0, count = 0, at_disk, lost = 0;
    seed += strtoull(words[2], NULL, 10);
    stands = calloc(SECTORS, 512);
    image = calloc(SECTORS, 512);
    maps = calloc(MOST_BATCHES, sizeof *maps);
    begin();
    while (crashes < wanted && count + 2 < MOST_BATCHES) {
        bool is_up = true;
        size_t used = 0;
        uint32_t what = below(20);
        if (what < 8) {
            is_up = write_some(&count);
        } else if (what < 10) {
            EXPECT(CORWAPHI_OK, corwaphi_store_sync(HANDLE, IMAGE, JOURNAL));
            is_up = make(used);
            CHECK(!is_up || pending_count == 0);
        } else if (what < 19) {
            uint32_t did;
            if (!below(40))
                EXPECT(CORWAPHI_OK, corwaphi_store_compact(HANDLE));
            is_up = work(&did);
        } else {
            for (uint32_t name = 0; name < NAMES; name++)
                CHECK(value_at(name) == maps[count][name]);
        }
        uint64_t batches;
        struct corwaphi_numbers numbers;
        if (is_up) {
            EXPECT(CORWAPHI_OK, corwaphi_store_counts(HANDLE, &batches, &synced));
            CHECK(batches == count && synced <= count);
            EXPECT(CORWAPHI_OK, corwaphi_store_stat(HANDLE, &numbers));
            tables_most = numbers.tables > tables_most ? numbers.tables : tables_most;
            continue;
        }
        corwaphi_store_close(handle);
        open_store();
        EXPECT(CORWAPHI_OK, corwaphi_store_counts(HANDLE, &batches, &at_disk));
        CHECK(batches >= synced && batches <= count);
        for (uint32_t name = 0; name < NAMES; name++)
            CHECK(value_at(name) == maps[batches][name]);
        lost += count - batches;
        count = synced = batches;
    }
    corwaphi_store_close(handle);
    CHECK(rests > 0);
    printf("%llu crashes, %llu of them within openings, %llu writes and syncs, %llu batches kept, %llu unsynced ones lost, %llu jobs, %llu "
           "pieces of what may wait, at most %llu tables: each map right\n",
           (unsigned long long)crashes, (unsigned long long)within_openings, (unsigned long long)operations, (unsigned long long)count,
           (unsigned long long)lost, (unsigned long long)jobs, (unsigned long long)rests, (unsigned long long)tables_most);
    return 0;
}
