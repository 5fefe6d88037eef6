/* How the host applies a journal to a file: exactly its writes and its syncs, in order, `journal` without arguments. And what it does with
 * wrong lengths: of a journal, and of a page's rows. */
#include "model.h"
#include "../files.h"

#include <errno.h>
#include <unistd.h>

#define DESCRIPTOR 1000
#define SECTORS 64
#define MOST 32

/* The system calls that were made: writes of some sectors, with the first byte of each, and syncs, which have none. */
static struct {
    uint32_t first, count;
    uint8_t bytes[SECTORS];
} made[MOST];
static int made_count, failing = -1;
static uint8_t journal[8 * MOST + 512 * SECTORS];
static size_t used;
static struct file file = {.descriptor = DESCRIPTOR, .length = 512 * SECTORS};

/* Whether this call is the one that fails. */
static bool fails(void)
{
    if (made_count != failing)
        return false;
    failing = -1;
    errno = EIO;
    return true;
}

ssize_t __wrap_pwrite(int descriptor, const void *bytes, size_t length, off_t at);
ssize_t __wrap_pwrite(int descriptor, const void *bytes, size_t length, off_t at)
{
    CHECK(descriptor == DESCRIPTOR && made_count < MOST && length && length % 512 == 0 && at % 512 == 0);
    if (fails())
        return -1;
    made[made_count].first = (uint32_t)(at / 512);
    made[made_count].count = (uint32_t)(length / 512);
    for (size_t sector = 0; sector < length / 512; sector++) {
        made[made_count].bytes[sector] = ((const uint8_t *)bytes)[512 * sector];
        CHECK(((const uint8_t *)bytes)[512 * sector + 511] == made[made_count].bytes[sector]);
    }
    made_count++;
    return (ssize_t)length;
}

int __wrap_fdatasync(int descriptor);
int __wrap_fdatasync(int descriptor)
{
    CHECK(descriptor == DESCRIPTOR && made_count < MOST);
    if (fails())
        return -1;
    made[made_count++].count = 0;
    return 0;
}

static void number(uint8_t *at, uint32_t it)
{
    for (int place = 0; place < 4; place++)
        at[place] = (uint8_t)(it >> (8 * place));
}

/* Adds a record: `count` sectors from `first` on, each filled with one byte, the next sector with the next byte. */
static void record(uint32_t first, uint32_t count, uint8_t byte)
{
    number(journal + used, first);
    number(journal + used + 4, count);
    used += 8;
    for (; count; count--, used += 512)
        memset(journal + used, byte++, 512);
}

static void begin(void)
{
    made_count = 0;
    failing = -1;
    used = 0;
}

static void check_made(int place, uint32_t first, uint32_t count, uint8_t byte)
{
    CHECK(place < made_count && made[place].count == count && (!count || made[place].first == first));
    for (uint32_t sector = 0; sector < count; sector++)
        CHECK(made[place].bytes[sector] == (uint8_t)(byte + sector));
}

/* As an install writes: data, a sync, the root, a sync. */
static void write_all(void)
{
    begin();
    record(7, 3, 10);
    record(40, 1, 20);
    record(0, 0, 0);
    record(0, 1, 30);
    record(0, 0, 0);
    record(63, 1, 40);
}

static void check_order(void)
{
    write_all();
    CHECK(corwaphi_file_make(&file, journal, used) && made_count == 6);
    check_made(0, 7, 3, 10);
    check_made(1, 40, 1, 20);
    check_made(2, 0, 0, 0);
    check_made(3, 0, 1, 30);
    check_made(4, 0, 0, 0);
    check_made(5, 63, 1, 40);
    begin();
    CHECK(corwaphi_file_make(&file, journal, used) && made_count == 0);
    /* A call that fails is the last one. */
    for (int place = 0; place < 6; place++) {
        write_all();
        failing = place;
        CHECK(!corwaphi_file_make(&file, journal, used) && made_count == place);
    }
}

/* Nothing is applied of a journal that isn't whole, wherever it ends; nor of one that has sectors after the file's end. */
static void check_lengths(void)
{
    write_all();
    size_t whole = used;
    bool ends[sizeof journal + 1] = {false};
    const size_t sizes[] = {0, 8 + 3 * 512, 8 + 512, 8, 8 + 512, 8, 8 + 512};
    size_t end = 0;
    for (size_t place = 0; place < sizeof sizes / sizeof sizes[0]; place++)
        ends[end += sizes[place]] = true;
    CHECK(end == whole);
    for (used = 0; used <= whole; used++) {
        made_count = 0;
        CHECK(corwaphi_file_make(&file, journal, used) == ends[used]);
        CHECK(ends[used] || made_count == 0);
    }
    static const uint32_t wrong[][2] = {{64, 1}, {63, 2}, {UINT32_MAX, 1}, {62, 3}};
    for (size_t place = 0; place < 4; place++) {
        begin();
        record(1, 1, 1);
        record(wrong[place][0], wrong[place][1], 2);
        CHECK(!corwaphi_file_make(&file, journal, used) && made_count == 0);
    }
    /* A number of sectors that the journal doesn't have. */
    begin();
    record(1, 2, 1);
    number(journal + 4, 3);
    CHECK(!corwaphi_file_make(&file, journal, used) && made_count == 0);
    number(journal + 4, UINT32_MAX);
    CHECK(!corwaphi_file_make(&file, journal, used) && made_count == 0);
}

/* Rows are read while the page has their bytes, whatever it says about their number and their lengths. */
static void check_page(void)
{
    static const uint8_t text[] = {1, 0, 2, 0, 'a', 'x', 'y', 1, 0, 0, 0, 'b', 9, 0, 1, 0, 'c'};
    uint8_t *bytes = malloc(sizeof text);
    CHECK(bytes);
    memcpy(bytes, text, sizeof text);
    for (size_t length = 0; length <= sizeof text; length++) {
        struct corwaphi_page page = {.bytes = bytes, .length = length, .rows = 64};
        struct corwaphi_row row;
        int rows = 0;
        while (corwaphi_page_row(&page, &row)) {
            CHECK(row.key + row.key_length == row.value && row.value + row.value_length <= bytes + length);
            rows++;
        }
        CHECK(rows == (length >= 7) + (length >= 12));
    }
    struct corwaphi_page none = {.bytes = bytes, .length = sizeof text, .rows = 1};
    struct corwaphi_row row;
    CHECK(corwaphi_page_row(&none, &row) && row.value_length == 2 && !corwaphi_page_row(&none, &row));
    free(bytes);
}

int main(void)
{
    check_order();
    check_lengths();
    check_page();
    puts("journals are made in their order, and none that has half a record or sectors behind the file's end");
    return 0;
}
