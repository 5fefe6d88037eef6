/* Random calls, compared with a map in an array: `random PATH CALLS SEED`. */
#include "model.h"

#include <unistd.h>

struct moment {
    uint64_t snapshot;
    struct map map;
};

static corwaphi store;
static struct map now;
static struct moment moments[32];
static int moment_count;
static uint64_t batches;
static struct corwaphi_options options = {16, 16384, 200};

static void check_value(uint64_t snapshot, const struct map *map, uint32_t place)
{
    uint8_t key[CORWAPHI_MOST_KEY], value[CORWAPHI_MOST_VALUE], wanted[CORWAPHI_MOST_VALUE];
    size_t length = 77, key_length = key_of(place, key);
    uint32_t code = corwaphi_get(store, snapshot, key, key_length, value, sizeof value, &length);
    if (!map->numbers[place]) {
        EXPECT(CORWAPHI_NO_VALUE, code);
        return;
    }
    EXPECT(CORWAPHI_OK, code);
    CHECK(length == value_of(map->numbers[place], wanted) && !memcmp(value, wanted, length));
    if (length) {
        size_t told = 0;
        EXPECT(CORWAPHI_SHORT_BUFFER, corwaphi_get(store, snapshot, key, key_length, value, length - 1, &told));
        CHECK(told == length);
    }
}

static void check_row(const struct corwaphi_row *row, const struct map *map, uint32_t place)
{
    uint8_t key[CORWAPHI_MOST_KEY], wanted[CORWAPHI_MOST_VALUE];
    CHECK(row->key_length == key_of(place, key) && !memcmp(row->key, key, row->key_length));
    CHECK(row->value_length == value_of(map->numbers[place], wanted) && !memcmp(row->value, wanted, row->value_length));
}

/* Pages of any size, in any buffer, together have what the map has. */
static void check_rows(uint64_t snapshot, const struct map *map)
{
    static uint8_t buffer[CORWAPHI_PAGE_BYTES];
    uint8_t from[CORWAPHI_MOST_KEY], to[CORWAPHI_MOST_KEY];
    uint32_t place = below(KEYS), end = place + below(KEYS - place);
    size_t from_length = key_of(place, from), to_length = key_of(end, to);
    bool ends = below(2), more = true;
    if (!ends)
        end = KEYS;
    while (more) {
        uint64_t limit = 1 + below(64);
        size_t room = below(2) ? sizeof buffer : 300 + below(20000);
        struct corwaphi_page page;
        uint32_t code = corwaphi_rows(store, snapshot, from, from_length, ends ? to : NULL, to_length, limit, buffer, room, &page);
        if (code == CORWAPHI_SHORT_BUFFER && room < sizeof buffer)
            continue;
        EXPECT(CORWAPHI_OK, code);
        CHECK(page.length <= room && page.rows <= limit);
        struct corwaphi_row row;
        more = page.has_next;
        while (corwaphi_page_row(&page, &row)) {
            while (place < end && !map->numbers[place])
                place++;
            CHECK(place < end);
            check_row(&row, map, place++);
        }
        if (more) {
            from_length = page.next.key_length;
            memcpy(from, page.next.key, from_length);
        }
    }
    while (place < end && !map->numbers[place])
        place++;
    CHECK(place == end);
}

static void check_cursor(void)
{
    struct corwaphi_cursor *cursor;
    struct corwaphi_row row;
    uint32_t code = corwaphi_cursor_begin(store, NULL, 0, NULL, 0, &cursor), place = 0, stop = below(4) ? KEYS : below(KEYS);
    if (code == CORWAPHI_TOO_MANY_SNAPSHOTS) {
        CHECK(moment_count == 32);
        return;
    }
    EXPECT(CORWAPHI_OK, code);
    for (; place < stop; place++) {
        if (!now.numbers[place])
            continue;
        EXPECT(CORWAPHI_OK, corwaphi_cursor_next(cursor, &row));
        check_row(&row, &now, place);
    }
    if (stop == KEYS)
        EXPECT(CORWAPHI_NO_VALUE, corwaphi_cursor_next(cursor, &row));
    corwaphi_cursor_end(cursor);
}

static void put_or_delete(void)
{
    uint8_t key[CORWAPHI_MOST_KEY], value[CORWAPHI_MOST_VALUE];
    uint32_t place = below(KEYS), number = below(4) ? 1 + below(1u << 30) : 0;
    size_t key_length = key_of(place, key);
    uint64_t told = 0;
    if (number)
        EXPECT(CORWAPHI_OK, corwaphi_put(store, key, key_length, value, value_of(number, value), &told));
    else
        EXPECT(CORWAPHI_OK, corwaphi_delete(store, key, key_length, &told));
    CHECK(told == ++batches);
    now.numbers[place] = number;
}

/* A batch, sometimes under guards, of which one may be false. */
static void write_batch(void)
{
    struct corwaphi_batch batch = CORWAPHI_BATCH, guards = CORWAPHI_BATCH;
    struct map next = now;
    uint8_t key[CORWAPHI_MOST_KEY], value[CORWAPHI_MOST_VALUE];
    uint64_t told = 0;
    for (uint32_t left = 1 + below(60); left; left--) {
        uint32_t place = below(KEYS), number = below(4) ? 1 + below(1u << 30) : 0;
        size_t key_length = key_of(place, key);
        if (number)
            EXPECT(CORWAPHI_OK, corwaphi_batch_put(&batch, key, key_length, value, value_of(number, value)));
        else
            EXPECT(CORWAPHI_OK, corwaphi_batch_delete(&batch, key, key_length));
        next.numbers[place] = number;
    }
    if (below(2)) {
        EXPECT(CORWAPHI_OK, corwaphi_write(store, batch.text, batch.length, &told));
        CHECK(told == ++batches);
        now = next;
    } else {
        uint32_t count = below(17), wrong = below(3) ? 99 : below(17);
        uint8_t place_told = 99;
        for (uint32_t place = 0; place < count; place++) {
            uint32_t at = below(KEYS), number = now.numbers[at] ^ (place == wrong);
            size_t key_length = key_of(at, key), length = value_of(number, value);
            /* Different numbers may be the same value. */
            uint8_t other[CORWAPHI_MOST_VALUE];
            if (place == wrong && number && now.numbers[at] && value_of(now.numbers[at], other) == length && !memcmp(value, other, length))
                wrong = 99;
            EXPECT(CORWAPHI_OK, number ? corwaphi_batch_put(&guards, key, key_length, value, length)
                                       : corwaphi_batch_delete(&guards, key, key_length));
        }
        uint32_t code = corwaphi_write_if(store, guards.text, guards.length, batch.text, batch.length, &told, &place_told);
        if (wrong < count) {
            EXPECT(CORWAPHI_GUARD_FAILED, code);
            CHECK(place_told == wrong);
        } else {
            EXPECT(CORWAPHI_OK, code);
            CHECK(told == ++batches && place_told == 99);
            now = next;
        }
    }
    corwaphi_batch_free(&batch);
    corwaphi_batch_free(&guards);
}

static void take_or_release(void)
{
    if (below(2)) {
        uint32_t code = corwaphi_snapshot(store, &moments[moment_count % 32].snapshot);
        if (moment_count == 32) {
            EXPECT(CORWAPHI_TOO_MANY_SNAPSHOTS, code);
            return;
        }
        EXPECT(CORWAPHI_OK, code);
        moments[moment_count++].map = now;
    } else if (moment_count) {
        int place = (int)below((uint32_t)moment_count);
        uint8_t value[1];
        size_t length;
        EXPECT(CORWAPHI_OK, corwaphi_release(store, moments[place].snapshot));
        EXPECT(CORWAPHI_NO_SUCH_SNAPSHOT, corwaphi_release(store, moments[place].snapshot));
        EXPECT(CORWAPHI_NO_SUCH_SNAPSHOT, corwaphi_get(store, moments[place].snapshot, "k", 1, value, 1, &length));
        moments[place] = moments[--moment_count];
    }
}

static void reopen(const char *path)
{
    corwaphi was = store;
    EXPECT(CORWAPHI_OK, corwaphi_close(store));
    EXPECT(CORWAPHI_CLOSED, corwaphi_close(was));
    EXPECT(CORWAPHI_OK, corwaphi_open(path, &options, &store));
    EXPECT(CORWAPHI_CLOSED, corwaphi_sync(was));
    moment_count = 0;
    for (uint32_t place = 0; place < KEYS; place++)
        check_value(CORWAPHI_NOW, &now, place);
}

static void check_numbers(void)
{
    struct corwaphi_numbers numbers;
    EXPECT(CORWAPHI_OK, corwaphi_stat(store, &numbers));
    CHECK(numbers.batches == batches && numbers.synced <= batches);
    EXPECT(CORWAPHI_NO_SUCH_BATCH, corwaphi_sync_to(store, batches + 1));
    EXPECT(CORWAPHI_OK, below(2) ? corwaphi_sync(store) : corwaphi_sync_to(store, batches));
    EXPECT(CORWAPHI_OK, corwaphi_stat(store, &numbers));
    CHECK(numbers.synced == batches);
}

int main(int count, char **words)
{
    CHECK(count == 4);
    const char *path = words[1];
    long calls = atol(words[2]), compactions = 0, openings = 0;
    seed += strtoull(words[3], NULL, 10);
    unlink(path);
    EXPECT(CORWAPHI_OK, corwaphi_open_or_create(path, &options, &store));
    for (long call = 0; call < calls; call++) {
        uint32_t what = below(1000);
        int place = moment_count ? (int)below((uint32_t)moment_count) : 0;
        if (what < 350)
            put_or_delete();
        else if (what < 500)
            write_batch();
        else if (what < 750)
            check_value(CORWAPHI_NOW, &now, below(KEYS));
        else if (what < 850 && moment_count)
            check_value(moments[place].snapshot, &moments[place].map, below(KEYS));
        else if (what < 890)
            check_rows(moment_count ? moments[place].snapshot : CORWAPHI_NOW, moment_count ? &moments[place].map : &now);
        else if (what < 920)
            check_rows(CORWAPHI_NOW, &now);
        else if (what < 935)
            check_cursor();
        else if (what < 985)
            take_or_release();
        else if (what < 993)
            check_numbers();
        else if (what < 997)
            compactions++, corwaphi_compact(store);
        else if (what < 998)
            openings++, reopen(path);
    }
    reopen(path);
    struct corwaphi_numbers numbers;
    EXPECT(CORWAPHI_OK, corwaphi_stat(store, &numbers));
    EXPECT(CORWAPHI_OK, corwaphi_close(store));
    printf("%ld calls, %llu batches, %ld compactions, %ld openings, %llu tables, as the map says\n", calls, (unsigned long long)batches,
           compactions, openings, (unsigned long long)numbers.tables);
    return 0;
}
