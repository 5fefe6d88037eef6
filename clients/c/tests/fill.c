/* Stores that are filled until puts find no room, emptied, and filled again: `fill PATH SEED`. No delete is refused, each round finds about
 * as much room as the first one, and the rows are always those of a plain array. */
#include "model.h"

#include <unistd.h>

#define MOST 130000
#define ROUNDS 3

struct kind {
    struct corwaphi_options options;
    size_t value_length;
    uint32_t most_in_batch;
};

static const struct kind kinds[] = {
    {{16, 8192, 2042}, 2000, 24},
    {{16, 8192, 128}, 2000, 24},
    {{16, 8192, 2042}, 8, 300},
    {{16, 8192, 128}, 8, 300},
};

static corwaphi store;
static uint32_t order[MOST]; /* places of keys; those that are there come first */
static bool is_there[MOST];

static size_t key_at(uint32_t place, char key[16]) { return (size_t)snprintf(key, 16, "%07u", place); }

static void value_at(uint32_t place, uint32_t round, size_t length, uint8_t *value)
{
    uint32_t number = place * 2654435761u + round * 40503u;
    for (size_t at = 0; at < length; at++)
        value[at] = (uint8_t)(number >> (8 * (at % 4)) ^ at);
}

static void shuffle(uint32_t count)
{
    for (uint32_t place = count; place > 1; place--) {
        uint32_t other = below(place), was = order[place - 1];
        order[place - 1] = order[other];
        order[other] = was;
    }
}

/* Writes a batch of the keys at some places of the order: a value for each, or a delete of each. */
static uint32_t write_some(const struct kind *kind, uint32_t round, uint32_t first, uint32_t count, bool puts)
{
    struct corwaphi_batch batch = CORWAPHI_BATCH;
    for (uint32_t place = first; place < first + count; place++) {
        char key[16];
        uint8_t value[CORWAPHI_MOST_VALUE];
        size_t length = key_at(order[place], key);
        value_at(order[place], round, kind->value_length, value);
        EXPECT(CORWAPHI_OK, puts ? corwaphi_batch_put(&batch, key, length, value, kind->value_length)
                                 : corwaphi_batch_delete(&batch, key, length));
    }
    uint32_t code = corwaphi_write(store, batch.text, batch.length, NULL);
    corwaphi_batch_free(&batch);
    for (uint32_t place = first; place < first + count && code == CORWAPHI_OK; place++)
        is_there[order[place]] = puts;
    return code;
}

/* Puts until not even one put finds room, and returns how many did. */
static uint32_t fill(const struct kind *kind, uint32_t round)
{
    uint32_t count = 0, most = kind->most_in_batch;
    for (;;) {
        uint32_t size = 1 + below(most), code;
        CHECK(count + size <= MOST);
        code = write_some(kind, round, count, size, true);
        if (code == CORWAPHI_OK) {
            count += size;
            continue;
        }
        EXPECT(CORWAPHI_NO_SPACE, code);
        if (size == 1)
            return count;
        most = size / 2;
    }
}

static void empty(const struct kind *kind, uint32_t round, uint32_t count)
{
    for (uint32_t place = 0; place < count;) {
        uint32_t size = 1 + below(kind->most_in_batch);
        size = size < count - place ? size : count - place;
        EXPECT(CORWAPHI_OK, write_some(kind, round, place, size, false));
        place += size;
    }
}

static void check_rows(const struct kind *kind, uint32_t round, uint32_t count)
{
    struct corwaphi_cursor *cursor;
    struct corwaphi_row row;
    EXPECT(CORWAPHI_OK, corwaphi_cursor_begin(store, NULL, 0, NULL, 0, &cursor));
    for (uint32_t place = 0; place < MOST; place++) {
        char key[16];
        uint8_t value[CORWAPHI_MOST_VALUE];
        if (!is_there[place])
            continue;
        EXPECT(CORWAPHI_OK, corwaphi_cursor_next(cursor, &row));
        value_at(place, round, kind->value_length, value);
        CHECK(row.key_length == key_at(place, key) && !memcmp(row.key, key, row.key_length));
        CHECK(row.value_length == kind->value_length && !memcmp(row.value, value, row.value_length));
        count--;
    }
    EXPECT(CORWAPHI_NO_VALUE, corwaphi_cursor_next(cursor, &row));
    corwaphi_cursor_end(cursor);
    CHECK(count == 0);
}

static void fill_and_empty(const char *path, const struct kind *kind)
{
    uint32_t first = 0;
    unlink(path);
    EXPECT(CORWAPHI_OK, corwaphi_create(path, &kind->options));
    for (uint32_t round = 0; round < ROUNDS; round++) {
        EXPECT(CORWAPHI_OK, corwaphi_open(path, &kind->options, &store));
        shuffle(MOST);
        uint32_t count = fill(kind, round);
        first = first ? first : count;
        CHECK(count >= first - first / 4);
        check_rows(kind, round, count);
        shuffle(count);
        empty(kind, round, count);
        check_rows(kind, round, 0);
        printf("%u%s", count, round + 1 < ROUNDS ? ", " : "");
        EXPECT(CORWAPHI_OK, corwaphi_close(store));
    }
    printf(" values of %zu bytes with logs of %u sectors\n", kind->value_length, (unsigned)kind->options.log_sectors);
}

int main(int count, char **words)
{
    CHECK(count == 3);
    seed += strtoull(words[2], NULL, 10);
    for (uint32_t place = 0; place < MOST; place++)
        order[place] = place;
    for (size_t kind = 0; kind < sizeof kinds / sizeof kinds[0]; kind++)
        fill_and_empty(words[1], &kinds[kind]);
    puts("stores were filled and emptied three times: each delete was taken, each fill found room, and the rows were right");
    return 0;
}
