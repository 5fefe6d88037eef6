/* What calls return for wrong arguments, for stores that are closed, in use or a parent's, and for threads: `calls PATH`. */
#include "model.h"

#include <errno.h>
#include <pthread.h>
#include <sys/file.h>
#include <fcntl.h>
#include <sys/wait.h>
#include <unistd.h>

static const struct corwaphi_options small = {16, 8192, 128};
static corwaphi store;

static void check_files(const char *path)
{
    corwaphi other;
    struct corwaphi_options wrong = {0, 8192, 128};
    EXPECT(CORWAPHI_FILE, corwaphi_open(path, NULL, &other));
    CHECK(errno == ENOENT && other.number == 0);
    EXPECT(CORWAPHI_FILE, corwaphi_open(".", NULL, &other));
    CHECK(errno == EISDIR);
    EXPECT(CORWAPHI_FILE, corwaphi_create("no such folder/x.img", &small));
    EXPECT(CORWAPHI_NULL, corwaphi_create(NULL, NULL));
    EXPECT(CORWAPHI_NULL, corwaphi_open(path, NULL, NULL));
    wrong.sectors = 100;
    EXPECT(CORWAPHI_BAD_GEOMETRY, corwaphi_create(path, &wrong));
    CHECK(access(path, F_OK));
    EXPECT(CORWAPHI_OK, corwaphi_create(path, &small));
    EXPECT(CORWAPHI_FILE, corwaphi_create(path, &small));
    CHECK(errno == EEXIST);
    EXPECT(CORWAPHI_BAD_LIMIT, corwaphi_open(path, &wrong, &other));
    EXPECT(CORWAPHI_OK, corwaphi_open(path, &small, &store));
    EXPECT(CORWAPHI_IN_USE, corwaphi_open(path, &small, &other));
    EXPECT(CORWAPHI_CLOSED, corwaphi_sync(other));
    /* Files of other lengths, and files that hold no store. */
    char name[1024];
    snprintf(name, sizeof name, "%s.other", path);
    int file = open(name, O_RDWR | O_CREAT | O_TRUNC, 0644);
    CHECK(file > 2);
    EXPECT(CORWAPHI_BAD_GEOMETRY, corwaphi_open(name, NULL, &other));
    CHECK(!ftruncate(file, 8192 * 512 + 1));
    EXPECT(CORWAPHI_BAD_GEOMETRY, corwaphi_open(name, NULL, &other));
    CHECK(!ftruncate(file, 8192 * 512));
    EXPECT(CORWAPHI_NOT_A_STORE, corwaphi_open(name, NULL, &other));
    CHECK(pwrite(file, "what", 4, 0) == 4);
    EXPECT(CORWAPHI_BAD_SUPER, corwaphi_open(name, NULL, &other));
    CHECK(!flock(file, LOCK_EX));
    EXPECT(CORWAPHI_IN_USE, corwaphi_open(name, NULL, &other));
    close(file);
    unlink(name);
}

static void check_arguments(void)
{
    uint8_t bytes[3000] = {'k'};
    size_t length;
    uint64_t number;
    struct corwaphi_page page;
    struct corwaphi_cursor *cursor;
    EXPECT(CORWAPHI_NULL, corwaphi_put(store, NULL, 3, "v", 1, NULL));
    EXPECT(CORWAPHI_NULL, corwaphi_put(store, "k", 1, NULL, 1, NULL));
    EXPECT(CORWAPHI_OK, corwaphi_put(store, "k", 1, NULL, 0, NULL));
    EXPECT(CORWAPHI_BAD_KEY, corwaphi_put(store, NULL, 0, "v", 1, NULL));
    EXPECT(CORWAPHI_BAD_KEY, corwaphi_put(store, bytes, 256, "v", 1, NULL));
    EXPECT(CORWAPHI_BAD_KEY, corwaphi_delete(store, bytes, 256, NULL));
    EXPECT(CORWAPHI_OK, corwaphi_put(store, bytes, 255, bytes, 2048, &number));
    EXPECT(CORWAPHI_BAD_VALUE, corwaphi_put(store, "k", 1, bytes, 2049, NULL));
    EXPECT(CORWAPHI_BAD_TEXT, corwaphi_write(store, NULL, 0, NULL));
    for (size_t short_by = 1; short_by < 8; short_by++)
        EXPECT(CORWAPHI_BAD_TEXT, corwaphi_write(store, (const uint8_t *)"\0\1\1\1k\0\1v", 8 - short_by, NULL));
    EXPECT(CORWAPHI_BAD_TEXT, corwaphi_write(store, (const uint8_t *)"\0\1\1\1k\0\1v", 9, NULL));
    EXPECT(CORWAPHI_BAD_TEXT, corwaphi_write(store, bytes, sizeof bytes, NULL));
    EXPECT(CORWAPHI_NULL, corwaphi_get(store, CORWAPHI_NOW, "k", 1, bytes, 1, NULL));
    EXPECT(CORWAPHI_NULL, corwaphi_get(store, CORWAPHI_NOW, "k", 1, NULL, 1, &length));
    EXPECT(CORWAPHI_OK, corwaphi_get(store, CORWAPHI_NOW, "k", 1, NULL, 0, &length));
    EXPECT(CORWAPHI_BAD_KEY, corwaphi_get(store, CORWAPHI_NOW, bytes, 256, bytes, 1, &length));
    EXPECT(CORWAPHI_NO_SUCH_SNAPSHOT, corwaphi_get(store, 5, "k", 1, bytes, 1, &length));
    EXPECT(CORWAPHI_BAD_LIMIT, corwaphi_rows(store, CORWAPHI_NOW, NULL, 0, NULL, 0, 0, bytes, sizeof bytes, &page));
    EXPECT(CORWAPHI_BAD_LIMIT, corwaphi_rows(store, CORWAPHI_NOW, NULL, 0, NULL, 0, 65, bytes, sizeof bytes, &page));
    EXPECT(CORWAPHI_BAD_RANGE, corwaphi_rows(store, CORWAPHI_NOW, "b", 1, "a", 1, 9, bytes, sizeof bytes, &page));
    EXPECT(CORWAPHI_SHORT_BUFFER, corwaphi_rows(store, CORWAPHI_NOW, NULL, 0, NULL, 0, 9, bytes, 100, &page));
    EXPECT(CORWAPHI_NULL, corwaphi_cursor_begin(store, NULL, 4, NULL, 0, &cursor));
    EXPECT(CORWAPHI_NO_CURSOR, corwaphi_cursor_next(NULL, NULL));
    corwaphi_cursor_end(NULL);
    for (uint32_t code = 0; code < 50; code++)
        CHECK(!!strcmp(corwaphi_name(code), "Unknown") == (code <= CORWAPHI_NO_CURSOR));
    struct corwaphi_batch batch = CORWAPHI_BATCH;
    uint32_t code, puts = 0;
    while ((code = corwaphi_batch_put(&batch, bytes, 200, bytes, 800)) == CORWAPHI_OK)
        puts++;
    EXPECT(CORWAPHI_BATCH_TOO_BIG, code);
    CHECK(puts == 61438 / 1004);
    EXPECT(CORWAPHI_OK, corwaphi_write(store, batch.text, batch.length, NULL));
    corwaphi_batch_clear(&batch);
    EXPECT(CORWAPHI_BAD_TEXT, corwaphi_write(store, batch.text, batch.length, NULL));
    corwaphi_batch_free(&batch);
}

/* A child doesn't have its parent's store, nor the file's lock, and may have stores of its own. */
static void check_fork(const char *path)
{
    corwaphi other;
    char name[1024];
    snprintf(name, sizeof name, "%s.child", path);
    unlink(name);
    pid_t child = fork();
    CHECK(child >= 0);
    if (!child) {
        EXPECT(CORWAPHI_FORKED, corwaphi_put(store, "k", 1, "child", 5, NULL));
        EXPECT(CORWAPHI_FORKED, corwaphi_close(store));
        EXPECT(CORWAPHI_IN_USE, corwaphi_open(path, &small, &other));
        EXPECT(CORWAPHI_OK, corwaphi_open_or_create(name, &small, &other));
        EXPECT(CORWAPHI_OK, corwaphi_put(other, "k", 1, "child", 5, NULL));
        EXPECT(CORWAPHI_FORKED, corwaphi_sync(store));
        EXPECT(CORWAPHI_OK, corwaphi_close(other));
        usleep(300000);
        _exit(0);
    }
    EXPECT(CORWAPHI_OK, corwaphi_put(store, "k", 1, "parent", 6, NULL));
    usleep(150000);
    corwaphi was = store;
    EXPECT(CORWAPHI_OK, corwaphi_close(store));
    EXPECT(CORWAPHI_OK, corwaphi_open(path, &small, &store));
    EXPECT(CORWAPHI_CLOSED, corwaphi_sync(was));
    CHECK(was.number != store.number);
    int status;
    CHECK(waitpid(child, &status, 0) == child && WIFEXITED(status) && !WEXITSTATUS(status));
    unlink(name);
}

static void *write_and_read(void *given)
{
    uint32_t thread = *(uint32_t *)given;
    char key[32], value[300] = "", got[CORWAPHI_MOST_VALUE];
    for (uint32_t place = 0; place < 400; place++) {
        size_t length, key_length = (size_t)snprintf(key, sizeof key, "t%u-%05u", thread, place);
        snprintf(value, sizeof value, "%u", place * 7);
        EXPECT(CORWAPHI_OK, corwaphi_put(store, key, key_length, value, sizeof value, NULL));
        EXPECT(CORWAPHI_OK, corwaphi_get(store, CORWAPHI_NOW, key, key_length, got, sizeof got, &length));
        CHECK(length == sizeof value && !memcmp(got, value, length));
        if (place % 100 == 50)
            EXPECT(CORWAPHI_OK, place % 200 == 50 ? corwaphi_compact(store) : corwaphi_sync(store));
    }
    return NULL;
}

static void check_threads(void)
{
    pthread_t threads[4];
    uint32_t names[4] = {0, 1, 2, 3};
    struct corwaphi_cursor *cursor;
    struct corwaphi_row row;
    uint32_t rows = 0;
    for (int thread = 0; thread < 4; thread++)
        CHECK(!pthread_create(&threads[thread], NULL, write_and_read, &names[thread]));
    for (int thread = 0; thread < 4; thread++)
        pthread_join(threads[thread], NULL);
    EXPECT(CORWAPHI_OK, corwaphi_cursor_begin(store, "t", 1, "u", 1, &cursor));
    while (corwaphi_cursor_next(cursor, &row) == CORWAPHI_OK)
        rows++;
    corwaphi_cursor_end(cursor);
    CHECK(rows == 1600);
}

/* Stores at the same time, as many as there may be; and numbers that are not given out again. */
static void check_many(const char *path)
{
    static corwaphi many[CORWAPHI_MOST_STORES];
    char name[1024];
    for (int place = 0; place < CORWAPHI_MOST_STORES; place++) {
        snprintf(name, sizeof name, "%s.%d", path, place % 2);
        uint32_t code = corwaphi_open_or_create(name, &small, &many[place]);
        EXPECT(place < 2 ? CORWAPHI_OK : CORWAPHI_IN_USE, code);
    }
    EXPECT(CORWAPHI_OK, corwaphi_close(many[0]));
    EXPECT(CORWAPHI_CLOSED, corwaphi_close(many[0]));
    EXPECT(CORWAPHI_OK, corwaphi_close(many[1]));
    for (int place = 0; place < 2; place++) {
        snprintf(name, sizeof name, "%s.%d", path, place);
        unlink(name);
    }
}

/* Puts until there is no room: what is there stays, and deletes are accepted. */
static void check_full(const char *path)
{
    uint8_t value[2048], got[2048];
    char key[32];
    size_t length;
    uint32_t count = 0, code;
    memset(value, 7, sizeof value);
    unlink(path);
    EXPECT(CORWAPHI_OK, corwaphi_open_or_create(path, &small, &store));
    while ((code = corwaphi_put(store, key, (size_t)snprintf(key, sizeof key, "full%06u", count), value, sizeof value, NULL)) == CORWAPHI_OK)
        count++;
    EXPECT(CORWAPHI_NO_SPACE, code);
    CHECK(count > 400);
    for (uint32_t place = 0; place < count; place++) {
        EXPECT(CORWAPHI_OK, corwaphi_get(store, CORWAPHI_NOW, key, (size_t)snprintf(key, sizeof key, "full%06u", place), got, sizeof got,
                                         &length));
        CHECK(length == sizeof value && !memcmp(value, got, length));
        EXPECT(CORWAPHI_OK, corwaphi_delete(store, key, strlen(key), NULL));
    }
    EXPECT(CORWAPHI_OK, corwaphi_compact(store));
    EXPECT(CORWAPHI_OK, corwaphi_close(store));
}

int main(int count, char **words)
{
    CHECK(count == 2);
    unlink(words[1]);
    check_files(words[1]);
    check_arguments();
    check_fork(words[1]);
    check_threads();
    check_many(words[1]);
    EXPECT(CORWAPHI_OK, corwaphi_close(store));
    check_full(words[1]);
    puts("arguments, files, forks, threads, and a store that is full: each code as it should be");
    return 0;
}
