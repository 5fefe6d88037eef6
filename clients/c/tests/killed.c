/* A queue with two threads in a process that is killed at random, again and again: `killed PATH KILLS SEED`. What a thread reported after
 * its sync has to be there in the next process, each task once. */
#include "model.h"

#include <pthread.h>
#include <signal.h>
#include <stdatomic.h>
#include <sys/wait.h>
#include <unistd.h>

static const struct corwaphi_options options = {32, 16384, 256};
static corwaphi store;
static int told_to;
static uint64_t waiting;    /* how many tasks waited when this process began */
static atomic_ullong taken; /* how many tasks were taken in this process */

static size_t name_of(const char *kind, uint64_t task, char name[32]) { return (size_t)snprintf(name, 32, "%s/%010llu", kind, (unsigned long long)task); }

static uint64_t number_at(const char *key)
{
    char value[32] = "";
    size_t length = 0;
    uint32_t code = corwaphi_get(store, CORWAPHI_NOW, key, strlen(key), value, 31, &length);
    if (code == CORWAPHI_NO_VALUE)
        return 0;
    EXPECT(CORWAPHI_OK, code);
    value[length] = 0;
    return strtoull(value, NULL, 10);
}

static void tell(char kind, uint64_t task)
{
    char line[32];
    int length = snprintf(line, sizeof line, "%c%llu\n", kind, (unsigned long long)task);
    CHECK(write(told_to, line, (size_t)length) == length);
}

static uint64_t count_waiting(void)
{
    struct corwaphi_cursor *cursor;
    struct corwaphi_row row;
    uint64_t rows = 0;
    EXPECT(CORWAPHI_OK, corwaphi_cursor_begin(store, "task/", 5, "task0", 5, &cursor));
    while (corwaphi_cursor_next(cursor, &row) == CORWAPHI_OK)
        rows++;
    corwaphi_cursor_end(cursor);
    return rows;
}

/* Adds tasks: the last number and the task in one batch. */
static void *add(void *unused)
{
    struct corwaphi_batch batch = CORWAPHI_BATCH;
    char number[32], name[32], text[400];
    memset(text, 't', sizeof text);
    uint64_t begun = number_at("last");
    for (uint64_t task = begun + 1;; task++) {
        uint64_t written;
        /* The store has room for 200 tasks that wait, earlier processes' too, and for what a process adds. */
        while (waiting + (task - begun) > 200 + atomic_load(&taken) || task - begun > 2000)
            usleep(200);
        corwaphi_batch_clear(&batch);
        size_t length = (size_t)snprintf(number, sizeof number, "%llu", (unsigned long long)task);
        EXPECT(CORWAPHI_OK, corwaphi_batch_put(&batch, "last", 4, number, length));
        EXPECT(CORWAPHI_OK, corwaphi_batch_put(&batch, name, name_of("task", task, name), text, sizeof text));
        EXPECT(CORWAPHI_OK, corwaphi_write(store, batch.text, batch.length, &written));
        if (task % 4)
            continue;
        EXPECT(CORWAPHI_OK, corwaphi_sync_to(store, written));
        tell('a', task);
    }
    return unused;
}

/* Moves tasks from one key to another one, under the guard that they are still there. */
static void *take(void *unused)
{
    struct corwaphi_batch batch = CORWAPHI_BATCH, guards = CORWAPHI_BATCH;
    static uint8_t buffer[CORWAPHI_PAGE_BYTES];
    for (;;) {
        struct corwaphi_page page;
        struct corwaphi_row row;
        char name[32];
        EXPECT(CORWAPHI_OK, corwaphi_rows(store, CORWAPHI_NOW, "task/", 5, "task0", 5, 8, buffer, sizeof buffer, &page));
        while (corwaphi_page_row(&page, &row)) {
            uint64_t written, task = strtoull((const char *)row.key + 5, NULL, 10);
            corwaphi_batch_clear(&guards);
            corwaphi_batch_clear(&batch);
            EXPECT(CORWAPHI_OK, corwaphi_batch_put(&guards, row.key, row.key_length, row.value, row.value_length));
            EXPECT(CORWAPHI_OK, corwaphi_batch_delete(&batch, row.key, row.key_length));
            EXPECT(CORWAPHI_OK, corwaphi_batch_put(&batch, name, name_of("done", task, name), row.value, row.value_length));
            EXPECT(CORWAPHI_OK, corwaphi_write_if(store, guards.text, guards.length, batch.text, batch.length, &written, NULL));
            EXPECT(CORWAPHI_OK, corwaphi_sync_to(store, written));
            atomic_fetch_add(&taken, 1);
            tell('d', task);
        }
    }
    return unused;
}

static void child(const char *path)
{
    pthread_t adder, taker;
    EXPECT(CORWAPHI_OK, corwaphi_open(path, &options, &store));
    waiting = count_waiting();
    CHECK(!pthread_create(&adder, NULL, add, NULL) && !pthread_create(&taker, NULL, take, NULL));
    pthread_join(adder, NULL);
    pthread_join(taker, NULL);
}

/* What was reported before the kill: the last task that was added, and the last that was done, since both go in order. */
static void heard(FILE *from, uint64_t *added, uint64_t *done)
{
    char line[64];
    while (fgets(line, sizeof line, from)) {
        if (!strchr(line, '\n'))
            break;
        *(line[0] == 'a' ? added : done) = strtoull(line + 1, NULL, 10);
    }
}

/* From the first task that is not forgotten on, each is at one key, and those that are done come first. */
static void check(uint64_t first, uint64_t added, uint64_t done)
{
    struct corwaphi_cursor *cursor;
    struct corwaphi_row row;
    uint64_t last = number_at("last"), next = first;
    CHECK(last >= added);
    for (int kind = 0; kind < 2; kind++) {
        const char *from = kind ? "task/" : "done/", *to = kind ? "task0" : "done0";
        EXPECT(CORWAPHI_OK, corwaphi_cursor_begin(store, from, 5, to, 5, &cursor));
        while (corwaphi_cursor_next(cursor, &row) == CORWAPHI_OK) {
            CHECK(strtoull((const char *)row.key + 5, NULL, 10) == next);
            CHECK(row.value_length == 400 && row.value[0] == 't' && row.value[399] == 't');
            next++;
        }
        corwaphi_cursor_end(cursor);
        if (!kind)
            CHECK(next > done);
    }
    CHECK(next == last + 1);
}

/* Forgets what is done, so that a run may be of any length. */
static uint64_t forget(uint64_t first)
{
    char name[32];
    uint8_t value[CORWAPHI_MOST_VALUE];
    size_t length;
    while (corwaphi_get(store, CORWAPHI_NOW, name, name_of("done", first, name), value, sizeof value, &length) == CORWAPHI_OK)
        EXPECT(CORWAPHI_OK, corwaphi_delete(store, name, name_of("done", first++, name), NULL));
    EXPECT(CORWAPHI_OK, corwaphi_sync(store));
    return first;
}

int main(int count, char **words)
{
    CHECK(count == 4);
    uint64_t first = 1, added = 0, done = 0;
    seed += strtoull(words[3], NULL, 10);
    unlink(words[1]);
    EXPECT(CORWAPHI_OK, corwaphi_create(words[1], &options));
    for (long kills = atol(words[2]); kills > 0; kills--) {
        int ends[2];
        CHECK(!pipe(ends));
        pid_t writer = fork();
        CHECK(writer >= 0);
        if (!writer) {
            close(ends[0]);
            told_to = ends[1];
            child(words[1]);
            _exit(1);
        }
        close(ends[1]);
        usleep(1000 + below(60000));
        int status;
        CHECK(!kill(writer, SIGKILL) && waitpid(writer, &status, 0) == writer);
        CHECK(WIFSIGNALED(status) && WTERMSIG(status) == SIGKILL);
        FILE *from = fdopen(ends[0], "r");
        heard(from, &added, &done);
        fclose(from);
        EXPECT(CORWAPHI_OK, corwaphi_open(words[1], &options, &store));
        check(first, added, done);
        first = forget(first);
        EXPECT(CORWAPHI_OK, corwaphi_close(store));
    }
    printf("%s kills, %llu tasks told as added, %llu as done: each is there once\n", words[2], (unsigned long long)added,
           (unsigned long long)done);
    return 0;
}
