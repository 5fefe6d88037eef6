/* A first use: a batch, a guard, rows as of one moment. `cc example.c -lcorwaphi -lpthread`, or see the Makefile. */
#include <corwaphi.h>
#include <stdio.h>
#include <stdlib.h>

static void done(uint32_t code)
{
    if (code == CORWAPHI_OK)
        return;
    fprintf(stderr, "%s: %s\n", corwaphi_name(code), corwaphi_remedy(code));
    exit(1);
}

int main(int count, char **words)
{
    corwaphi store;
    done(corwaphi_open_or_create(count > 1 ? words[1] : "first.img", NULL, &store));
    done(corwaphi_put(store, "pear", 4, "green", 5, NULL));

    /* All or nothing. */
    struct corwaphi_batch batch = CORWAPHI_BATCH;
    done(corwaphi_batch_put(&batch, "apple", 5, "red", 3));
    done(corwaphi_batch_put(&batch, "plum", 4, "blue", 4));
    done(corwaphi_batch_delete(&batch, "quince", 6));
    done(corwaphi_write(store, batch.text, batch.length, NULL));

    /* Compare and swap: the pear gets ripe only if it is green. */
    struct corwaphi_batch guards = CORWAPHI_BATCH;
    done(corwaphi_batch_put(&guards, "pear", 4, "green", 5));
    corwaphi_batch_clear(&batch);
    done(corwaphi_batch_put(&batch, "pear", 4, "ripe", 4));
    uint32_t code = corwaphi_write_if(store, guards.text, guards.length, batch.text, batch.length, NULL, NULL);
    if (code == CORWAPHI_GUARD_FAILED)
        puts("the pear isn't green");
    else
        done(code);
    corwaphi_batch_free(&guards);
    corwaphi_batch_free(&batch);

    /* It survives a power cut from here on. */
    done(corwaphi_sync(store));

    char value[CORWAPHI_MOST_VALUE];
    size_t length;
    done(corwaphi_get(store, CORWAPHI_NOW, "pear", 4, value, sizeof value, &length));
    printf("the pear is %.*s\n", (int)length, value);

    struct corwaphi_cursor *cursor;
    struct corwaphi_row row;
    done(corwaphi_cursor_begin(store, "a", 1, "q", 1, &cursor));
    while ((code = corwaphi_cursor_next(cursor, &row)) == CORWAPHI_OK)
        printf("%.*s = %.*s\n", (int)row.key_length, (const char *)row.key, (int)row.value_length, (const char *)row.value);
    corwaphi_cursor_end(cursor);
    if (code != CORWAPHI_NO_VALUE)
        done(code);
    done(corwaphi_close(store));
    return 0;
}
