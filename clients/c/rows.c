/* Rows of a page, and cursors over all rows as of one moment. */
#include "corwaphi.h"

#include <stdlib.h>
#include <string.h>

bool corwaphi_page_row(struct corwaphi_page *page, struct corwaphi_row *row)
{
    /* The length of the key and that of the value, each a u16 in little endian, the key, and the value. */
    if (!page || !row || !page->rows || page->length - page->at < 4)
        return false;
    const uint8_t *at = page->bytes + page->at;
    size_t key_length = (size_t)at[0] | (size_t)at[1] << 8, value_length = (size_t)at[2] | (size_t)at[3] << 8;
    if (page->length - page->at - 4 < key_length + value_length)
        return false;
    *row = (struct corwaphi_row){at + 4, key_length, at + 4 + key_length, value_length};
    page->at += 4 + key_length + value_length;
    page->rows--;
    return true;
}

struct corwaphi_cursor {
    corwaphi store;
    uint64_t snapshot;
    struct corwaphi_page page;
    bool is_begun;
    bool has_to;
    size_t from_length, to_length;
    uint8_t from[CORWAPHI_MOST_KEY], to[CORWAPHI_MOST_KEY];
    uint8_t bytes[CORWAPHI_PAGE_BYTES];
};

uint32_t corwaphi_cursor_begin(corwaphi store, const void *from, size_t from_length, const void *to, size_t to_length,
                               struct corwaphi_cursor **cursor)
{
    if ((!from && from_length) || !cursor)
        return CORWAPHI_NULL;
    *cursor = NULL;
    to_length = to ? to_length : 0;
    if (from_length > CORWAPHI_MOST_KEY || to_length > CORWAPHI_MOST_KEY)
        return CORWAPHI_BAD_KEY;
    struct corwaphi_cursor *it = malloc(sizeof *it);
    if (!it)
        return CORWAPHI_NO_MEMORY;
    it->store = store;
    it->page = (struct corwaphi_page){.has_next = true};
    it->is_begun = false;
    it->has_to = to != NULL;
    it->from_length = from_length;
    it->to_length = to_length;
    if (from_length)
        memcpy(it->from, from, from_length);
    if (to_length)
        memcpy(it->to, to, to_length);
    uint32_t code = corwaphi_snapshot(store, &it->snapshot);
    if (code == CORWAPHI_OK)
        *cursor = it;
    else
        free(it);
    return code;
}

uint32_t corwaphi_cursor_next(struct corwaphi_cursor *cursor, struct corwaphi_row *row)
{
    if (!cursor)
        return CORWAPHI_NO_CURSOR;
    if (!row)
        return CORWAPHI_NULL;
    if (corwaphi_page_row(&cursor->page, row))
        return CORWAPHI_OK;
    if (!cursor->page.has_next)
        return CORWAPHI_NO_VALUE;
    if (cursor->is_begun) {
        cursor->from_length = cursor->page.next.key_length;
        memmove(cursor->from, cursor->page.next.key, cursor->from_length);
    }
    struct corwaphi_page page;
    uint32_t code = corwaphi_rows(cursor->store, cursor->snapshot, cursor->from, cursor->from_length, cursor->has_to ? cursor->to : NULL,
                                  cursor->to_length, CORWAPHI_MOST_ROWS, cursor->bytes, sizeof cursor->bytes, &page);
    if (code != CORWAPHI_OK)
        return code;
    cursor->page = page;
    cursor->is_begun = true;
    return corwaphi_page_row(&cursor->page, row) ? CORWAPHI_OK : CORWAPHI_NO_VALUE;
}

void corwaphi_cursor_end(struct corwaphi_cursor *cursor)
{
    if (!cursor)
        return;
    corwaphi_release(cursor->store, cursor->snapshot);
    free(cursor);
}
