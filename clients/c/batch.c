/* Batches as texts: the number of operations (u16), and for each put 1, the key's length (u8), the key, the value's length (u16) and the
 * value; for each delete 2, the key's length and the key. Numbers are big-endian. */
#include "corwaphi.h"

#include <stdlib.h>
#include <string.h>

/* Makes room for `length` more bytes of a text, and for the number before the first of them. `at` is where they begin. */
static uint32_t grown(struct corwaphi_batch *batch, size_t length, uint8_t **at)
{
    size_t begin = batch->length ? batch->length : 2;
    if (length > CORWAPHI_MOST_TEXT - begin)
        return CORWAPHI_BATCH_TOO_BIG;
    if (begin + length > batch->room) {
        size_t room = 2 * (begin + length) + 62;
        uint8_t *text = realloc(batch->text, room);
        if (!text)
            return CORWAPHI_NO_MEMORY;
        batch->text = text;
        batch->room = room;
    }
    if (!batch->length)
        memset(batch->text, 0, 2);
    batch->length = begin + length;
    /* A text of 61,440 bytes has no more than 20,479 operations. */
    unsigned count = ((unsigned)batch->text[0] << 8 | batch->text[1]) + 1;
    batch->text[0] = (uint8_t)(count >> 8);
    batch->text[1] = (uint8_t)count;
    *at = batch->text + begin;
    return CORWAPHI_OK;
}

static uint32_t key_checked(const void *key, size_t key_length)
{
    if (!key && key_length)
        return CORWAPHI_NULL;
    return key_length < 1 || key_length > CORWAPHI_MOST_KEY ? CORWAPHI_BAD_KEY : CORWAPHI_OK;
}

uint32_t corwaphi_batch_put(struct corwaphi_batch *batch, const void *key, size_t key_length, const void *value, size_t value_length)
{
    uint8_t *at = NULL;
    if (!batch || (!value && value_length))
        return CORWAPHI_NULL;
    uint32_t code = key_checked(key, key_length);
    if (code == CORWAPHI_OK && value_length > CORWAPHI_MOST_VALUE)
        code = CORWAPHI_BAD_VALUE;
    if (code == CORWAPHI_OK)
        code = grown(batch, 4 + key_length + value_length, &at);
    if (code != CORWAPHI_OK)
        return code;
    *at++ = 1;
    *at++ = (uint8_t)key_length;
    memcpy(at, key, key_length);
    at += key_length;
    *at++ = (uint8_t)(value_length >> 8);
    *at++ = (uint8_t)value_length;
    if (value_length)
        memcpy(at, value, value_length);
    return CORWAPHI_OK;
}

uint32_t corwaphi_batch_delete(struct corwaphi_batch *batch, const void *key, size_t key_length)
{
    uint8_t *at = NULL;
    if (!batch)
        return CORWAPHI_NULL;
    uint32_t code = key_checked(key, key_length);
    if (code == CORWAPHI_OK)
        code = grown(batch, 2 + key_length, &at);
    if (code != CORWAPHI_OK)
        return code;
    *at++ = 2;
    *at++ = (uint8_t)key_length;
    memcpy(at, key, key_length);
    return CORWAPHI_OK;
}

void corwaphi_batch_clear(struct corwaphi_batch *batch)
{
    if (batch)
        batch->length = 0;
}

void corwaphi_batch_free(struct corwaphi_batch *batch)
{
    if (!batch)
        return;
    free(batch->text);
    *batch = (struct corwaphi_batch)CORWAPHI_BATCH;
}
