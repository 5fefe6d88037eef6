/* What tests share: random numbers, checks, and a map in an array, which is the model of a store. */
#ifndef MODEL_H
#define MODEL_H

#include <corwaphi.h>

#include <stdint.h>
#include <stdio.h>
#include <stdlib.h>
#include <string.h>

#define KEYS 300
#define LONGEST 700

#define CHECK(fact)                                                            \
    do {                                                                       \
        if (!(fact)) {                                                         \
            fprintf(stderr, "%s:%d: false: %s\n", __FILE__, __LINE__, #fact);  \
            exit(1);                                                           \
        }                                                                      \
    } while (0)

#define EXPECT(wanted, call)                                                                                       \
    do {                                                                                                           \
        uint32_t got_ = (call);                                                                                    \
        if (got_ != (wanted)) {                                                                                    \
            fprintf(stderr, "%s:%d: %s (%u) in place of %s: %s\n", __FILE__, __LINE__, corwaphi_name(got_), got_, \
                    corwaphi_name(wanted), #call);                                                                 \
            exit(1);                                                                                               \
        }                                                                                                          \
    } while (0)

static uint64_t seed = 88172645463325252u;

static inline uint32_t below(uint32_t bound)
{
    seed ^= seed << 13;
    seed ^= seed >> 7;
    seed ^= seed << 17;
    return (uint32_t)(seed >> 11) % bound;
}

/* The keys in order: those at even places are short, the others have up to 255 bytes. */
static inline size_t key_of(uint32_t place, uint8_t key[CORWAPHI_MOST_KEY])
{
    size_t length = (size_t)snprintf((char *)key, 16, "k%04u", place);
    if (place % 2) {
        size_t more = place % 251;
        memset(key + length, 'x', more);
        length += more;
    }
    return length;
}

/* A value is known by its number: 0 for none. */
static inline size_t value_of(uint32_t number, uint8_t *value)
{
    size_t length = number * 7919u % LONGEST;
    for (size_t at = 0; at < length; at++)
        value[at] = (uint8_t)(number >> (8 * (at % 4)) ^ at);
    return length;
}

struct map {
    uint32_t numbers[KEYS];
};

#endif
