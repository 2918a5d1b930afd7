/* Slices to lend to a call: noise between guards of noise, and whether a call left of it what it must. */
#ifndef SLICES_H
#define SLICES_H

#include <stdbool.h>
#include <stdint.h>
#include <stdio.h>
#include <stdlib.h>
#include <string.h>

/* Bytes of noise on either side of a slice, and how far the noise moves from one call to the next. */
enum { GUARD = 256, MOVES = 64 };

/* At most this many bytes in a slice, and noise for the longest with its guards. */
#define MOST_SLICE ((size_t)2 << 20)
static uint8_t noise[MOST_SLICE + 2 * GUARD + 4 * MOVES + 4];

struct slice {
    uint8_t *all;        /* guard, slice, guard */
    uint8_t *at;         /* the slice itself */
    const uint8_t *was;  /* the noise that `all` was filled with */
    size_t bytes;
};

static inline void make_noise(void) {
    uint64_t state = 1;
    for (size_t i = 0; i < sizeof noise; i++) {
        state = state * 6364136223846793005u + 1442695040888963407u;
        noise[i] = (uint8_t)(state >> 56);
    }
}

static inline struct slice new_slice(void) {
    uint8_t *all = malloc(MOST_SLICE + 2 * GUARD + 4);
    if (all == NULL) {
        fputs("no memory for a slice\n", stderr);
        exit(2);
    }
    return (struct slice){all, all + GUARD, noise, 0};
}

/* Fills the slice anew; `off` moves it away from a word's boundary by 0 to 3 bytes. */
static inline void lend(struct slice *s, size_t bytes, size_t off) {
    static size_t calls;
    if (bytes > MOST_SLICE) {
        fputs("a slice beyond the most that is lent\n", stderr);
        exit(2);
    }
    s->was = noise + 4 * (calls++ % MOVES);
    s->at = s->all + GUARD + off;
    s->bytes = bytes;
    memcpy(s->all, s->was, 2 * GUARD + bytes + off);
}

/* Whether all is as it was but for the slice's first `written` bytes. */
static inline bool kept(const struct slice *s, size_t written) {
    size_t before = (size_t)(s->at - s->all), past = before + written;
    return memcmp(s->all, s->was, before) == 0 &&
           memcmp(s->all + past, s->was + past, s->bytes - written + GUARD) == 0;
}

/* malloc's alignment and a guard of whole words let an unmoved slice be used as words. */
static inline uint32_t *words_of(const struct slice *s) { return (uint32_t *)(void *)s->at; }

#endif
