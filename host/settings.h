/* The table of settings, woven frames, and damage up to a setting's limit, for the programs in this
   folder. Damage alters symbols to others and drops them, which leaves them unknown. */
#ifndef SETTINGS_H
#define SETTINGS_H

#include <stdbool.h>
#include <stddef.h>
#include <stdint.h>
#include <string.h>

enum { MOST_BLOCKS = 4096, MOST_FRAMES = 8 };

/* What stands in a reception for an unknown symbol. */
enum { UNKNOWN = 255 };

/* A row of the table; the letters are those of orderlink.h. */
struct setting {
    uint64_t number;
    uint32_t q;
    size_t n;
    size_t k;
    size_t m;
    uint32_t d;
    uint32_t t;
};

static const struct setting settings[] = {
    /* number, q, n, k, m, d, t */
    { 1, 5, 4, 1, 2, 8, 4 },
    { 2, 8, 7, 2, 2, 11, 5 },
    { 3, 8, 7, 3, 1, 6, 3 },
    { 4, 16, 15, 3, 3, 33, 16 },
    { 5, 16, 15, 5, 2, 17, 8 },
};

enum { SETTING_COUNT = sizeof settings / sizeof settings[0] };

static inline size_t message_length(const struct setting *setting, size_t blocks)
{
    return blocks * setting->k;
}

static inline size_t transmission_length(const struct setting *setting, size_t blocks)
{
    return (blocks + setting->m) * setting->n;
}

/* How many symbols of a window are damaged. */
struct damage {
    uint32_t altered, unknown;
};

/* The ways to damage a window as far as may be: altered symbols alone, unknown ones alone, both. */
enum { WAYS = 3 };

static inline struct damage most_damage(const struct setting *setting, int way)
{
    uint32_t both = setting->d / 4;
    const struct damage most[WAYS] = { { setting->t, 0 },
                                       { 0, setting->d },
                                       { both, setting->d - 2 * both } };
    return most[way];
}

/* Copies a transmission with exactly such damage in every window, altered symbols from its start
   on, so that as many count as can; returns what decoding counts of it: the altered symbols before
   the closing blocks, and all unknown ones. */
static inline struct damage damage_windows(const struct setting *setting, struct damage each,
                                           const uint8_t *sent, uint8_t *reception, size_t length)
{
    size_t window = (setting->m + 1) * setting->n, closing = length - setting->m * setting->n;
    struct damage counted = { 0, 0 };
    for (size_t i = 0; i < length; i++) {
        size_t place = i % window;
        bool dropped = place >= window - each.unknown;
        bool hit = place < each.altered;
        reception[i] = dropped ? UNKNOWN : (uint8_t)((sent[i] + hit) % setting->q);
        counted.altered += i < closing ? hit : 0;
        counted.unknown += dropped;
    }
    return counted;
}

/* Weaves frames of a length: symbol i of frame f goes to i * frames + f. */
static inline void interleave(const uint8_t *sent, size_t frames, size_t length, uint8_t *woven)
{
    for (size_t f = 0; f < frames; f++)
        for (size_t i = 0; i < length; i++)
            woven[i * frames + f] = sent[f * length + i];
}

/* Alters or drops a run of woven symbols; says of each frame what decoding counts of it. */
static inline void strike(const struct setting *setting, uint8_t *woven, size_t frames,
                          size_t length, size_t start, size_t run, bool dropped,
                          struct damage counted[MOST_FRAMES])
{
    size_t closing = length - setting->m * setting->n;
    memset(counted, 0, MOST_FRAMES * sizeof counted[0]);
    for (size_t i = start; i < start + run; i++) {
        woven[i] = dropped ? UNKNOWN : (uint8_t)((woven[i] + 1) % setting->q);
        counted[i % frames].altered += !dropped && i / frames < closing;
        counted[i % frames].unknown += dropped;
    }
}

#endif
