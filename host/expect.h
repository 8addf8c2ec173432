/* What the programs in this folder expect of a call. */
#ifndef EXPECT_H
#define EXPECT_H

#include "orderlink.h"
#include "settings.h"

#include <stdbool.h>
#include <stdio.h>
#include <stdlib.h>

/* The value of a lent area's bytes before a call. */
enum { UNTOUCHED = 0xee };

#define EXPECT(condition) expect((condition), #condition, __FILE__, __LINE__)

static inline void expect(bool met, const char *condition, const char *file, int line)
{
    if (!met) {
        fprintf(stderr, "%s:%d: expected %s\n", file, line, condition);
        exit(EXIT_FAILURE);
    }
}

/* Whether all of some bytes have one value. */
static inline bool all(const uint8_t *bytes, size_t length, uint8_t value)
{
    for (size_t i = 0; i < length; i++)
        if (bytes[i] != value)
            return false;
    return true;
}

/* Whether an answer has this number and place, and counts nothing. */
static inline bool answers(struct orderlink_answer answer, uint32_t number, uint64_t place)
{
    return answer.number == number && answer.place == place && answer.altered == 0 &&
           answer.unknown == 0;
}

/* Whether an answer is that of a decoding which found the message and counts this. */
static inline bool found(struct orderlink_answer answer, struct damage counted)
{
    return answer.number == 0 && answer.place == 0 && answer.altered == counted.altered &&
           answer.unknown == counted.unknown;
}

/* Whether a decoding of woven frames was refused with this number and place; no frame then has an
   answer. */
static inline bool refuses(struct orderlink_woven woven, uint32_t number, uint64_t place)
{
    for (size_t f = 0; f < sizeof woven.frame / sizeof woven.frame[0]; f++)
        if (!answers(woven.frame[f], 0, 0))
            return false;
    return number != 0 && answers(woven.answer, number, place);
}

#endif
