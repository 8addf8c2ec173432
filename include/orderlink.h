/*
 * The order link: sending pass orders over a radio link and reading them back.
 * For C (C99 and later) and C++.
 *
 * Terms
 *   symbol        one byte below q
 *   message       T information blocks of k symbols, 1 <= T <= 4096
 *   transmission  T + m blocks of n symbols: what is sent for a message
 *   reception     T + m blocks of n symbols: what came in for a transmission
 *   unknown       of a reception, a symbol that was not received: in its place
 *                 stands the byte 255. The other symbols are known ones.
 *   window j      blocks j to j + m, for j from 0 to T - 1
 *   fits          a message fits a reception when in every window twice the
 *                 known symbols in which the reception differs from the
 *                 message's transmission plus the unknown symbols is at most d.
 *                 Where no symbol of a window is unknown, this is: at most t
 *                 symbols differ. Where none differs, it is: at most d are
 *                 unknown.
 *   frame         a transmission or a reception, where a call takes D of them,
 *                 all of one setting and one length, 2 <= D <= 8
 *   woven         D frames symbol by symbol: symbol i of frame f stands at
 *                 place i * D + f
 *
 *   Blocks lie one after the other, and so do frames that are not woven.
 *   Blocks, symbols, windows and frames are counted from 0.
 *
 *   setting   q   n  k  m   d   t
 *      1      5   4  1  2   8   4
 *      2      8   7  2  2  11   5
 *      3      8   7  3  1   6   3
 *      4     16  15  3  3  33  16
 *      5     16  15  5  2  17   8
 *
 * Areas
 *   Every area is a pointer to its first byte and a length in bytes. A call
 *   reads and writes only within these ends; where the length is 0 it does
 *   not follow the pointer, which may then be NULL. An area that a call fills
 *   may be longer than needed; what lies behind the bytes that it fills keeps
 *   its value. Areas passed as const are only read. No call keeps a pointer,
 *   allocates memory or has state of its own, so threads may call at the same
 *   time, each with areas of its own. A call takes less than 64 KiB of stack.
 *
 *   The areas of one call must not overlap: nothing is encoded, decoded, woven
 *   or unwoven in place. A call does not detect it: whatever it answers and
 *   leaves, number 0 too, then means nothing.
 *
 * Numbers
 *   A call asks the questions below in the order given with it. The first "no"
 *   is its number; with every "yes" the number is 0. The place is 0 but for
 *   number 4. Other numbers do not occur. The setting, j and D (frames) are 64
 *   bits wide and may have any value.
 *
 *    1  Is the setting 1, 2, 3, 4 or 5?
 *    2  Is the reception's length a multiple of n and at least (m + 1) * n?
 *    3  Is T at most 4096?
 *    4  Is every symbol below q or, but in encoding, unknown?
 *       Place: the first byte that is not, counted from 0.
 *    5  Does the message area have T * k bytes or more?
 *    6  Does the transmission area have (T + m) * n bytes or more?
 *    7  Does some message fit? There is never more than one.
 *    8  Is the message's length a multiple of k and at least k?
 *   12  Is j below T?
 *   13  Are the lengths of reception and transmission equal?
 *   14  Is D 2, 3, 4, 5, 6, 7 or 8?
 *   15  Is the incoming area's length a multiple of D?
 *
 *   With D frames the incoming area is `in` or, in decoding, `reception`. 2 and 3
 *   look at one frame: its length, which is that of the incoming area divided by
 *   D, and its T. 4 looks at the whole incoming area,
 *   and its place is counted there. 5 and 6 want the bytes of D frames; weaving
 *   and unweaving ask 6 of the out area.
 */
#ifndef ORDERLINK_H
#define ORDERLINK_H

#include <stddef.h>
#include <stdint.h>

#ifdef __cplusplus
extern "C" {
#endif

/* What a call answers. */
struct orderlink_answer {
    uint32_t number;  /* 0, or the question that got "no" */
    uint32_t altered; /* after decoding with number 0: in how many known symbols
                         of blocks 0 to T - 1 reception and transmission
                         differ, at most t * (T/(m + 1), rounded up); else 0.
                         The closing blocks, T to T + m - 1, do not count, so 0
                         does not say that nothing was altered. */
    uint64_t place;   /* with number 4: the place of the first wrong byte in the
                         message, the reception or the incoming area, in woven
                         frames up to 8 * 61485 - 1; else 0 */
    uint32_t unknown; /* after decoding with number 0: how many symbols of the
                         reception are unknown, in all T + m blocks, at most
                         d * ((T + m)/(m + 1), rounded up); else 0 */
};

/*
 * The differences and the unknown symbols in a window. C++ has to say "struct
 * orderlink_marks", since the function has the same name.
 */
struct orderlink_marks {
    struct orderlink_answer answer;
    uint64_t marks; /* bit i, of value (uint64_t)1 << i, is set when symbol i of
                       the window differs or is unknown; the bits from
                       (m + 1) * n on are 0; all are 0 if refused */
    uint32_t set;   /* how many marks are set; 0 if refused */
};

/* What the decoding of D woven frames answers. */
struct orderlink_woven {
    struct orderlink_answer answer;   /* of the questions before 7; its counts
                                         are 0 */
    struct orderlink_answer frame[8]; /* the frames' own answers in order, each
                                         as if the frame were decoded alone;
                                         zeros from frame D on, and all zeros
                                         if refused: see answer.number first */
};

/*
 * Encodes a message of T = message_len / k blocks.
 * Questions: 1, 8, 3, 4 (the message's symbols, of which none is unknown: 255
 * gets 4), 6.
 * The areas must not overlap; where they do, number 0 means nothing.
 *
 * number 0    the first (T + m) * n bytes of the transmission area hold the
 *             transmission, block after block
 * any other   the transmission area is unchanged
 */
struct orderlink_answer orderlink_encode(uint64_t setting,
                                         const uint8_t *message, size_t message_len,
                                         uint8_t *transmission, size_t transmission_len);

/*
 * Decodes a reception of T = reception_len / n - m information blocks.
 * Questions: 1, 2, 3, 4 (the reception's symbols), 5, 6, 7.
 * The areas must not overlap; where they do, number 0 means nothing.
 *
 * number 0    the first T * k bytes of the message area hold the message that
 *             fits, the first (T + m) * n of the transmission area its
 *             transmission, block after block
 * number 7    these bytes of both areas are 0
 * any other   both areas are unchanged
 */
struct orderlink_answer orderlink_decode(uint64_t setting,
                                         const uint8_t *reception, size_t reception_len,
                                         uint8_t *message, size_t message_len,
                                         uint8_t *transmission, size_t transmission_len);

/*
 * Marks the differences of a reception of T = reception_len / n - m information
 * blocks and a transmission in window j: the (m + 1) * n bytes from place j * n
 * on, in both. They are compared as they are, also those not below q; but a
 * symbol that is unknown, 255 in the reception, is marked whatever byte the
 * transmission has there, 255 too.
 * Questions: 1, 2 and 3 (of the reception), 12, 13.
 *
 * number 0    the marks of the window, and how many are set
 * any other   no mark is set
 */
struct orderlink_marks orderlink_marks(uint64_t setting,
                                       const uint8_t *reception, size_t reception_len,
                                       const uint8_t *transmission, size_t transmission_len,
                                       uint64_t j);

/*
 * Weaves D frames (`frames` is D), which lie one after the other: symbol i of
 * frame f goes to place i * D + f.
 * Questions: 1, 14, 15, 2 and 3 (of one frame), 4 (the whole incoming area), 6
 * (for as many bytes as come in, in_len).
 * The areas must not overlap; where they do, number 0 means nothing.
 *
 * number 0    the first in_len bytes of the out area hold the woven frames,
 *             unknown symbols as they came in
 * any other   the out area is unchanged
 */
struct orderlink_answer orderlink_weave(uint64_t setting, uint64_t frames,
                                        const uint8_t *in, size_t in_len,
                                        uint8_t *out, size_t out_len);

/*
 * Undoes the weaving of D frames (`frames` is D): the symbol at place i * D + f
 * goes to symbol i of frame f. Each of the two calls is the exact undoing of the other.
 * Questions: 1, 14, 15, 2 and 3 (of one frame), 4 (the whole incoming area, as
 * it lies woven), 6 (for as many bytes as come in, in_len).
 * The areas must not overlap; where they do, number 0 means nothing.
 *
 * number 0    the first in_len bytes of the out area hold the frames, one after
 *             the other, unknown symbols as they came in
 * any other   the out area is unchanged
 */
struct orderlink_answer orderlink_unweave(uint64_t setting, uint64_t frames,
                                          const uint8_t *in, size_t in_len,
                                          uint8_t *out, size_t out_len);

/*
 * Decodes D woven receptions (`frames` is D), each of T = reception_len / D / n
 * - m information blocks and as if it came alone.
 * Questions: 1, 14, 15, 2 and 3 (of one frame), 4 (the whole woven area, as it
 * lies), 5 (for D * T * k bytes), 6 (for D * (T + m) * n bytes). They give
 * `answer`. Then 7 of one frame after another gives each its own, `frame`.
 * The areas must not overlap; where they do, number 0 means nothing.
 *
 * Frame f has the T * k bytes of the message area from f * T * k on and the
 * (T + m) * n bytes of the transmission area from f * (T + m) * n on.
 *
 * answer.number 0   by frame[f].number:
 *        number 0   the bytes of frame f hold the message that fits and its
 *                   transmission, block after block
 *        number 7   the bytes of frame f are 0; other frames' bytes are their own
 * any other         both areas are unchanged, and frame[] is all zeros, which
 *                   says nothing
 *
 * So look at answer.number first, which is never 7, and then at frame[0] to
 * frame[D - 1], whose numbers are 0 or 7.
 *
 * If answer.number is 0 and the only damage to the woven transmissions is one
 * run of at most D * t neighbouring symbols, every message comes back: no frame
 * has more than t of these symbols. The same is true of one run of at most D * d
 * unknown symbols: no frame has more than d of them.
 */
struct orderlink_woven orderlink_decode_woven(uint64_t setting, uint64_t frames,
                                              const uint8_t *reception, size_t reception_len,
                                              uint8_t *message, size_t message_len,
                                              uint8_t *transmission, size_t transmission_len);

#ifdef __cplusplus
}
#endif

#endif
