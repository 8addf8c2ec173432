/*
 * A receiver's use of the order link: it sends orders, alone and woven, alters and
 * drops symbols on the way, reads them back, marks the differences, and gets every
 * refusal.
 *
 *   cc -std=c11 -O2 -Wall -Wextra -Werror -Iinclude host/receiver.c \
 *       target/staticlib/libhost.a
 *   the same with -g -fsanitize=address,undefined
 *
 * It ends with status 0 if every answer was the expected one.
 */
#include "expect.h"
#include "orderlink.h"
#include "settings.h"

#include <stdbool.h>
#include <stdio.h>
#include <stdlib.h>
#include <string.h>

/* Bytes of guard on either side of an area, and their value. */
enum { GUARD = 16, GUARD_BYTE = 0xa5 };

/* How many elements an array has. */
#define COUNT(array) (sizeof(array) / sizeof(array)[0])

/* An area with guard bytes before and after it. */
struct area {
    uint8_t *bytes;
    size_t length;
};

/* An area to lend, all of its bytes untouched. */
static struct area lend(size_t length)
{
    uint8_t *start = malloc(length + 2 * GUARD);
    EXPECT(start != NULL);
    memset(start, GUARD_BYTE, length + 2 * GUARD);
    memset(start + GUARD, UNTOUCHED, length);
    return (struct area){ start + GUARD, length };
}

/* Takes an area back; its guards must be as they were. */
static void take_back(struct area area)
{
    EXPECT(all(area.bytes - GUARD, GUARD, GUARD_BYTE));
    EXPECT(all(area.bytes + area.length, GUARD, GUARD_BYTE));
    free(area.bytes - GUARD);
}

/* Writes a text's hexadecimal digits as symbols, `-` as an unknown one, without its spaces; returns
   how many. */
static size_t symbols(const char *digits, uint8_t *symbol)
{
    size_t count = 0;
    for (; *digits != '\0'; digits++)
        if (*digits == '-')
            symbol[count++] = UNKNOWN;
        else if (*digits != ' ')
            symbol[count++] = (uint8_t)(*digits <= '9' ? *digits - '0' : *digits - 'a' + 10);
    return count;
}

/* Prints symbols in blocks. */
static void print(const char *name, const uint8_t *symbol, size_t count, size_t block)
{
    printf("%-12s", name);
    for (size_t i = 0; i < count; i++)
        printf("%s%c", i % block == 0 ? " " : "",
               symbol[i] == UNKNOWN ? '-' : "0123456789abcdef"[symbol[i]]);
    printf("\n");
}

/* An order, what is sent for it, and symbols of one of its windows by their place there: with the
   first t of them altered it comes back, with the next one too no message fits. */
struct order {
    uint64_t setting;
    const char *message, *sent;
    uint64_t j;
    size_t places[17];
};

static const struct order orders[] = {
    /* Document 000, section 4. */
    { 1, "12214334", "2431 1130 0032 0230 4100 1004 0023 0320 4024 3421",
      1, { 0, 3, 5, 10, 11 } },
    /* All places are in closing blocks: none counts. */
    { 2, "10", "3132210 3411430 3665350", 0, { 7, 9, 12, 13, 20, 14 } },
    { 4, "f0e1d2",
      "891b3b1f58d1a8e 4385deee76b8b77 4ba47e9434bcd3b 471ebe45d9ba3d3 c36b85952260f1b",
      1, { 0, 1, 7, 13, 20, 31, 32, 33, 40, 44, 45, 50, 52, 57, 58, 59, 38 } },
    { 5, "c3b4a59687",
      "ce68f154eb4f43a 9a74abf38b6ffc4 996494fadb7bfef 5d7cceadb05bb11",
      1, { 0, 14, 15, 29, 31, 32, 43, 44, 30 } },
};

/* The longest message and transmission of these. */
enum { ORDER_SYMBOLS = 10, SENT_SYMBOLS = 75 };

/* Alters a symbol to another one. */
static void alter(const struct setting *setting, uint8_t *symbol, size_t by)
{
    *symbol = (uint8_t)((*symbol + 1 + by % (setting->q - 1)) % setting->q);
}

/* Sends an order, receives it with t altered symbols in a window, and marks these; with one altered
   symbol more the places that a decoding fills are zeros. */
static void send_and_receive(const struct order *given)
{
    const struct setting *setting = &settings[given->setting - 1];
    uint8_t order[ORDER_SYMBOLS], expected[SENT_SYMBOLS], reception[SENT_SYMBOLS];
    size_t order_length = symbols(given->message, order), length = symbols(given->sent, expected);
    struct area transmission = lend(length);
    EXPECT(answers(orderlink_encode(given->setting, order, order_length,
                                    transmission.bytes, length), 0, 0));
    EXPECT(memcmp(transmission.bytes, expected, length) == 0);
    printf("setting %u\n", (unsigned)given->setting);
    print("sent", transmission.bytes, length, setting->n);

    uint64_t differences = 0;
    struct damage counted = { 0, 0 };
    uint8_t *damaged = reception + given->j * setting->n;
    const uint8_t *closing = reception + length - setting->m * setting->n;
    memcpy(reception, transmission.bytes, length);
    for (size_t i = 0; i < setting->t; i++) {
        alter(setting, &damaged[given->places[i]], i);
        differences |= UINT64_C(1) << given->places[i];
        counted.altered += damaged + given->places[i] < closing;
    }
    print("received", reception, length, setting->n);

    struct area message = lend(order_length + 3);
    struct area repaired = lend(length + 3);
    EXPECT(found(orderlink_decode(given->setting, reception, length, message.bytes,
                                  message.length, repaired.bytes, repaired.length), counted));
    EXPECT(memcmp(message.bytes, order, order_length) == 0);
    EXPECT(memcmp(repaired.bytes, expected, length) == 0);
    EXPECT(all(message.bytes + order_length, 3, UNTOUCHED));
    EXPECT(all(repaired.bytes + length, 3, UNTOUCHED));
    print("message", message.bytes, order_length, setting->k);
    printf("altered      %u, of which %u count\n", (unsigned)setting->t,
           (unsigned)counted.altered);

    struct orderlink_marks window =
        orderlink_marks(given->setting, reception, length, repaired.bytes, length, given->j);
    EXPECT(answers(window.answer, 0, 0));
    EXPECT(window.marks == differences && window.set == setting->t);
    printf("window %-5u marks %llx, %u set\n", (unsigned)given->j, (unsigned long long)window.marks,
           (unsigned)window.set);

    alter(setting, &damaged[given->places[setting->t]], 0);
    EXPECT(answers(orderlink_decode(given->setting, reception, length, message.bytes,
                                    message.length, repaired.bytes, repaired.length), 7, 0));
    EXPECT(all(message.bytes, order_length, 0));
    EXPECT(all(message.bytes + order_length, 3, UNTOUCHED));
    EXPECT(all(repaired.bytes, length, 0));
    EXPECT(all(repaired.bytes + length, 3, UNTOUCHED));
    printf("one altered symbol more: number 7, zeros\n");
    take_back(transmission);
    take_back(message);
    take_back(repaired);
}

/* An order in setting 1 with one window, and what is received of it: with the altered and the
   unknown symbols that count, the message that fits; or none does. */
static const struct dropped {
    const char *sent, *reception;
    uint8_t message;
    uint32_t number, altered, unknown;
} dropped[] = {
    /* Document 02, request 106: eight unknown symbols, and nine. */
    { "2431 2323 2134", "2431 ---- ----", 1, 0, 0, 8 },
    { "2431 2323 2134", "---1 -3-3 ----", 0, 7, 0, 0 },
    { "0000 0000 0000", "---- ---- -000", 0, 7, 0, 0 },
    /* An altered symbol weighs as much as two unknown ones. */
    { "2431 2323 2134", "1431 ---- --34", 1, 0, 1, 6 },
    { "2431 2323 2134", "1431 ---- ---4", 0, 7, 0, 0 },
    { "2431 2323 2134", "1-31 232- 1133", 1, 0, 1, 2 },
    { "0000 0000 0000", "1--- 1000 0100", 0, 7, 0, 0 },
};

/* Receives an order of which symbols were dropped, and marks the unknown and the altered ones; that
   the other area holds the mark of an unknown symbol too does not hide it. */
static void receive_dropped(const struct dropped *given)
{
    uint8_t sent[12], reception[12];
    uint64_t differences = 0;
    uint32_t set = 0;
    size_t length = symbols(given->sent, sent);
    EXPECT(symbols(given->reception, reception) == length);
    for (size_t i = 0; i < length; i++)
        if (reception[i] != sent[i]) {
            differences |= UINT64_C(1) << i;
            set++;
        }
    struct area message = lend(1), repaired = lend(length);
    struct orderlink_answer answer =
        orderlink_decode(1, reception, length, message.bytes, 1, repaired.bytes, length);
    print("received", reception, length, 4);
    if (given->number == 0) {
        struct damage counted = { given->altered, given->unknown };
        EXPECT(found(answer, counted));
        EXPECT(message.bytes[0] == given->message);
        EXPECT(memcmp(repaired.bytes, sent, length) == 0);
        printf("message      %x, altered %u, unknown %u\n", (unsigned)message.bytes[0],
               (unsigned)answer.altered, (unsigned)answer.unknown);
    } else {
        EXPECT(answers(answer, given->number, 0));
        EXPECT(all(message.bytes, 1, 0));
        EXPECT(all(repaired.bytes, length, 0));
        printf("too much: number 7, zeros\n");
    }
    struct orderlink_marks window = orderlink_marks(1, reception, length, sent, length, 0);
    EXPECT(answers(window.answer, 0, 0));
    EXPECT(window.marks == differences && window.set == set);
    for (size_t i = 0; i < length; i++)
        if (reception[i] == UNKNOWN)
            sent[i] = UNKNOWN;
    window = orderlink_marks(1, reception, length, sent, length, 0);
    EXPECT(window.marks == differences && window.set == set);
    take_back(message);
    take_back(repaired);
}

/* Frames to weave, of orders of so many blocks, and where a run of damage begins. In these settings
   d is 2t + 1: where t + 1 symbols of a window are altered, no message fits. */
static const struct weaving {
    uint64_t setting;
    size_t frames, blocks, start;
} weavings[] = {
    { 2, 3, 3, 0 },
    { 4, 8, 3, 301 },
    { 5, 2, 3, 55 },
    /* As many symbols as may be woven, and a run of 8 * 33 + 1 to the last of them. */
    { 4, MOST_FRAMES, MOST_BLOCKS, 8 * (MOST_BLOCKS + 3) * 15 - (8 * 33 + 1) },
};

/* How many bytes more than needed their areas have. */
enum { MORE = 3 };

/* Weaves frames of a length and unweaves them again. */
static void weave_and_back(const struct weaving *given, const uint8_t *apart, size_t length)
{
    size_t whole = given->frames * length;
    struct area expected = lend(whole), woven = lend(whole + MORE), unwoven = lend(whole + MORE);
    interleave(apart, given->frames, length, expected.bytes);
    EXPECT(answers(orderlink_weave(given->setting, given->frames, apart, whole, woven.bytes,
                                   woven.length), 0, 0));
    EXPECT(memcmp(woven.bytes, expected.bytes, whole) == 0);
    EXPECT(all(woven.bytes + whole, MORE, UNTOUCHED));
    EXPECT(answers(orderlink_unweave(given->setting, given->frames, woven.bytes, whole,
                                     unwoven.bytes, unwoven.length), 0, 0));
    EXPECT(memcmp(unwoven.bytes, apart, whole) == 0);
    EXPECT(all(unwoven.bytes + whole, MORE, UNTOUCHED));
    take_back(expected);
    take_back(woven);
    take_back(unwoven);
}

/* Receives woven orders after a run of altered or of unknown symbols, as long as may be: all come
   back. With one symbol more one order is lost, and only its own places are zeros. */
static void strike_and_receive(const struct weaving *given, bool dropped, const uint8_t *orders,
                               size_t order_length, const uint8_t *apart, size_t length)
{
    const struct setting *setting = &settings[given->setting - 1];
    size_t frames = given->frames, run = frames * (dropped ? setting->d : setting->t);
    size_t orders_length = frames * order_length, whole = frames * length;
    size_t lost = (given->start + run) % frames;
    struct area woven = lend(whole), order = lend(orders_length), sent = lend(whole);
    struct area message = lend(orders_length + MORE), repaired = lend(whole + MORE);
    memcpy(order.bytes, orders, orders_length);
    memcpy(sent.bytes, apart, whole);
    for (size_t more = 0; more <= 1; more++) {
        struct damage counted[MOST_FRAMES];
        interleave(apart, frames, length, woven.bytes);
        strike(setting, woven.bytes, frames, length, given->start, run + more, dropped, counted);
        if (more == 1) {
            memset(order.bytes + lost * order_length, 0, order_length);
            memset(sent.bytes + lost * length, 0, length);
        }
        struct orderlink_woven decoded =
            orderlink_decode_woven(given->setting, frames, woven.bytes, whole, message.bytes,
                                   message.length, repaired.bytes, repaired.length);
        EXPECT(answers(decoded.answer, 0, 0));
        for (size_t f = 0; f < MOST_FRAMES; f++)
            EXPECT(more == 1 && f == lost ? answers(decoded.frame[f], 7, 0)
                                          : found(decoded.frame[f], counted[f]));
        EXPECT(memcmp(message.bytes, order.bytes, orders_length) == 0);
        EXPECT(memcmp(repaired.bytes, sent.bytes, whole) == 0);
        EXPECT(all(message.bytes + orders_length, MORE, UNTOUCHED));
        EXPECT(all(repaired.bytes + whole, MORE, UNTOUCHED));
    }
    printf("setting %u, %zu orders of %zu blocks woven: all back from a run of %zu %s symbols\n",
           (unsigned)given->setting, frames, given->blocks, run, dropped ? "unknown" : "altered");
    printf("one symbol more: number 7 and zeros for order %zu, the others back\n", lost);
    take_back(woven);
    take_back(order);
    take_back(sent);
    take_back(message);
    take_back(repaired);
}

/* Frames whose very last byte is no symbol: every call refuses them and gives its place. */
static void last_symbol_wrong(const struct weaving *given, const uint8_t *incoming, size_t length)
{
    uint64_t setting = given->setting, frames = given->frames, place = length - 1;
    EXPECT(answers(orderlink_weave(setting, frames, incoming, length, NULL, 0), 4, place));
    EXPECT(answers(orderlink_unweave(setting, frames, incoming, length, NULL, 0), 4, place));
    EXPECT(refuses(orderlink_decode_woven(setting, frames, incoming, length, NULL, 0, NULL, 0),
                   4, place));
    printf("a wrong symbol at place %u: number 4 and this place\n", (unsigned)place);
}

/* Sends orders woven, and receives them. Unknown symbols are woven like others. */
static void weave_and_receive(const struct weaving *given)
{
    const struct setting *setting = &settings[given->setting - 1];
    size_t order_length = message_length(setting, given->blocks);
    size_t length = transmission_length(setting, given->blocks);
    struct area orders = lend(given->frames * order_length), apart = lend(given->frames * length);
    for (size_t i = 0; i < orders.length; i++)
        orders.bytes[i] = (uint8_t)((i * i / 3 + 1) % setting->q);
    for (size_t f = 0; f < given->frames; f++)
        EXPECT(answers(orderlink_encode(given->setting, orders.bytes + f * order_length,
                                        order_length, apart.bytes + f * length, length), 0, 0));
    weave_and_back(given, apart.bytes, length);
    strike_and_receive(given, false, orders.bytes, order_length, apart.bytes, length);
    strike_and_receive(given, true, orders.bytes, order_length, apart.bytes, length);
    for (size_t i = 0; i < apart.length; i += 5)
        apart.bytes[i] = UNKNOWN;
    weave_and_back(given, apart.bytes, length);
    apart.bytes[apart.length - 1] = 254;
    last_symbol_wrong(given, apart.bytes, apart.length);
    take_back(orders);
    take_back(apart);
}

/* Every refusal of a decoding; both areas stay as they were. A row may break later rules too. */
static void refused_decodings(void)
{
    static const uint8_t clean[(MOST_BLOCKS + 1 + 2) * 4];
    const uint8_t wrong[12] = { [2] = UNKNOWN, [5] = 5, [9] = 254 };
    const uint8_t wrong_16[60] = { [5] = 15, [40] = UNKNOWN, [59] = 254 };
    const struct {
        uint64_t setting;
        const uint8_t *reception;
        size_t reception_length, message_length, transmission_length;
        uint32_t number;
        uint64_t place;
    } calls[] = {
        { 0, clean, 12, 1, 12, 1, 0 },
        { 257, clean, 12, 1, 12, 1, 0 },
        { 1, NULL, 0, 1, 12, 2, 0 },
        { 1, clean, 8, 1, 12, 2, 0 },
        { 1, clean, 13, 1, 12, 2, 0 },
        { 1, clean, sizeof clean, MOST_BLOCKS + 1, sizeof clean, 3, 0 },
        { 1, wrong, 12, 0, 0, 4, 5 },
        { 1, clean, 12, 0, 0, 5, 0 },
        { 1, clean, 12, 1, 11, 6, 0 },
        { 4, wrong_16, 60, 0, 0, 4, 59 },
        { 5, wrong_16, 45, 4, 45, 5, 0 },
    };
    for (size_t i = 0; i < COUNT(calls); i++) {
        struct area message = lend(calls[i].message_length);
        struct area transmission = lend(calls[i].transmission_length);
        EXPECT(answers(orderlink_decode(calls[i].setting, calls[i].reception,
                                        calls[i].reception_length, message.bytes, message.length,
                                        transmission.bytes, transmission.length),
                       calls[i].number, calls[i].place));
        EXPECT(all(message.bytes, message.length, UNTOUCHED));
        EXPECT(all(transmission.bytes, transmission.length, UNTOUCHED));
        take_back(message);
        take_back(transmission);
    }
    printf("refused decodings: areas unchanged\n");
}

/* Every refusal of an encoding; the area stays as it was. A row may break later rules too. */
static void refused_encodings(void)
{
    static const uint8_t clean[(MOST_BLOCKS + 1) * 2];
    const uint8_t wrong[4] = { 7, 0, 0, 8 }, wrong_16[6] = { 15, 0, 0, 8, 0, 16 };
    const uint8_t unknown[4] = { 7, UNKNOWN, 0, 0 };
    const struct {
        uint64_t setting;
        const uint8_t *message;
        size_t message_length, transmission_length;
        uint32_t number;
        uint64_t place;
    } calls[] = {
        { 6, clean, 2, 21, 1, 0 },
        { 2, NULL, 0, 21, 8, 0 },
        { 2, clean, 3, 21, 8, 0 },
        { 2, clean, sizeof clean, 21, 3, 0 },
        { 2, wrong, 4, 21, 4, 3 },
        { 2, unknown, 4, 28, 4, 1 },
        { 2, clean, 2, 20, 6, 0 },
        { 4, wrong_16, 6, 75, 4, 5 },
        { 5, wrong_16, 5, 44, 6, 0 },
    };
    for (size_t i = 0; i < COUNT(calls); i++) {
        struct area transmission = lend(calls[i].transmission_length);
        EXPECT(answers(orderlink_encode(calls[i].setting, calls[i].message,
                                        calls[i].message_length, transmission.bytes,
                                        transmission.length),
                       calls[i].number, calls[i].place));
        EXPECT(all(transmission.bytes, transmission.length, UNTOUCHED));
        take_back(transmission);
    }
    printf("refused encodings: area unchanged\n");
}

/* Every refusal of marks; none is set. A row may break later rules too. */
static void refused_marks(void)
{
    static const uint8_t reception[(MOST_BLOCKS + 1 + 1) * 7], transmission[15];
    const struct {
        uint64_t setting;
        size_t reception_length, transmission_length;
        uint64_t j;
        uint32_t number;
    } calls[] = {
        { 0, 14, 14, 0, 1 },
        { 3, 7, 7, 0, 2 },
        { 3, 15, 15, 0, 2 },
        { 3, sizeof reception, 14, 0, 3 },
        { 3, 14, 7, 1, 12 },
        { 3, 14, 14, UINT64_MAX, 12 },
        { 3, 14, 7, 0, 13 },
        { 3, 14, 15, 0, 13 },
        { 4, 45, 15, 0, 2 },
        { 5, 45, 15, 1, 12 },
        { 4, 60, 15, 0, 13 },
    };
    for (size_t i = 0; i < COUNT(calls); i++) {
        struct orderlink_marks window =
            orderlink_marks(calls[i].setting, reception, calls[i].reception_length, transmission,
                            calls[i].transmission_length, calls[i].j);
        EXPECT(answers(window.answer, calls[i].number, 0));
        EXPECT(window.marks == 0 && window.set == 0);
    }
    printf("refused marks: none set\n");
}

/* Every refusal of a weaving, an unweaving and a decoding of woven frames; all areas stay as they
   were. A row may break later rules too; one that gets 5 does, since weaving does not ask it and
   then says 6. */
static void refused_weavings(void)
{
    static const uint8_t clean[2 * (MOST_BLOCKS + 1 + 2) * 4];
    const uint8_t wrong[24] = { [2] = UNKNOWN, [5] = 5, [9] = 254 };
    const uint8_t wrong_16[120] = { [5] = 15, [80] = UNKNOWN, [119] = 254 };
    const struct {
        uint64_t setting, frames;
        const uint8_t *incoming;
        size_t length, message_length, out_length;
        uint32_t number;
        uint64_t place;
    } calls[] = {
        { 0, 0, wrong, 1, 0, 0, 1, 0 },
        { 257, 2, clean, 24, 2, 24, 1, 0 },
        { 1, 0, wrong, 23, 0, 0, 14, 0 },
        { 1, 1, clean, 24, 2, 24, 14, 0 },
        { 1, 9, wrong, 24, 0, 0, 14, 0 },
        { 1, (UINT64_C(1) << 32) + 2, clean, 24, 2, 24, 14, 0 },
        { 1, UINT64_MAX, NULL, 0, 2, 24, 14, 0 },
        { 1, 2, wrong, 1, 0, 0, 15, 0 },
        { 1, 8, wrong, 12, 0, 0, 15, 0 },
        { 1, 2, clean, 25, 2, 25, 15, 0 },
        { 1, 2, NULL, 0, 2, 24, 2, 0 },
        { 1, 2, wrong, 16, 0, 0, 2, 0 },
        { 1, 2, clean, 26, 2, 26, 2, 0 },
        { 1, 2, clean, sizeof clean, 0, 0, 3, 0 },
        { 1, 2, wrong, 24, 0, 0, 4, 5 },
        { 1, 2, clean, 24, 1, 23, 5, 0 },
        { 1, 2, clean, 24, 2, 23, 6, 0 },
        { 4, 2, wrong_16, 120, 0, 0, 4, 119 },
        { 5, 2, wrong_16, 90, 9, 89, 5, 0 },
    };
    for (size_t i = 0; i < COUNT(calls); i++) {
        uint64_t setting = calls[i].setting, frames = calls[i].frames, place = calls[i].place;
        uint32_t number = calls[i].number, of_weaving = number == 5 ? 6 : number;
        const uint8_t *incoming = calls[i].incoming;
        size_t length = calls[i].length;
        struct area message = lend(calls[i].message_length), out = lend(calls[i].out_length);
        EXPECT(answers(orderlink_weave(setting, frames, incoming, length, out.bytes, out.length),
                       of_weaving, place));
        EXPECT(answers(orderlink_unweave(setting, frames, incoming, length, out.bytes, out.length),
                       of_weaving, place));
        EXPECT(refuses(orderlink_decode_woven(setting, frames, incoming, length, message.bytes,
                                              message.length, out.bytes, out.length),
                       number, place));
        EXPECT(all(message.bytes, message.length, UNTOUCHED));
        EXPECT(all(out.bytes, out.length, UNTOUCHED));
        take_back(message);
        take_back(out);
    }
    printf("refused weavings and decodings of woven frames: areas unchanged\n");
}

/* Numbers that are no setting, up to the largest, get 1 from every call, and nothing is written. */
static void no_such_settings(void)
{
    /* Some are a setting in their lowest 8 or 32 bits. */
    const uint64_t no_settings[] = {
        0, 6, 257, UINT32_MAX, (UINT64_C(1) << 32) + 1, (UINT64_C(1) << 32) + 2,
        UINT64_C(1) << 63, UINT64_MAX,
    };
    const uint8_t order[1] = { 1 };
    uint8_t reception[12];
    size_t length = symbols("2431 2323 2134", reception);
    for (size_t i = 0; i < COUNT(no_settings); i++) {
        uint64_t number = no_settings[i];
        struct area message = lend(1), transmission = lend(length);
        EXPECT(answers(orderlink_encode(number, order, 1, transmission.bytes, length), 1, 0));
        EXPECT(answers(orderlink_decode(number, reception, length, message.bytes, 1,
                                        transmission.bytes, length), 1, 0));
        struct orderlink_marks window =
            orderlink_marks(number, reception, length, transmission.bytes, length, 0);
        EXPECT(answers(window.answer, 1, 0));
        EXPECT(window.marks == 0 && window.set == 0);
        EXPECT(answers(orderlink_weave(number, 2, reception, length, transmission.bytes, length),
                       1, 0));
        EXPECT(answers(orderlink_unweave(number, 2, reception, length, transmission.bytes, length),
                       1, 0));
        EXPECT(refuses(orderlink_decode_woven(number, 2, reception, length, message.bytes, 1,
                                              transmission.bytes, length), 1, 0));
        EXPECT(all(message.bytes, 1, UNTOUCHED));
        EXPECT(all(transmission.bytes, length, UNTOUCHED));
        take_back(message);
        take_back(transmission);
    }
    printf("numbers that are no setting, up to 2^64 - 1: number 1\n");
}

/* Areas of length 0 may be NULL. */
static void no_areas(void)
{
    static const uint8_t clean[28];
    EXPECT(answers(orderlink_encode(3, NULL, 0, NULL, 0), 8, 0));
    EXPECT(answers(orderlink_encode(3, clean, 3, NULL, 0), 6, 0));
    EXPECT(answers(orderlink_decode(3, NULL, 0, NULL, 0, NULL, 0), 2, 0));
    EXPECT(answers(orderlink_decode(3, clean, 14, NULL, 0, NULL, 0), 5, 0));
    EXPECT(answers(orderlink_marks(3, NULL, 0, NULL, 0, 0).answer, 2, 0));
    EXPECT(answers(orderlink_marks(3, clean, 14, NULL, 0, 0).answer, 13, 0));
    EXPECT(answers(orderlink_weave(3, 2, NULL, 0, NULL, 0), 2, 0));
    EXPECT(answers(orderlink_weave(3, 2, clean, 28, NULL, 0), 6, 0));
    EXPECT(answers(orderlink_unweave(3, 2, NULL, 0, NULL, 0), 2, 0));
    EXPECT(answers(orderlink_unweave(3, 2, clean, 28, NULL, 0), 6, 0));
    EXPECT(refuses(orderlink_decode_woven(3, 2, NULL, 0, NULL, 0, NULL, 0), 2, 0));
    EXPECT(refuses(orderlink_decode_woven(3, 2, clean, 28, NULL, 0, NULL, 0), 5, 0));
    printf("areas of length 0: not looked at\n");
}

/* The longest order comes back with every window damaged as far as may be; as many symbols count as
   can. */
static void longest_order(const struct setting *setting)
{
    size_t order_length = message_length(setting, MOST_BLOCKS);
    size_t length = transmission_length(setting, MOST_BLOCKS);
    uint32_t windows = (uint32_t)((MOST_BLOCKS + setting->m) / (setting->m + 1));
    struct area order = lend(order_length), message = lend(order_length);
    struct area sent = lend(length), reception = lend(length), repaired = lend(length);
    for (size_t i = 0; i < order_length; i++)
        order.bytes[i] = (uint8_t)(i * i / 7 % setting->q);
    EXPECT(answers(orderlink_encode(setting->number, order.bytes, order_length,
                                    sent.bytes, length), 0, 0));
    for (int way = 0; way < WAYS; way++) {
        struct damage each = most_damage(setting, way);
        struct damage counted = damage_windows(setting, each, sent.bytes, reception.bytes, length);
        EXPECT(counted.altered == each.altered * windows);
        EXPECT(counted.unknown >= each.unknown * windows);
        EXPECT(found(orderlink_decode(setting->number, reception.bytes, length, message.bytes,
                                      order_length, repaired.bytes, length), counted));
        EXPECT(memcmp(message.bytes, order.bytes, order_length) == 0);
        EXPECT(memcmp(repaired.bytes, sent.bytes, length) == 0);
        for (uint64_t j = 0; j < MOST_BLOCKS; j++)
            EXPECT(orderlink_marks(setting->number, reception.bytes, length, repaired.bytes,
                                   length, j).set == each.altered + each.unknown);
        printf("setting %u: %d blocks back, altered count %u, unknown %u\n",
               (unsigned)setting->number, MOST_BLOCKS, (unsigned)counted.altered,
               (unsigned)counted.unknown);
    }
    take_back(order);
    take_back(message);
    take_back(sent);
    take_back(reception);
    take_back(repaired);
}

int main(void)
{
    for (size_t i = 0; i < COUNT(orders); i++)
        send_and_receive(&orders[i]);
    for (size_t i = 0; i < COUNT(dropped); i++)
        receive_dropped(&dropped[i]);
    for (size_t i = 0; i < COUNT(weavings); i++)
        weave_and_receive(&weavings[i]);
    refused_decodings();
    refused_encodings();
    refused_marks();
    refused_weavings();
    no_such_settings();
    no_areas();
    for (size_t i = 0; i < SETTING_COUNT; i++)
        longest_order(&settings[i]);
    return EXIT_SUCCESS;
}
