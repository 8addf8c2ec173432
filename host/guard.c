/*
 * Lends areas that lie against pages which must not be touched, since sanitizers
 * do not see into the archive: every area of every call, in a first pass with its
 * last byte directly before such a page, in a second with its first byte directly
 * after one. Areas that a call may only read cannot be written while it runs.
 *
 *   cc -std=c11 -O2 -Wall -Wextra -Werror -Iinclude host/guard.c \
 *       target/staticlib/libhost.a
 *
 * It ends with status 0 if no call touched such a page, every answer was the
 * expected one, and the bytes that a call does not fill kept their values.
 */
#define _DEFAULT_SOURCE
#include "expect.h"
#include "orderlink.h"
#include "settings.h"

#include <setjmp.h>
#include <signal.h>
#include <string.h>
#include <sys/mman.h>
#include <unistd.h>

/* Where a page that must not be touched lies. */
enum side { BEHIND, BEFORE, SIDES };

/* How many bytes more than needed an area has where that is tried, and room for the longest. */
enum { MORE = 5, ROOM = 512 * 1024 };

/* An area between two pages that must not be touched, against one of them. */
struct area {
    uint8_t *bytes;
    size_t length;
    uint8_t *pages;
    size_t size;
};

/* What is lent at the moment, for the message about a fault. */
static char doing[100];

/* Set while a fault is expected. */
static sigjmp_buf expected;
static volatile sig_atomic_t expecting;

static void fault(int signal_number)
{
    static const char text[] = "guard.c: a call touched a page that it was not lent, or wrote an "
                               "area that is only read: ";
    (void)signal_number;
    if (expecting)
        siglongjmp(expected, 1);
    if (write(STDERR_FILENO, text, sizeof text - 1) < 0 ||
        write(STDERR_FILENO, doing, strlen(doing)) < 0 || write(STDERR_FILENO, "\n", 1) < 0)
        _exit(2);
    _exit(EXIT_FAILURE);
}

static size_t page(void)
{
    return (size_t)sysconf(_SC_PAGESIZE);
}

/* An area that holds these bytes, or, where there are none, untouched ones. Against the page before
   it, an area of length 0 is NULL; against the page behind it, it points to that page. */
static struct area lend(enum side side, const uint8_t *held, size_t length)
{
    size_t inner = (length + page() - 1) / page() * page(), size = inner + 2 * page();
    uint8_t *pages = mmap(NULL, size, PROT_NONE, MAP_PRIVATE | MAP_ANONYMOUS, -1, 0);
    EXPECT(pages != MAP_FAILED);
    uint8_t *first = pages + page();
    struct area area = { first, length, pages, size };
    if (length > 0) {
        EXPECT(mprotect(first, inner, PROT_READ | PROT_WRITE) == 0);
        memset(first, UNTOUCHED, inner);
    }
    if (side == BEHIND)
        area.bytes = first + inner - length;
    else if (length == 0)
        area.bytes = NULL;
    if (held != NULL && length > 0)
        memcpy(area.bytes, held, length);
    return area;
}

/* The same, and it cannot be written. */
static struct area lend_to_read(enum side side, const uint8_t *held, size_t length)
{
    struct area area = lend(side, held, length);
    if (length > 0)
        EXPECT(mprotect(area.pages + page(), area.size - 2 * page(), PROT_READ) == 0);
    return area;
}

/* Takes an area back: it must begin with these bytes, and all others in its pages be untouched. */
static void take_back(struct area area, const uint8_t *filled, size_t length)
{
    if (area.length > 0) {
        uint8_t *first = area.pages + page(), *behind = area.pages + area.size - page();
        EXPECT(length == 0 || memcmp(area.bytes, filled, length) == 0);
        EXPECT(all(first, (size_t)(area.bytes - first), UNTOUCHED));
        EXPECT(all(area.bytes + length, (size_t)(behind - area.bytes) - length, UNTOUCHED));
    }
    EXPECT(munmap(area.pages, area.size) == 0);
}

static void say(const char *call, uint64_t setting, size_t first, size_t second, size_t third,
                enum side side)
{
    snprintf(doing, sizeof doing, "%s, setting %u, areas of %zu, %zu and %zu bytes, page %s",
             call, (unsigned)setting, first, second, third, side == BEHIND ? "behind" : "before");
}

/* An encoding that must get this number and place, and fill so much of its area. */
static void encode(uint64_t setting, const uint8_t *order, size_t order_length, size_t room,
                   uint32_t number, uint64_t place, const uint8_t *sent, size_t filled)
{
    for (enum side side = BEHIND; side < SIDES; side++) {
        struct area message = lend_to_read(side, order, order_length);
        struct area transmission = lend(side, NULL, room);
        say("encode", setting, order_length, room, 0, side);
        EXPECT(answers(orderlink_encode(setting, message.bytes, order_length, transmission.bytes,
                                        room), number, place));
        take_back(message, order, order_length);
        take_back(transmission, sent, filled);
    }
}

/* Weaves or unweaves, and must get this number and place, and fill so much of the out area. */
static void weave(bool undo, uint64_t setting, uint64_t frames, const uint8_t *held, size_t length,
                  size_t room, uint32_t number, uint64_t place, const uint8_t *expected,
                  size_t filled)
{
    for (enum side side = BEHIND; side < SIDES; side++) {
        struct area in = lend_to_read(side, held, length);
        struct area out = lend(side, NULL, room);
        say(undo ? "unweave" : "weave", setting, length, room, 0, side);
        EXPECT(answers((undo ? orderlink_unweave : orderlink_weave)(
                           setting, frames, in.bytes, length, out.bytes, room),
                       number, place));
        take_back(in, held, length);
        take_back(out, expected, filled);
    }
}

/* What a decoding is given, and what it must answer and leave. Where there are frames, they are
   woven, and each must get its own answer. */
struct decoding {
    uint64_t setting, frames;
    const uint8_t *reception;
    size_t length, message_room, transmission_room;
    uint32_t number;
    uint64_t place;
    struct damage counted;
    struct orderlink_answer frame[MOST_FRAMES];
    const uint8_t *message, *transmission;
    size_t message_filled, transmission_filled;
};

/* Makes a decoding in lent areas; its answers must be the expected ones. */
static void decode_in(const struct decoding *c, struct area reception, struct area message,
                      struct area transmission)
{
    if (c->frames == 0) {
        struct orderlink_answer answer =
            orderlink_decode(c->setting, reception.bytes, reception.length, message.bytes,
                             message.length, transmission.bytes, transmission.length);
        EXPECT(c->number == 0 ? found(answer, c->counted) : answers(answer, c->number, c->place));
        return;
    }
    struct orderlink_woven woven =
        orderlink_decode_woven(c->setting, c->frames, reception.bytes, reception.length,
                               message.bytes, message.length, transmission.bytes,
                               transmission.length);
    EXPECT(answers(woven.answer, c->number, c->place));
    for (size_t f = 0; f < MOST_FRAMES; f++) {
        struct damage counted = { c->frame[f].altered, c->frame[f].unknown };
        EXPECT(c->frame[f].number == 0 ? found(woven.frame[f], counted)
                                       : answers(woven.frame[f], c->frame[f].number, 0));
    }
}

static void decode(struct decoding c)
{
    for (enum side side = BEHIND; side < SIDES; side++) {
        struct area reception = lend_to_read(side, c.reception, c.length);
        struct area message = lend(side, NULL, c.message_room);
        struct area transmission = lend(side, NULL, c.transmission_room);
        say(c.frames == 0 ? "decode" : "decode_woven", c.setting, c.length, c.message_room,
            c.transmission_room, side);
        decode_in(&c, reception, message, transmission);
        take_back(reception, c.reception, c.length);
        take_back(message, c.message, c.message_filled);
        take_back(transmission, c.transmission, c.transmission_filled);
    }
}

/* Marks that must get this number and so many set. */
static void mark(uint64_t setting, const uint8_t *received, size_t length, const uint8_t *sent,
                 size_t sent_length, uint64_t j, uint32_t number, uint32_t set)
{
    for (enum side side = BEHIND; side < SIDES; side++) {
        struct area reception = lend_to_read(side, received, length);
        struct area transmission = lend_to_read(side, sent, sent_length);
        say("marks", setting, length, sent_length, 0, side);
        struct orderlink_marks window = orderlink_marks(setting, reception.bytes, length,
                                                        transmission.bytes, sent_length, j);
        EXPECT(answers(window.answer, number, 0) && window.set == set);
        take_back(reception, received, length);
        take_back(transmission, sent, sent_length);
    }
}

/* Symbols below q that are the same in every run. */
static void fill(uint8_t *bytes, size_t length, uint32_t q)
{
    static uint64_t state = 1;
    for (size_t i = 0; i < length; i++) {
        state = state * UINT64_C(6364136223846793005) + UINT64_C(1442695040888963407);
        bytes[i] = (uint8_t)((state >> 33) % q);
    }
}

static uint8_t order[ROOM], sent[ROOM], damaged[ROOM], noise[ROOM], wrong[ROOM], woven[ROOM];
static const uint8_t zeros[ROOM];

/* Every refusal of a decoding of so many frames; 0 where it is not a woven one. */
static void refused_decodings(const struct setting *setting, uint64_t frames, size_t blocks)
{
    size_t count = frames == 0 ? 1 : (size_t)frames;
    size_t order_length = count * message_length(setting, blocks);
    size_t length = count * transmission_length(setting, blocks);
    struct decoding refused = {
        .setting = 0, .frames = frames, .reception = sent, .length = length,
        .message_room = order_length, .transmission_room = length, .number = 1,
    };
    decode(refused);
    refused.setting = setting->number;
    refused.number = 2;
    const size_t lengths[] = { 0, setting->m * setting->n, length / count - 1 };
    for (size_t i = 0; i < 3; i++) {
        refused.length = count * lengths[i];
        decode(refused);
    }
    refused.length = length;
    refused.reception = wrong;
    refused.number = 4;
    refused.place = length - 1;
    decode(refused);
    refused.reception = sent;
    refused.place = 0;
    refused.number = 5;
    refused.message_room = 0;
    decode(refused);
    refused.message_room = order_length - 1;
    decode(refused);
    refused.message_room = order_length;
    refused.number = 6;
    refused.transmission_room = 0;
    decode(refused);
    refused.transmission_room = length - 1;
    decode(refused);
}

/* Every call on an order of this many blocks: with success, with number 7, with every refusal. */
static void try_blocks(const struct setting *setting, size_t blocks)
{
    uint64_t number = setting->number;
    size_t order_length = message_length(setting, blocks);
    size_t length = transmission_length(setting, blocks);
    fill(order, order_length, setting->q);
    EXPECT(orderlink_encode(number, order, order_length, sent, length).number == 0);
    fill(noise, length, setting->q);
    memcpy(wrong, sent, length);
    wrong[0] = UNKNOWN;
    wrong[length - 1] = (uint8_t)setting->q;

    for (size_t more = 0; more <= MORE; more += MORE)
        encode(number, order, order_length, length + more, 0, 0, sent, length);
    encode(0, order, order_length, length, 1, 0, NULL, 0);
    encode(number, order, 0, length, 8, 0, NULL, 0);
    encode(number, wrong + length - order_length, order_length, length, 4, order_length - 1, NULL,
           0);
    encode(number, wrong, order_length, length, 4, 0, NULL, 0);
    encode(number, order, order_length, length - 1, 6, 0, NULL, 0);
    encode(number, order, order_length, 0, 6, 0, NULL, 0);

    struct decoding call = {
        .setting = number, .reception = sent, .length = length,
        .message_room = order_length, .transmission_room = length,
        .message = order, .message_filled = order_length,
        .transmission = sent, .transmission_filled = length,
    };
    decode(call);
    call.reception = damaged;
    for (int way = 0; way < WAYS; way++) {
        struct damage each = most_damage(setting, way);
        call.counted = damage_windows(setting, each, sent, damaged, length);
        for (size_t more = 0; more <= MORE; more += MORE) {
            call.message_room = order_length + more;
            call.transmission_room = length + more;
            decode(call);
        }
        mark(number, damaged, length, sent, length, 0, 0, each.altered + each.unknown);
        mark(number, damaged, length, sent, length, blocks - 1, 0, each.altered + each.unknown);
    }
    call.reception = noise;
    call.number = 7;
    call.message = call.transmission = zeros;
    decode(call);
    call.message_room = order_length;
    call.transmission_room = length;
    decode(call);

    refused_decodings(setting, 0, blocks);

    mark(0, damaged, length, sent, length, 0, 1, 0);
    mark(number, damaged, 0, sent, length, 0, 2, 0);
    mark(number, damaged, length, sent, length, blocks, 12, 0);
    mark(number, damaged, length, sent, length, UINT64_MAX, 12, 0);
    mark(number, damaged, length, sent, length - 1, 0, 13, 0);
    mark(number, damaged, length, sent, 0, 0, 13, 0);
}

/* The calls on so many woven frames of this many blocks each: with success, with number 7 for the
   last frame alone, with every refusal. */
static void try_woven(const struct setting *setting, uint64_t frames, size_t blocks)
{
    uint64_t number = setting->number;
    size_t count = (size_t)frames, order_length = message_length(setting, blocks);
    size_t length = transmission_length(setting, blocks), whole = count * length;
    fill(order, count * order_length, setting->q);
    for (size_t f = 0; f < count; f++)
        EXPECT(orderlink_encode(number, order + f * order_length, order_length, sent + f * length,
                                length).number == 0);
    interleave(sent, count, length, woven);
    memcpy(wrong, woven, whole);
    wrong[0] = UNKNOWN;
    wrong[whole - 1] = (uint8_t)setting->q;

    for (int undo = 0; undo <= 1; undo++) {
        const uint8_t *in = undo ? woven : sent, *out = undo ? sent : woven;
        for (size_t more = 0; more <= MORE; more += MORE)
            weave(undo, number, frames, in, whole, whole + more, 0, 0, out, whole);
        weave(undo, 0, frames, in, whole, whole, 1, 0, NULL, 0);
        weave(undo, number, 0, in, whole, whole, 14, 0, NULL, 0);
        weave(undo, number, 1, in, whole, whole, 14, 0, NULL, 0);
        weave(undo, number, UINT64_MAX, in, whole, whole, 14, 0, NULL, 0);
        weave(undo, number, frames, in, whole - 1, whole, 15, 0, NULL, 0);
        weave(undo, number, frames, in, 0, whole, 2, 0, NULL, 0);
        weave(undo, number, frames, in, count, whole, 2, 0, NULL, 0);
        weave(undo, number, frames, wrong, whole, whole, 4, whole - 1, NULL, 0);
        weave(undo, number, frames, in, whole, whole - 1, 6, 0, NULL, 0);
        weave(undo, number, frames, in, whole, 0, 6, 0, NULL, 0);
    }

    struct decoding refused = {
        .setting = number, .frames = MOST_FRAMES + 1, .reception = woven, .length = whole,
        .message_room = count * order_length, .transmission_room = whole, .number = 14,
    };
    decode(refused);
    refused.frames = UINT64_MAX;
    decode(refused);
    refused.frames = frames;
    refused.length = whole - 1;
    refused.number = 15;
    decode(refused);
    refused_decodings(setting, frames, blocks);

    struct decoding call = {
        .setting = number, .frames = frames, .reception = woven, .length = whole,
        .message_room = count * order_length, .transmission_room = whole,
        .message = order, .message_filled = count * order_length,
        .transmission = sent, .transmission_filled = whole,
    };
    decode(call);
    call.reception = damaged;
    for (int dropped = 0; dropped <= 1; dropped++) {
        struct damage counted[MOST_FRAMES];
        memcpy(damaged, woven, whole);
        strike(setting, damaged, count, length, whole / 4,
               count * (dropped ? setting->d : setting->t), dropped, counted);
        for (size_t f = 0; f < count; f++)
            call.frame[f] = (struct orderlink_answer){ .altered = counted[f].altered,
                                                       .unknown = counted[f].unknown };
        for (size_t more = 0; more <= MORE; more += MORE) {
            call.message_room = count * order_length + more;
            call.transmission_room = whole + more;
            decode(call);
        }
    }
    fill(noise, length, setting->q);
    for (size_t i = 0; i < length; i++)
        damaged[i * count + count - 1] = noise[i];
    memset(order + (count - 1) * order_length, 0, order_length);
    memset(sent + (count - 1) * length, 0, length);
    call.frame[count - 1] = (struct orderlink_answer){ .number = 7 };
    decode(call);
}

/* Orders of one block too many get 3 from every call. */
static void try_too_long(const struct setting *setting)
{
    size_t order_length = message_length(setting, MOST_BLOCKS + 1);
    size_t length = transmission_length(setting, MOST_BLOCKS + 1);
    encode(setting->number, zeros, order_length, length, 3, 0, NULL, 0);
    decode((struct decoding){ .setting = setting->number, .reception = zeros, .length = length,
                              .message_room = order_length, .transmission_room = length,
                              .number = 3 });
    mark(setting->number, zeros, length, zeros, length, 0, 3, 0);
    for (size_t frames = 2; frames <= MOST_FRAMES; frames += MOST_FRAMES - 2) {
        size_t whole = frames * length, room = frames * order_length;
        weave(false, setting->number, frames, zeros, whole, whole, 3, 0, NULL, 0);
        weave(true, setting->number, frames, zeros, whole, whole, 3, 0, NULL, 0);
        decode((struct decoding){ .setting = setting->number, .frames = frames,
                                  .reception = zeros, .length = whole, .message_room = room,
                                  .transmission_room = whole, .number = 3 });
    }
}

/* Reads or writes a byte that must not be. */
static void expect_fault(volatile uint8_t *byte, bool written)
{
    expecting = 1;
    if (sigsetjmp(expected, 1) == 0) {
        if (written)
            *byte = UNTOUCHED;
        else
            (void)*byte;
        EXPECT(!"a fault");
    }
    expecting = 0;
}

/* That the pages do guard: a byte behind, a byte before, and one written that is only read. */
static void try_pages(void)
{
    struct area area = lend(BEHIND, NULL, 12);
    expect_fault(area.bytes + area.length, false);
    take_back(area, NULL, 0);
    area = lend(BEFORE, NULL, 12);
    expect_fault(area.bytes - 1, false);
    take_back(area, NULL, 0);
    area = lend_to_read(BEHIND, NULL, 12);
    expect_fault(area.bytes, true);
    take_back(area, NULL, 0);
}

int main(void)
{
    static const size_t blocks[] = { 1, 2, 8, 64, MOST_BLOCKS };
    struct sigaction action = { .sa_handler = fault };
    EXPECT(sigaction(SIGSEGV, &action, NULL) == 0 && sigaction(SIGBUS, &action, NULL) == 0);
    try_pages();
    for (size_t i = 0; i < SETTING_COUNT; i++) {
        EXPECT(MOST_FRAMES * transmission_length(&settings[i], MOST_BLOCKS + 1) <= ROOM);
        for (size_t b = 0; b < sizeof blocks / sizeof blocks[0]; b++) {
            try_blocks(&settings[i], blocks[b]);
            for (uint64_t frames = 2; frames <= MOST_FRAMES; frames += 3)
                try_woven(&settings[i], frames, blocks[b]);
        }
        try_too_long(&settings[i]);
    }
    printf("areas against pages that must not be touched: none touched\n");
    return EXIT_SUCCESS;
}
