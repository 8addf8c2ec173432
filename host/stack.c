/*
 * How much stack a call takes: makes each call on the longest order, or the most
 * woven ones, of every setting, on a stack of its own, and looks how much of that
 * was touched.
 *
 *   cc -std=c11 -O2 -Wall -Wextra -Werror -Iinclude host/stack.c \
 *       target/staticlib/libhost.a -lpthread
 *
 * It ends with status 0 if every order came back and every call touched less than
 * 64 KiB.
 */
#define _POSIX_C_SOURCE 200809L
#include "expect.h"
#include "orderlink.h"
#include "settings.h"

#include <pthread.h>
#include <stdbool.h>
#include <stdio.h>
#include <stdlib.h>
#include <string.h>

enum {
    STACK = 256 * 1024,
    LIMIT = 64 * 1024,
    ROOM = 512 * 1024,
};

/* The stack grows from the end of this area towards its first byte. */
static _Alignas(4096) unsigned char stack[STACK];

/* The orders of a setting, one after the other, with what is sent for them, alone and woven, and
   what is received: the first order damaged in every window, in one way, and the woven ones by a
   run, of unknown symbols where the way has any. */
static const struct setting *setting;
static size_t order_length, length, orders_length, whole;
static uint8_t order[ROOM], sent[ROOM], woven[ROOM], reception[ROOM], struck[ROOM];
static struct damage each, counted, counted_of[MOST_FRAMES];

/* What a call fills. */
static uint8_t message[ROOM], filled[ROOM];

static bool encode(void)
{
    return orderlink_encode(setting->number, order, order_length, filled, length).number == 0 &&
           memcmp(filled, sent, length) == 0;
}

static bool decode(void)
{
    struct orderlink_answer decoded = orderlink_decode(setting->number, reception, length, message,
                                                       order_length, filled, length);
    return found(decoded, counted) && memcmp(message, order, order_length) == 0 &&
           memcmp(filled, sent, length) == 0;
}

static bool mark(void)
{
    struct orderlink_marks marked = orderlink_marks(setting->number, reception, length, sent,
                                                    length, MOST_BLOCKS - 1);
    return marked.answer.number == 0 && marked.set == each.altered + each.unknown;
}

static bool weave(void)
{
    return orderlink_weave(setting->number, MOST_FRAMES, sent, whole, filled, whole).number == 0 &&
           memcmp(filled, woven, whole) == 0;
}

static bool unweave(void)
{
    return orderlink_unweave(setting->number, MOST_FRAMES, woven, whole, filled,
                             whole).number == 0 &&
           memcmp(filled, sent, whole) == 0;
}

static bool decode_woven(void)
{
    struct orderlink_woven decoded =
        orderlink_decode_woven(setting->number, MOST_FRAMES, struck, whole, message, orders_length,
                               filled, whole);
    bool right = decoded.answer.number == 0;
    for (size_t f = 0; f < MOST_FRAMES; f++)
        right = right && found(decoded.frame[f], counted_of[f]);
    return right && memcmp(message, order, orders_length) == 0 && memcmp(filled, sent, whole) == 0;
}

static const struct call {
    const char *name;
    bool (*make)(void);
} calls[] = {
    { "encode", encode }, { "decode", decode },   { "marks", mark },
    { "weave", weave },   { "unweave", unweave }, { "decode_woven", decode_woven },
};

/* Makes and sends the longest orders of a setting, and damages them in one way; false if there is
   no room. */
static bool prepare(int way)
{
    order_length = message_length(setting, MOST_BLOCKS);
    length = transmission_length(setting, MOST_BLOCKS);
    orders_length = MOST_FRAMES * order_length;
    whole = MOST_FRAMES * length;
    if (whole > ROOM)
        return false;
    for (size_t i = 0; i < orders_length; i++)
        order[i] = (uint8_t)(i * 5 % setting->q);
    for (size_t f = 0; f < MOST_FRAMES; f++)
        orderlink_encode(setting->number, order + f * order_length, order_length,
                         sent + f * length, length);
    interleave(sent, MOST_FRAMES, length, woven);
    each = most_damage(setting, way);
    counted = damage_windows(setting, each, sent, reception, length);
    memcpy(struck, woven, whole);
    strike(setting, struck, MOST_FRAMES, length, whole / 2,
           MOST_FRAMES * (each.unknown > 0 ? setting->d : setting->t), each.unknown > 0,
           counted_of);
    return true;
}

/* What the thread does: one call, which must give back what was sent. */
struct trial {
    const struct call *call;
    bool right;
};

static void *make_call(void *given)
{
    struct trial *trial = given;
    trial->right = trial->call->make();
    return NULL;
}

/* How much of its stack a thread touches that makes a call. */
static size_t touched(const struct call *call)
{
    struct trial trial = { call, false };
    pthread_attr_t attributes;
    pthread_t thread;
    memset(stack, UNTOUCHED, STACK);
    if (pthread_attr_init(&attributes) != 0 ||
        pthread_attr_setstack(&attributes, stack, STACK) != 0 ||
        pthread_create(&thread, &attributes, make_call, &trial) != 0 ||
        pthread_join(thread, NULL) != 0) {
        fprintf(stderr, "stack.c: no thread on a stack of its own\n");
        exit(EXIT_FAILURE);
    }
    if (!trial.right) {
        fprintf(stderr, "stack.c: %s: an order did not come back\n", call->name);
        exit(EXIT_FAILURE);
    }
    size_t untouched = 0;
    while (untouched < STACK && stack[untouched] == UNTOUCHED)
        untouched++;
    return STACK - untouched;
}

int main(void)
{
    enum { CALLS = sizeof calls / sizeof calls[0] };
    size_t most[CALLS] = { 0 };
    bool within = true;
    for (setting = settings; setting < settings + SETTING_COUNT; setting++)
        for (int way = 0; way < WAYS; way++) {
            if (!prepare(way)) {
                fprintf(stderr, "stack.c: no room for the longest orders\n");
                return EXIT_FAILURE;
            }
            for (size_t i = 0; i < CALLS; i++) {
                size_t bytes = touched(&calls[i]);
                most[i] = bytes > most[i] ? bytes : most[i];
            }
        }
    for (size_t i = 0; i < CALLS; i++) {
        printf("stack of %s: %zu bytes touched, the thread's own included\n", calls[i].name,
               most[i]);
        within = within && most[i] < LIMIT;
    }
    return within ? EXIT_SUCCESS : EXIT_FAILURE;
}
