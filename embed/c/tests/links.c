/* Two bare ends of a link send each other messages while every third frame is lost: over LPDUs, over the bytes of a byte link and over the
 * periods of a line. All messages come, in order. */
#include "world.h"

#include <stdio.h>
#include <stdlib.h>
#include <string.h>

enum { MESSAGES = 50, LONGEST = 300 };

typedef struct {
    swp_link *link;
    void *heap;
    size_t used;
    unsigned given, came, acked;
} end;

static size_t message(unsigned number, uint8_t *bytes) {
    size_t length = 1 + (number * 37) % LONGEST;
    for (size_t i = 0; i < length; i++) {
        bytes[i] = (uint8_t)(number + i);
    }
    bytes[0] = 0x41; /* an event */
    return length;
}

static void make(end *e) {
    memset(e, 0, sizeof *e);
    e->heap = malloc(SWP_LINK_HEAP);
    must(e->heap != NULL && swp_link_make(e->heap, SWP_LINK_HEAP, SWP_BARE, &e->link) == SWP_OK, "an end is made");
    e->used = swp_heap_used(e->heap);
}

/* What came is the next message of the other end. */
static void note(end *e, const swp_link_report *report) {
    static uint8_t got[4096], wanted[4096];
    uint8_t pipe;
    size_t length;
    must(report->ended == 0 && report->refused == 0, "no session ends and no frame is refused");
    e->acked += report->acked;
    if (!report->got) {
        return;
    }
    swp_link_report none;
    must(swp_link_tick(e->link, &none) == SWP_MESSAGE_DUE, "a message is fetched first");
    must(swp_link_message(e->link, &pipe, got, sizeof got, &length) == SWP_OK, "a message is fetched");
    must(length == message(e->came, wanted) && memcmp(got, wanted, length) == 0, "the message is the next one");
    must(pipe == e->came % 0x70, "it comes on its pipe");
    e->came++;
    must(swp_link_message(e->link, &pipe, got, sizeof got, &length) == SWP_OK && length == 0, "a message is fetched once");
}

static void take_lpdu(end *to, const uint8_t *lpdu, size_t length) {
    swp_link_report report;
    must(swp_link_take(to->link, lpdu, length, &report) == SWP_OK, "an end takes a frame");
    note(to, &report);
}

static void take_bytes(end *to, const uint8_t *lpdu, size_t length) {
    uint8_t unit[34];
    size_t count;
    swp_link_report report;
    must(swp_unit_write(lpdu, length, unit, &count) == SWP_OK && count == length + 4, "a unit is written");
    for (size_t i = 0; i < count; i++) {
        must(swp_link_take_byte(to->link, unit[i], &report) == SWP_OK, "an end takes a byte");
        note(to, &report);
    }
}

static void take_periods(end *to, const uint8_t *lpdu, size_t length) {
    bool bits[336];
    size_t count;
    swp_link_report report;
    must(swp_frame_write(lpdu, length, bits, &count) == SWP_OK, "a frame is written");
    for (size_t i = 0; i < count; i++) {
        /* a bare end hears S1 */
        must(swp_link_take_period(to->link, bits[i] ? 0x54 : 0x40, &report) == SWP_OK, "an end takes a period");
        note(to, &report);
    }
}

static void give(end *from) {
    static uint8_t bytes[4096];
    if (from->given < MESSAGES) {
        swp_code code = swp_link_send(from->link, (uint8_t)(from->given % 0x70), bytes, message(from->given, bytes));
        must(code == SWP_OK || code == SWP_FULL, "a message is taken, or there is no room");
        from->given += code == SWP_OK;
    }
}

static void carry(end *from, end *to, void (*take)(end *, const uint8_t *, size_t), unsigned *frames) {
    uint8_t lpdu[30];
    size_t length;
    for (;;) {
        must(swp_link_next(from->link, lpdu, &length) == SWP_OK, "an end gives its frames");
        if (length == 0) {
            return;
        }
        if (++*frames % 3 != 0) {
            take(to, lpdu, length);
        }
    }
}

static void talk(const char *name, void (*take)(end *, const uint8_t *, size_t)) {
    end a, b;
    swp_link_report report;
    unsigned frames = 0, ticks = 0;
    bool rests = false;
    make(&a);
    make(&b);
    while (a.acked < MESSAGES || b.acked < MESSAGES) {
        give(&a);
        give(&b);
        carry(&a, &b, take, &frames);
        carry(&b, &a, take, &frames);
        must(swp_link_tick(a.link, &report) == SWP_OK, "time passes at an end");
        note(&a, &report);
        must(swp_link_tick(b.link, &report) == SWP_OK, "time passes at the other end");
        note(&b, &report);
        must(++ticks < 100000, "all messages come in time");
    }
    must(a.came == MESSAGES && b.came == MESSAGES, "all messages came once");
    must(swp_link_at_rest(a.link, &rests) == SWP_OK && rests, "an end whose messages are acknowledged rests");
    must(swp_heap_used(a.heap) == a.used && swp_heap_used(b.heap) == b.used, "an end takes no memory behind its making");
    printf("%s: %d messages each way over %u frames\n", name, MESSAGES, frames);
    free(a.heap);
    free(b.heap);
}

int main(void) {
    talk("LPDUs", take_lpdu);
    talk("bytes", take_bytes);
    talk("periods", take_periods);
    return 0;
}
