/* What a contract requires and a caller doesn't keep to is refused with its code, and changes nothing. */
#include "world.h"

#include <stdio.h>
#include <stdlib.h>
#include <string.h>

static uint8_t bytes[SWP_MEMORY];
static bool fails;
static swp_host *told_host;
static swp_code told_code;
static unsigned told_times;

static bool nv_read(void *context, uint32_t at, uint8_t *to, size_t length) {
    (void)context;
    memcpy(to, bytes + at, length);
    return !fails;
}

static bool nv_write(void *context, uint32_t at, const uint8_t *from, size_t length) {
    (void)context;
    if (fails) {
        return false;
    }
    memcpy(bytes + at, from, length);
    return true;
}

static void told(void *context, const swp_told *what) {
    (void)context;
    (void)what;
    told_times++;
    if (told_host != NULL) {
        told_code = swp_host_tick(told_host);
    }
}

static const swp_board board = {NULL, nv_read, nv_write, told};
static uint64_t heap[SWP_CONTROLLER_HEAP(2) / 8 + 1], other[SWP_HOST_HEAP / 8 + 1];

#define REFUSED(call, code) must((call) == (code), #call " is " #code)

static swp_host *host(void) {
    swp_host *made;
    fails = false;
    memset(bytes, 0xFF, sizeof bytes);
    REFUSED(swp_host_boot(other, sizeof other, 2, &board, &made), SWP_OK);
    return made;
}

static swp_controller *controller(void) {
    swp_controller *made;
    fails = false;
    memset(bytes, 0xFF, sizeof bytes);
    REFUSED(swp_controller_boot(heap, sizeof heap, 1 << 2 | 1 << 5, &board, &made), SWP_OK);
    return made;
}

static void boots(void) {
    swp_host *made = (swp_host *)heap;
    swp_controller *clf;
    swp_board without = board;
    REFUSED(swp_host_boot(heap, sizeof heap, 0, &board, &made), SWP_BAD_HOST);
    REFUSED(swp_host_boot(heap, sizeof heap, 8, &board, &made), SWP_BAD_HOST);
    REFUSED(swp_controller_boot(heap, sizeof heap, 1, &board, &clf), SWP_BAD_HOST);
    REFUSED(swp_host_boot(NULL, sizeof heap, 2, &board, &made), SWP_BAD_POINTER);
    REFUSED(swp_host_boot(heap, sizeof heap, 2, NULL, &made), SWP_BAD_POINTER);
    REFUSED(swp_host_boot(heap, sizeof heap, 2, &board, NULL), SWP_BAD_POINTER);
    without.told = NULL;
    REFUSED(swp_host_boot(heap, sizeof heap, 2, &without, &made), SWP_BAD_POINTER);
    fails = true;
    REFUSED(swp_host_boot(heap, sizeof heap, 2, &board, &made), SWP_NV_FAILED);
    must(made == NULL, "a refused boot makes nothing");
    fails = false;
    memset(bytes, 0xFF, sizeof bytes);
    bytes[0] = 0x5A;
    bytes[1] = 9;
    REFUSED(swp_host_boot(heap, sizeof heap, 2, &board, &made), SWP_BAD_FORMAT);
    bytes[1] = 2;
    bytes[12] = 0x5A;
    bytes[13] = 0;
    REFUSED(swp_host_boot(heap, sizeof heap, 2, &board, &made), SWP_BAD_RECORD);
    must(bytes[14] == 0xFF && bytes[32768] == 0xFF, "a memory that is refused isn't written");
}

static void objects(void) {
    swp_host *made = host();
    swp_controller *clf = controller();
    uint8_t frame[30];
    size_t length;
    REFUSED(swp_host_tick(NULL), SWP_BAD_OBJECT);
    REFUSED(swp_host_tick((swp_host *)((char *)made + 1)), SWP_BAD_OBJECT);
    REFUSED(swp_host_tick((swp_host *)clf), SWP_BAD_OBJECT);
    REFUSED(swp_controller_next((swp_controller *)made, 2, frame, &length), SWP_BAD_OBJECT);
    REFUSED(swp_link_at_rest((swp_link *)made, NULL), SWP_BAD_OBJECT);
    REFUSED(swp_decoder_step((swp_decoder *)made, 0, NULL, NULL), SWP_BAD_OBJECT);
}

static void steps_of_a_host(void) {
    swp_host *made = host();
    uint8_t frame[31] = {0xC1};
    size_t length;
    bool rests;
    REFUSED(swp_host_take(made, frame, 0), SWP_BAD_LENGTH);
    REFUSED(swp_host_take(made, frame, 31), SWP_BAD_LENGTH);
    REFUSED(swp_host_take(made, NULL, 1), SWP_BAD_POINTER);
    REFUSED(swp_host_reset(made, 5), SWP_BAD_WINDOW);
    REFUSED(swp_host_reset(made, 4), SWP_INACTIVE);
    REFUSED(swp_host_activate(made, 0x1234), SWP_OK);
    REFUSED(swp_host_activate(made, 0x1234), SWP_FRAMES_DUE);
    REFUSED(swp_host_tick(made), SWP_FRAMES_DUE);
    REFUSED(swp_host_take(made, frame, 1), SWP_FRAMES_DUE);
    REFUSED(swp_host_next(made, NULL, &length), SWP_BAD_POINTER);
    REFUSED(swp_host_next(made, frame, NULL), SWP_BAD_POINTER);
    REFUSED(swp_host_next(made, frame, &length), SWP_OK);
    must(length == 3 && memcmp(frame, "\x61\x12\x34", 3) == 0, "a frame that nobody could have isn't lost");
    REFUSED(swp_host_tick(made), SWP_FRAMES_DUE);
    REFUSED(swp_host_next(made, frame, &length), SWP_OK);
    must(length == 0, "there is one frame");
    REFUSED(swp_host_tick(made), SWP_OK);
    REFUSED(swp_host_at_rest(made, NULL), SWP_BAD_POINTER);
    REFUSED(swp_host_at_rest(made, &rests), SWP_OK);
}

static void messages_of_a_host(void) {
    swp_host *made = host();
    static uint8_t message[5000] = {3};
    REFUSED(swp_host_send(made, 0x70, message, 1), SWP_BAD_PIPE);
    REFUSED(swp_host_send(made, 1, message, 0), SWP_BAD_LENGTH);
    REFUSED(swp_host_send(made, 1, NULL, 1), SWP_BAD_POINTER);
    REFUSED(swp_host_send(made, 1, message, 1), SWP_NOT_UP);
    REFUSED(swp_host_init(made, message, message, 9), SWP_BAD_LENGTH);
    REFUSED(swp_host_init(made, NULL, message, 1), SWP_BAD_POINTER);
    REFUSED(swp_host_init(made, message, NULL, 1), SWP_BAD_POINTER);
    REFUSED(swp_host_init(made, message, NULL, 0), SWP_NOT_UP);
}

static void steps_of_a_controller(void) {
    swp_controller *made = controller();
    uint8_t frame[30] = {0x61, 0, 1};
    size_t length;
    REFUSED(swp_controller_take(made, 3, frame, 3), SWP_BAD_HOST);
    REFUSED(swp_controller_take(made, 0, frame, 3), SWP_BAD_HOST);
    REFUSED(swp_controller_take(made, 255, frame, 3), SWP_BAD_HOST);
    REFUSED(swp_controller_activate(made, 2, 2), SWP_BAD_POWER);
    REFUSED(swp_controller_reset(made, 2, 5), SWP_BAD_WINDOW);
    REFUSED(swp_controller_reset(made, 2, 0), SWP_INACTIVE);
    REFUSED(swp_controller_next(made, 1, frame, &length), SWP_BAD_HOST);
    REFUSED(swp_controller_refused(made, 1), SWP_BAD_HOST);
    REFUSED(swp_controller_take(made, 2, frame, 3), SWP_OK);
    do {
        REFUSED(swp_controller_next(made, 2, frame, &length), SWP_OK);
    } while (length > 0);
    REFUSED(swp_controller_tick(made), SWP_FRAMES_DUE);
    REFUSED(swp_controller_next(made, 5, frame, &length), SWP_OK);
    REFUSED(swp_controller_tick(made), SWP_OK);
}

/* A write that fails stops a node for good, and a call from a callback is refused. */
static void stops_and_calls_back(void) {
    swp_controller *made = controller();
    uint8_t frame[30] = {0x61, 0, 1};
    size_t length;
    bool rests;
    fails = true;
    REFUSED(swp_controller_take(made, 2, frame, 3), SWP_STOPPED);
    REFUSED(swp_controller_tick(made), SWP_STOPPED);
    REFUSED(swp_controller_next(made, 2, frame, &length), SWP_STOPPED);
    REFUSED(swp_controller_at_rest(made, &rests), SWP_STOPPED);
    REFUSED(swp_controller_refused(made, 2), SWP_STOPPED);
    swp_host *card = host();
    REFUSED(swp_host_activate(card, 1), SWP_OK);
    do {
        REFUSED(swp_host_next(card, frame, &length), SWP_OK);
    } while (length > 0);
    told_host = card;
    told_times = 0;
    told_code = SWP_OK;
    for (unsigned ticks = 0; ticks < 1000 && told_times == 0; ticks++) {
        REFUSED(swp_host_tick(card), SWP_OK);
        do {
            REFUSED(swp_host_next(card, frame, &length), SWP_OK);
        } while (length > 0);
    }
    told_host = NULL;
    must(told_times > 0 && told_code == SWP_BUSY, "a call from a callback is refused");
}

static void links_and_decoders(void) {
    swp_link *link;
    swp_decoder *decoder;
    swp_link_report report;
    uint8_t frame[34] = {0x80, 0x81, 0x41}, pipe;
    size_t length;
    REFUSED(swp_link_make(heap, sizeof heap, 3, &link), SWP_BAD_ROLE);
    REFUSED(swp_link_make(heap, sizeof heap, SWP_CLF, &link), SWP_OK);
    REFUSED(swp_link_activate(link, 2, &report), SWP_BAD_POWER);
    REFUSED(swp_link_tick(link, NULL), SWP_BAD_POINTER);
    REFUSED(swp_link_reset(link, 5, &report), SWP_BAD_WINDOW);
    REFUSED(swp_link_reset(link, 1, &report), SWP_INACTIVE);
    REFUSED(swp_link_send(link, 0x70, frame, 1), SWP_BAD_PIPE);
    REFUSED(swp_link_send(link, 1, frame, 0), SWP_BAD_LENGTH);
    REFUSED(swp_link_make(heap, sizeof heap, SWP_BARE, &link), SWP_OK);
    REFUSED(swp_link_take(link, frame, 3, &report), SWP_OK);
    must(report.got, "a message comes");
    REFUSED(swp_link_take(link, frame, 3, &report), SWP_MESSAGE_DUE);
    REFUSED(swp_link_message(link, &pipe, frame, sizeof frame, &length), SWP_BAD_LENGTH);
    static uint8_t message[4096];
    swp_code code = SWP_OK;
    for (uint8_t number = 1; number < 12 && code == SWP_OK; number++) {
        REFUSED(swp_link_message(link, &pipe, message, sizeof message, &length), SWP_OK);
        frame[0] = (uint8_t)(0x80 | number % 8 << 3);
        code = swp_link_take(link, frame, 3, &report); /* each fragment is answered by an RR */
    }
    must(code == SWP_FRAMES_DUE, "frames are fetched before more comes");
    REFUSED(swp_link_hold(link, true), SWP_FRAMES_DUE);
    REFUSED(swp_unit_write(frame, 31, frame, &length), SWP_BAD_LENGTH);
    REFUSED(swp_frame_write(frame, 0, NULL, &length), SWP_BAD_LENGTH);
    REFUSED(swp_decoder_make(heap, sizeof heap, &decoder), SWP_OK);
    REFUSED(swp_decoder_step(decoder, 0, NULL, &length), SWP_BAD_POINTER);
    must(swp_heap_used(NULL) == 0, "no heap has nothing in use");
}

int main(void) {
    boots();
    objects();
    steps_of_a_host();
    messages_of_a_host();
    steps_of_a_controller();
    stops_and_calls_back();
    links_and_decoders();
    puts("all that a contract requires is refused where it isn't so");
    return 0;
}
