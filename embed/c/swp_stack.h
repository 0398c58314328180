/* The stack of both ends of the wire between a contactless front end (CLF) and the card in a phone (UICC), for firmware in C.
 *
 * Each object lives in a heap that its caller hands over when it is made, takes no other memory and none later, and knows nothing of others.
 * There is nothing to let go: an object is gone when its heap is used for something else. Calls with different objects may come from different
 * threads at once, those with one object only one after another; a callback may make no call with the object that calls it (SWP_BUSY).
 *
 * Every call answers a code. SWP_STOPPED aside, whatever isn't SWP_OK says that nothing was done and nothing changed.
 */
#ifndef SWP_STACK_H
#define SWP_STACK_H

#include <stdbool.h>
#include <stddef.h>
#include <stdint.h>

#ifdef __cplusplus
extern "C" {
#endif

typedef enum swp_code {
    SWP_OK = 0,
    /* A write or a read of the memory failed in this step, or in an earlier one: the node has lost its power. Boot it anew. */
    SWP_STOPPED = 1,
    SWP_NOT_UP = 2,       /* no session runs at the end that is to send */
    SWP_WAITING = 3,      /* something has to be answered first: a reset, or a command on pipe 01 */
    SWP_TOO_LONG = 4,     /* a message of more than 4,096 bytes, or more than 16,777,216 bytes of a record */
    SWP_FULL = 5,         /* the message needs more blocks of 32 bytes than the end's 128 have to spare */
    SWP_INACTIVE = 6,     /* activation isn't done */
    SWP_NO_HEAP = 7,      /* the heap is too small */
    SWP_NV_FAILED = 8,    /* a read or a write of the memory failed in a boot */
    SWP_BAD_FORMAT = 9,   /* the memory is of a version that isn't known; nothing was written */
    SWP_BAD_RECORD = 10,  /* a record of the memory is none; nothing was written */
    SWP_SPENT = 11,       /* the memory has no generation left */
    /* what a caller may not do */
    SWP_BAD_OBJECT = 12,  /* no object of this kind is there */
    SWP_BUSY = 13,        /* a call with this object is under way */
    SWP_FRAMES_DUE = 14,  /* frames of the step before weren't fetched: `next` is to be called until it gives none, at each link */
    SWP_MESSAGE_DUE = 15, /* the message that came wasn't fetched */
    SWP_BAD_HOST = 16,    /* no number or mask of hosts, or none with which there is a link */
    SWP_BAD_WINDOW = 17,  /* neither 1 to 4 nor 0 */
    SWP_BAD_POWER = 18,   /* a power code above 1 */
    SWP_BAD_LENGTH = 19,  /* a frame of 0 or more than 30 bytes, an empty message, more than 8 pipes, or too little room */
    SWP_BAD_PIPE = 20,    /* a pipe above 6F */
    SWP_BAD_POINTER = 21, /* a pointer or a callback that is null, or a pointer that isn't aligned */
    SWP_BAD_ROLE = 22
} swp_code;

/* Bytes of heap that each object needs where a pointer has 8 bytes; with pointers of 4 bytes it needs fewer. A heap begins at a multiple of 8. */
#define SWP_HOST_HEAP 35128u
#define SWP_CONTROLLER_HEAP(hosts) (5572u + (hosts) * 29556u)
#define SWP_LINK_HEAP 29800u
#define SWP_DECODER_HEAP 8392u

/* How many bytes of a heap the object made in it uses. */
size_t swp_heap_used(const void *heap);

/* ---- Nodes: hosts and controllers ---- */

/* Bytes of a node's memory, which it keeps while the power is off. A new one is all FF. */
#define SWP_MEMORY 65536u

enum swp_kind {
    SWP_TOLD_UP = 1,       /* a session begins at this end of a link */
    SWP_TOLD_DOWN,         /* it ends; `cause` says why */
    SWP_TOLD_ACTIVE,       /* activation is done */
    SWP_TOLD_GAVE_UP,      /* after `count` tries */
    SWP_TOLD_SENT,         /* a message was accepted for sending */
    SWP_TOLD_GOT,          /* a message was delivered */
    SWP_TOLD_ACKED,        /* `count` messages of the session are acknowledged so far */
    SWP_TOLD_TURN,         /* the node handles this message */
    SWP_TOLD_HELD,         /* the first message that waits needs `count` blocks, and `spare` are spare */
    SWP_TOLD_DROPPED,      /* the message that has its turn is dropped */
    SWP_TOLD_COMMAND,      /* the node keeps a command in its memory; `message` is the body of its record */
    SWP_TOLD_ANY_OK,       /* ANY_OK was sent for the node's command number `count` */
    SWP_TOLD_ASK,          /* the notice of a creation goes to this host */
    SWP_TOLD_INIT_SAME,    /* a session of a host has begun, whose identity the controller kept */
    SWP_TOLD_INIT_MADE,    /* one has begun anew, with `count` pipes made */
    SWP_TOLD_INIT_FAILED,  /* its begin ended with the response `count` */
    SWP_TOLD_CUT           /* the node lost its power in a write or a read of its memory */
};

enum swp_cause { SWP_ENDED_ASKED = 1, SWP_ENDED_NO_ANSWER, SWP_ENDED_PEER, SWP_ENDED_ACT, SWP_ENDED_CHAIN };

typedef struct swp_told {
    uint8_t kind;  /* swp_kind */
    uint8_t link;  /* the number of the link's host; of COMMAND, ANY_OK and CUT that of the node */
    uint8_t pipe;  /* of SENT, GOT, TURN and DROPPED */
    uint8_t cause; /* of DOWN: swp_cause */
    uint32_t count;
    uint32_t spare;
    const uint8_t *message; /* of SENT, GOT, TURN, ASK and COMMAND; it stays until the callback is back */
    size_t length;
} swp_told;

/* What the firmware gives a node. The board is copied; what `context` points to stays as long as the node is used.
 * A read fills `length` bytes from place `at` on, a write puts them there, both within the memory; false says that it failed. A write that failed
 * may leave any bytes in its range and no others changed. What a write left stays when the power is cut. */
typedef struct swp_board {
    void *context;
    bool (*nv_read)(void *context, uint32_t at, uint8_t *bytes, size_t length);
    bool (*nv_write)(void *context, uint32_t at, const uint8_t *bytes, size_t length);
    void (*told)(void *context, const swp_told *told);
} swp_board;

typedef struct swp_host swp_host;
typedef struct swp_controller swp_controller;

/* A node boots from its memory. A memory that says nothing is formatted. Where it is refused, *made is null. */
swp_code swp_host_boot(void *heap, size_t size, uint8_t host, const swp_board *board, swp_host **made);
swp_code swp_controller_boot(void *heap, size_t size, uint8_t hosts, const swp_board *board, swp_controller **made);

/* Steps: before each, all frames of the one before were fetched. A frame is its LPDU, 1 to 30 bytes. */
swp_code swp_host_take(swp_host *host, const uint8_t *frame, size_t length);
swp_code swp_host_tick(swp_host *host);
swp_code swp_host_activate(swp_host *host, uint16_t sync);
swp_code swp_host_deactivate(swp_host *host);
swp_code swp_host_reset(swp_host *host, uint8_t window);
swp_code swp_controller_take(swp_controller *controller, uint8_t host, const uint8_t *frame, size_t length);
swp_code swp_controller_tick(swp_controller *controller);
swp_code swp_controller_activate(swp_controller *controller, uint8_t host, uint8_t power);
swp_code swp_controller_deactivate(swp_controller *controller, uint8_t host);
swp_code swp_controller_reset(swp_controller *controller, uint8_t host, uint8_t window);

/* The frame that is to be sent now, with its length; a length of 0 says that there is none. Room for 30 bytes. */
swp_code swp_host_next(swp_host *host, uint8_t *frame, size_t *length);
swp_code swp_controller_next(swp_controller *controller, uint8_t host, uint8_t *frame, size_t *length);

/* A frame on its way to the node was refused below: one more for its counter of errors. */
swp_code swp_host_refused(swp_host *host);
swp_code swp_controller_refused(swp_controller *controller, uint8_t host);

/* A message, its header first, on a pipe of 00 to 6F. */
swp_code swp_host_send(swp_host *host, uint8_t pipe, const uint8_t *message, size_t length);

/* A session of the host begins: an identity of 8 bytes, and up to 8 pipes, each of 3 bytes: own gate, the other host, its gate. */
swp_code swp_host_init(swp_host *host, const uint8_t *identity, const uint8_t *pipes, size_t count);

/* Whether no end waits for the acceptance of a reset, and all that was sent in the session of each is acknowledged. */
swp_code swp_host_at_rest(swp_host *host, bool *rests);
swp_code swp_controller_at_rest(swp_controller *controller, bool *rests);

/* How many commands its memory has kept since it was formatted. */
swp_code swp_host_commands(swp_host *host, uint32_t *count);
swp_code swp_controller_commands(swp_controller *controller, uint32_t *count);

/* ---- One end of a link, without a node ---- */

enum swp_role { SWP_BARE, SWP_CLF, SWP_UICC };
enum swp_state { SWP_DOWN, SWP_RESETTING, SWP_UP };
enum swp_fault { SWP_FAULT_LENGTH = 1, SWP_FAULT_ALIGNMENT, SWP_FAULT_CRC, SWP_FAULT_BROKEN };

typedef struct swp_link_report {
    uint8_t ended;      /* why the session ended: swp_cause, or 0 */
    bool began;         /* a session began */
    bool got;           /* a message came: it is to be fetched before anything else comes */
    bool became_active; /* activation is done */
    uint8_t gave_up;    /* after so many tries, or 0 */
    uint8_t refused;    /* what is wrong with a frame that was refused: swp_fault, or 0 */
    uint16_t acked;     /* so many messages are newly acknowledged */
    bool has_sync;      /* a CLF took the identifier `sync` of the UICC */
    uint16_t sync;
} swp_link_report;

typedef struct swp_link swp_link;

/* A bare end is up from the start; another one is activated first. */
swp_code swp_link_make(void *heap, size_t size, uint8_t role, swp_link **made);

/* What comes to the end: an LPDU, a byte of a byte link, a period of a line record, or a tick. At most six control frames wait before: `next`
 * is called until it gives none. */
swp_code swp_link_take(swp_link *link, const uint8_t *frame, size_t length, swp_link_report *report);
swp_code swp_link_take_byte(swp_link *link, uint8_t byte, swp_link_report *report);
swp_code swp_link_take_period(swp_link *link, uint8_t byte, swp_link_report *report);
swp_code swp_link_tick(swp_link *link, swp_link_report *report);
swp_code swp_link_activate(swp_link *link, uint16_t value, swp_link_report *report);
swp_code swp_link_deactivate(swp_link *link, swp_link_report *report);
swp_code swp_link_reset(swp_link *link, uint8_t window, swp_link_report *report);

/* Whether the end is held, so that it takes no fragments. */
swp_code swp_link_hold(swp_link *link, bool held);
swp_code swp_link_send(swp_link *link, uint8_t pipe, const uint8_t *message, size_t length);
swp_code swp_link_next(swp_link *link, uint8_t *frame, size_t *length);

/* The message that came, with its pipe; a length of 0 says that there is none. Room for 4,096 bytes. */
swp_code swp_link_message(swp_link *link, uint8_t *pipe, uint8_t *message, size_t room, size_t *length);
swp_code swp_link_state(swp_link *link, uint8_t *state);
swp_code swp_link_at_rest(swp_link *link, bool *rests);

/* A frame as a unit of a byte link: its length, the LPDU, its CRC. Room for 34 bytes. */
swp_code swp_unit_write(const uint8_t *frame, size_t length, uint8_t *unit, size_t *count);

/* A frame as the bits of a line: start, the LPDU and its CRC with stuffed bits, end. Room for 336. */
swp_code swp_frame_write(const uint8_t *frame, size_t length, bool *bits, size_t *count);

/* ---- The decoder of line records ---- */

typedef struct swp_decoder swp_decoder;

/* Room that the lines of one byte need. */
#define SWP_LINES 256u

/* The lines that `swp decode` writes: those that this byte gives, and behind the last byte the line `done N`. */
swp_code swp_decoder_make(void *heap, size_t size, swp_decoder **made);
swp_code swp_decoder_step(swp_decoder *decoder, uint8_t byte, char *lines, size_t *length);
swp_code swp_decoder_finish(swp_decoder *decoder, char *lines, size_t *length);

#ifdef __cplusplus
}
#endif

#endif
