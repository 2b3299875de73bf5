/* A queue of events between the radio's interrupt and the main loop, with the overflow marker in its place.
 *
 * One side puts events in (the interrupt), the other takes them out (the main loop). If several interrupts put events
 * in, none of them may interrupt another within event_queue_put.
 *
 * An event that does not fit is dropped. The queue then holds a marker, after every event that was put in before the loss
 * and before every event that is put in later. The main loop takes the marker out like an event and calls fp_overflow.
 * A loss that the radio reports itself is put in as EVENT_OVERFLOW.
 *
 * Put every event with a clock through the queue, and read its clock there. A call past the queue carries a later
 * clock than the events that still wait, and these then get FP_CLOCK_WENT_BACK.
 *
 * A test build that records does so where events are taken out (recorder.h): in the order in which they are served.
 */
#ifndef EVENT_QUEUE_H
#define EVENT_QUEUE_H

#include <stdatomic.h>
#include <stdbool.h>
#include <stddef.h>
#include <stdint.h>

/* The slots: a power of two, so that a slot's number stays right when the counts below wrap. One slot is kept free for
 * a marker: the queue holds EVENT_QUEUE_SLOTS - 1 events and a marker. */
enum { EVENT_QUEUE_SLOTS = 16 };

/* The longest request has 80 bytes, and so has the longest packet with a name. One more is kept, so that a longer write is
 * still seen to be too long. */
enum { EVENT_BYTES = 81 };

typedef enum {
    EVENT_OVERFLOW,
    EVENT_LINK_UP,
    EVENT_LINK_DOWN,
    EVENT_PAIRING_MODE,
    EVENT_ADDRESS_ROTATED,
    EVENT_FACTORY_RESET,
    EVENT_KEY_BASED_WRITE,
    EVENT_PAIRING_STARTED,
    EVENT_CONFIRMATION_NEEDED,
    EVENT_PASSKEY_WRITE,
    EVENT_PAIRING_ENDED,
    EVENT_NAME_WRITE,
    EVENT_ACCOUNT_KEY_WRITE
} event_kind;

/* One event. Salts, nonces and the secure element's result are not in it: the main loop makes them when it takes the
 * event. */
typedef struct {
    event_kind kind;
    uint8_t link;
    uint8_t value;              /* pairing mode: on; pairing started: capability; pairing ended: success */
    uint8_t length;             /* of a write */
    uint32_t passkey;           /* confirmation needed: ours */
    uint64_t clock;
    uint8_t bytes[EVENT_BYTES]; /* a write, or the new BLE address */
} event;

/* Zeros are an empty queue. */
typedef struct {
    event slots[EVENT_QUEUE_SLOTS];
    atomic_uint put;   /* how many were put in; only event_queue_put writes it */
    atomic_uint taken; /* how many were taken out; only event_queue_take writes it */
} event_queue;

/* A write as an event. One longer than EVENT_BYTES is cut to that many: no write of this length is taken. */
event event_of_write(event_kind kind, uint8_t link, uint64_t clock, const uint8_t *bytes, size_t length);

/* Puts the event in; false if it was dropped. The marker is then in the queue already, so the caller does nothing. */
bool event_queue_put(event_queue *queue, const event *e);

/* Takes the oldest event or marker out; false if there is none. */
bool event_queue_take(event_queue *queue, event *e);

#endif
