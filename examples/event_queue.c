/* The event queue: a ring with one writer for each of its two counts. */
#include "event_queue.h"

#include <string.h>

/* With one slot the marker would have no event before it; a power of two: see the header. */
_Static_assert(EVENT_QUEUE_SLOTS >= 2 && (EVENT_QUEUE_SLOTS & (EVENT_QUEUE_SLOTS - 1)) == 0,
               "EVENT_QUEUE_SLOTS is a power of two, and at least 2");

event event_of_write(event_kind kind, uint8_t link, uint64_t clock, const uint8_t *bytes, size_t length)
{
    event e = {.kind = kind, .link = link, .clock = clock};
    e.length = (uint8_t)(length < EVENT_BYTES ? length : EVENT_BYTES);
    if (e.length > 0)
        memcpy(e.bytes, bytes, e.length);
    return e;
}

/* The slot is filled before the count shows it to the other side: release here, acquire in event_queue_take. */
static void store(event_queue *queue, unsigned put, const event *e)
{
    queue->slots[put % EVENT_QUEUE_SLOTS] = *e;
    atomic_store_explicit(&queue->put, put + 1, memory_order_release);
}

bool event_queue_put(event_queue *queue, const event *e)
{
    static const event marker = {.kind = EVENT_OVERFLOW};
    unsigned put = atomic_load_explicit(&queue->put, memory_order_relaxed);
    unsigned taken = atomic_load_explicit(&queue->taken, memory_order_acquire);
    unsigned free_slots = EVENT_QUEUE_SLOTS - (put - taken);

    /* An event leaves at least one slot free, so a marker always has room. */
    if (free_slots >= 2) {
        store(queue, put, e);
        return true;
    }
    /* The event is lost. If a marker was put in last, it already stands between what came before this loss and what
     * comes after it, also if it was taken meanwhile. A second one would only take the slot of an event. If no slot is
     * free, a marker was put in last: only a marker fills the last slot. */
    if (queue->slots[(put - 1) % EVENT_QUEUE_SLOTS].kind != EVENT_OVERFLOW)
        store(queue, put, &marker);
    return false;
}

/* The slot is copied before the count gives it back to the other side: release here, acquire in event_queue_put. */
bool event_queue_take(event_queue *queue, event *e)
{
    unsigned taken = atomic_load_explicit(&queue->taken, memory_order_relaxed);
    if (atomic_load_explicit(&queue->put, memory_order_acquire) == taken)
        return false;
    *e = queue->slots[taken % EVENT_QUEUE_SLOTS];
    atomic_store_explicit(&queue->taken, taken + 1, memory_order_release);
    return true;
}
