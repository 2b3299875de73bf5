/* A recorder of events for a test build: it appends their records to a store, and puts a marker where one is missing.
 *
 * The side that takes events out of the queue records each of them before it serves it, with the same arguments, markers
 * and power-ons included:
 *
 *     recorder_wrote(&recording, fp_record_link_up(link, clock, recorder_place(&recording), recorder_room(&recording)));
 *     outcome = fp_link_up(device, link, clock);
 *
 * A record that does not fit is left out. A marker then stands in its place: after every record before it, and before
 * every later one. Room for that marker is always kept. Records in a row that are left out have one marker.
 *
 * The store is the caller's. It holds the owners' keys and the secrets of pairings: docs/RECORDING.md says how to handle a
 * recording. A product does not record.
 */
#ifndef RECORDER_H
#define RECORDER_H

#include <fastpair.h>

/* The bytes of a marker's record: no store may be shorter. */
enum { RECORDER_MARKER = 4 };

typedef struct {
    uint8_t *store;
    size_t size;     /* of the store */
    size_t used;     /* the recording: whole records, from the front of the store */
    uint64_t missing; /* events that are not in it */
    bool marked;     /* the last record is the marker for such an event */
} recorder;

/* Begins a recording in a store; false if that is too short for a marker. To go on with an empty store, save the old
 * recording, wipe it and begin again: the parts in their order are one recording. */
bool recorder_begin(recorder *r, uint8_t *store, size_t size);

/* Where the next record goes, and how long it may be. */
uint8_t *recorder_place(const recorder *r);
size_t recorder_room(const recorder *r);

/* Takes up what the writer reported of the next event; false if that event is missing. The marker is then in the store
 * already, so the caller does nothing. */
bool recorder_wrote(recorder *r, fp_report report);

#endif
