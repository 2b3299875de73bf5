/* Tests the recorder: what the writer reports, what fits into the store, what is left out, and the markers in their places.
 * Exit 1 if a check failed.
 */
#include "check.h"
#include "recorder.h"

#include <string.h>

/* What a walk through the recording finds besides the numbers of events. */
enum { NOTHING = -1, MARKER = -2, NO_RECORD = -3 };

/* The record of an account key write, without its block; and the longest block that has a record. */
enum { WRITE = 13, LONGEST_BLOCK = 1013 };

static uint8_t store[4096];
static recorder recording;
static size_t at; /* where the walk stands */

/* ---- events are told apart by their clocks, and are as long as their blocks make them */

static bool begin(size_t size)
{
    memset(store, 0xEE, sizeof store);
    at = 0;
    return recorder_begin(&recording, store, size);
}

static fp_report written(int number, size_t block_length, uint8_t *place, size_t room)
{
    static const uint8_t block[LONGEST_BLOCK + 1];
    return fp_record_account_key_write(3, (uint64_t)number, block, block_length, place, room);
}

static bool record(int number, size_t block_length)
{
    return recorder_wrote(&recording,
                          written(number, block_length, recorder_place(&recording), recorder_room(&recording)));
}

static bool record_marker(void)
{
    return recorder_wrote(&recording, fp_record_overflow(recorder_place(&recording), recorder_room(&recording)));
}

/* The number of the next event, MARKER, or NOTHING at the end. */
static int next(void)
{
    const uint8_t *here = store + at;
    if (at == recording.used)
        return NOTHING;
    if (at + RECORDER_MARKER > recording.used)
        return NO_RECORD;
    size_t length = 2 + ((size_t)here[0] << 8 | here[1]);
    at += length;
    if (at > recording.used || here[2] != 0x01)
        return NO_RECORD;
    if (length == RECORDER_MARKER)
        return here[3] == 0x01 ? MARKER : NO_RECORD;
    return here[3] == 0x0D && length >= WRITE ? here[11] << 8 | here[12] : NO_RECORD;
}

/* The recording is these events and markers, up to NOTHING, and the bytes behind the store are untouched. */
static bool is(const int *expected)
{
    while (*expected != NOTHING)
        if (next() != *expected++)
            return false;
    if (next() != NOTHING || recording.used > recording.size)
        return false;
    for (size_t i = recording.size; i < sizeof store; i++)
        if (store[i] != 0xEE)
            return false;
    return true;
}

#define IS(...) is((const int[]){__VA_ARGS__, NOTHING})

/* The writer reports this of a block of this length, with this room. */
static bool reports(size_t block_length, size_t room, uint8_t answer, uint64_t length)
{
    fp_report report = written(1, block_length, store, room);
    return report.answer == answer && report.length == length;
}

/* ---- tests */

static void reported(void)
{
    check(reports(0, WRITE, FP_TAKEN, WRITE), "a record that fits: its whole length");
    check(reports(0, WRITE - 1, FP_OUTPUT_TOO_SHORT, 0), "one byte less: 13");
    check(reports(LONGEST_BLOCK, FP_RECORD_MAX, FP_TAKEN, FP_RECORD_MAX), "the longest record");
    check(reports(LONGEST_BLOCK, FP_RECORD_MAX - 1, FP_OUTPUT_TOO_SHORT, 0), "one byte less: 13");
    check(reports(LONGEST_BLOCK + 1, sizeof store, FP_WRONG_LENGTH, 0), "a longer one: 2");
    check(reports(LONGEST_BLOCK + 1, 0, FP_WRONG_LENGTH, 0), "a longer one without room: 2 as well");
}

static void short_stores(void)
{
    check(!begin(RECORDER_MARKER - 1) && !record(1, 0) && recording.used == 0,
          "a store too short for a marker is refused, and nothing is written to it");
    check(begin(RECORDER_MARKER) && !record(1, 0) && IS(MARKER), "a store for one marker: it stands for the event");
    check(begin(WRITE + RECORDER_MARKER) && record(1, 0) && IS(1), "room for a record and a marker: the record");
    check(begin(WRITE + RECORDER_MARKER - 1) && !record(1, 0) && IS(MARKER), "one byte less: a marker");
    check(begin(WRITE + RECORDER_MARKER) && record(1, 0) && !record(2, 0) && IS(1, MARKER),
          "a full store: the kept room is the marker's");
    check(begin(2 * RECORDER_MARKER) && record_marker() && !record_marker() && IS(MARKER, MARKER),
          "a marker of the queue is recorded as any event");
}

static void losses(void)
{
    begin(WRITE + 3 * RECORDER_MARKER);
    check(record(1, 0) && !record(2, 0) && !record(3, 0) && recording.missing == 2 && IS(1, MARKER),
          "events left out in a row have one marker, though there is room for two, and are counted");

    begin(2 * (WRITE + RECORDER_MARKER));
    check(record(1, 0) && !record(2, 100) && record(3, 0) && IS(1, MARKER, 3),
          "a loss in the middle: the marker stands between what came before and what came later");

    begin(2 * (WRITE + RECORDER_MARKER));
    check(record(1, 0) && !record(2, 100) && record(3, 0) && !record(4, 0) && IS(1, MARKER, 3, MARKER),
          "two losses have two markers, each in its place");

    begin(sizeof store);
    check(record(1, LONGEST_BLOCK) && !record(2, LONGEST_BLOCK + 1) && record(3, 0) && IS(1, MARKER, 3),
          "an event too long for a record has a marker, though there is room");

    begin(WRITE + RECORDER_MARKER);
    check(record(1, 0) && !record(2, 0) && begin(WRITE + RECORDER_MARKER) && !record(3, 1) && IS(MARKER),
          "a loss at the front of the next store has a marker of its own");
}

/* Random events in random stores, beside a plain list of what has to be there. */
static void beside_a_list(void)
{
    enum { STORES = 5000, EVENTS = 40 };
    int expected[EVENTS + 1];
    bool right = true;
    uint32_t random = 1, left_out = 0;
    for (int turn = 0; turn < STORES; turn++) {
        int written = 0;
        begin(RECORDER_MARKER + (random >> 16) % 600);
        for (int number = 1; number <= EVENTS; number++) {
            random = random * 1664525u + 1013904223u;
            size_t block = (random >> 24) < 8 ? LONGEST_BLOCK + 1 : (random >> 16) % 40;
            size_t free_bytes = recording.size - recording.used;
            bool fits = block <= LONGEST_BLOCK && WRITE + block + RECORDER_MARKER <= free_bytes;
            right = record(number, block) == fits && right;
            if (fits)
                expected[written++] = number;
            else if (written == 0 || expected[written - 1] != MARKER)
                expected[written++] = MARKER;
        }
        expected[written] = NOTHING;
        left_out += (uint32_t)recording.missing;
        right = is(expected) && right;
    }
    printf("%d random stores, %u of %u events left out\n", STORES, left_out, STORES * EVENTS);
    check(right && left_out > STORES, "random events: every record and every marker in its place");
}

int main(void)
{
    reported();
    short_stores();
    losses();
    beside_a_list();
    return all_checked();
}
