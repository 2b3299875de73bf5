/* The recorder: records one after another, and always room for a marker behind them. */
#include "recorder.h"

bool recorder_begin(recorder *r, uint8_t *store, size_t size)
{
    *r = (recorder){.store = store, .size = size};
    return size >= RECORDER_MARKER;
}

static size_t rest(const recorder *r)
{
    return r->size - r->used;
}

uint8_t *recorder_place(const recorder *r)
{
    return r->store + r->used;
}

/* A record leaves room for a marker. */
size_t recorder_room(const recorder *r)
{
    return rest(r) > RECORDER_MARKER ? rest(r) - RECORDER_MARKER : 0;
}

bool recorder_wrote(recorder *r, fp_report report)
{
    if (report.answer == FP_TAKEN) {
        r->used += report.length;
        r->marked = false;
        return true;
    }
    /* A marker that is last already stands between what came before this event and what comes after it. */
    if (!r->marked)
        r->used += fp_record_overflow(recorder_place(r), rest(r)).length;
    r->marked = true;
    r->missing++;
    return false;
}
