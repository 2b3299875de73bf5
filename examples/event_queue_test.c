/* Tests the event queue: its boundaries, and a pairing through it with the real library, whole and with a loss. Exit 1 if
 * a check failed. The salts and the nonce are fixed, so that the responses can be compared; a product draws them.
 */
#include "check.h"
#include "event_queue.h"
#include "phone.h"

#include <limits.h>
#include <string.h>

enum { ROOM = EVENT_QUEUE_SLOTS - 1, NOTHING = -1, MARKER = -2 };

/* ---- the queue alone: events are told apart by their clocks */

static event_queue queue;

/* `begin` is the counts' first value: near UINT_MAX they wrap within the test. */
static void empty_queue(unsigned begin)
{
    memset(&queue, 0, sizeof queue);
    atomic_init(&queue.put, begin);
    atomic_init(&queue.taken, begin);
}

static bool put(int number)
{
    event e = {.kind = EVENT_LINK_UP, .clock = (uint64_t)number};
    return event_queue_put(&queue, &e);
}

/* Puts the numbers from `first` to `last` in; true if all were stored. */
static bool put_all(int first, int last)
{
    bool stored = true;
    for (int number = first; number <= last; number++)
        stored = put(number) && stored;
    return stored;
}

/* The next number, MARKER or NOTHING. */
static int take(void)
{
    event e;
    if (!event_queue_take(&queue, &e))
        return NOTHING;
    return e.kind == EVENT_OVERFLOW ? MARKER : (int)e.clock;
}

static bool takes(int first, int last)
{
    bool right = true;
    for (int number = first; number <= last; number++)
        right = take() == number && right;
    return right;
}

static void boundaries(unsigned begin)
{
    printf("boundaries, counts from %u\n", begin);
    empty_queue(begin);
    check(take() == NOTHING, "an empty queue gives nothing");
    check(put(1) && takes(1, 1) && take() == NOTHING, "one event goes in and comes out");

    empty_queue(begin);
    check(put_all(1, ROOM), "the queue holds its slots but one");
    check(takes(1, ROOM) && take() == NOTHING, "a full queue without a loss gives no marker");

    empty_queue(begin);
    check(put_all(1, ROOM - 1) && put(ROOM) && !put(0), "with room for one event, one is stored and the next dropped");
    check(takes(1, ROOM) && take() == MARKER && take() == NOTHING, "a loss at the end: the marker comes last");

    empty_queue(begin);
    put_all(1, ROOM);
    check(!put(0) && !put(0) && !put(0), "events are dropped while the queue is full");
    check(takes(1, ROOM) && take() == MARKER && take() == NOTHING, "losses in a row have one marker");

    empty_queue(begin);
    put_all(1, ROOM);
    put(0);
    check(takes(1, 1) && !put(0), "one slot free after a loss: it is kept for a marker");
    check(takes(2, 2) && put(ROOM + 1), "two slots free: the next event is stored");
    check(takes(3, ROOM) && take() == MARKER && takes(ROOM + 1, ROOM + 1) && take() == NOTHING,
          "a loss in the middle: after what came before it, before what came later");

    empty_queue(begin);
    put_all(1, ROOM);
    put(0);
    takes(1, 3);
    check(put_all(ROOM + 1, ROOM + 2) && !put(0), "a second loss behind the first");
    check(takes(4, ROOM) && take() == MARKER && takes(ROOM + 1, ROOM + 2) && take() == MARKER && take() == NOTHING,
          "two losses have two markers, each in its place");

    empty_queue(begin);
    put_all(1, ROOM);
    put(0);
    check(takes(1, ROOM) && take() == MARKER && put_all(1, ROOM) && !put(0) && takes(1, ROOM) && take() == MARKER,
          "a loss after an earlier marker was taken has a marker of its own");
}

static void wrap_around(void)
{
    bool right = true;
    empty_queue(0);
    put_all(1, 3);
    for (int number = 1; number <= 10 * EVENT_QUEUE_SLOTS; number++)
        right = take() == number && put(number + 3) && right;
    check(right, "events stay in order round the slots");
}

/* Random puts and takes beside a plain list of what has to come out. */
static void beside_a_list(void)
{
    enum { STEPS = 200000 };
    static int expected[STEPS + 1];
    int written = 0, read = 0, losses = 0;
    bool right = true, lost = false;
    uint32_t random = 1;
    empty_queue(UINT_MAX - STEPS / 4);
    for (int step = 1; step <= STEPS; step++) {
        random = random * 1664525u + 1013904223u;
        /* longer stretches of more puts than takes, and of more takes than puts */
        bool puts = (random >> 24) < ((step / 100) % 2 ? 160u : 96u);
        if (puts && put(step)) {
            expected[written++] = step;
            lost = false;
        } else if (puts && !lost) {
            expected[written++] = MARKER;
            lost = true;
            losses++;
        } else if (!puts) {
            right = take() == (read < written ? expected[read++] : NOTHING) && right;
        }
    }
    printf("%d random steps, %d markers\n", STEPS, losses);
    check(right && losses > 100, "random puts and takes: every event and every marker in its place");
}

static void long_writes(void)
{
    uint8_t bytes[200];
    memset(bytes, 0xAB, sizeof bytes);
    event whole = event_of_write(EVENT_KEY_BASED_WRITE, LINK, 1, bytes, 80);
    event cut = event_of_write(EVENT_KEY_BASED_WRITE, LINK, 1, bytes, sizeof bytes);
    event none = event_of_write(EVENT_KEY_BASED_WRITE, LINK, 1, NULL, 0);
    check(whole.length == 80 && memcmp(whole.bytes, bytes, 80) == 0, "a write of 80 bytes is held whole");
    check(cut.length == EVENT_BYTES, "a longer write stays too long");
    check(none.length == 0, "a write without bytes is an event too");
}

/* ---- a pairing through the queue, with the real library */

static fp_device device;
static fp_reply reply;            /* to the last event served */
static uint8_t out[FP_RESPONSE_SIZE]; /* its response */
static uint8_t packet[FP_PACKET_MAX]; /* its packet with the name */

/* What a main loop does with an event that it took out. */
static fp_outcome served(const event *e)
{
    fp_address ble;
    switch (e->kind) {
    case EVENT_OVERFLOW:
        return fp_overflow(device);
    case EVENT_LINK_UP:
        return fp_link_up(device, e->link, e->clock);
    case EVENT_LINK_DOWN:
        return fp_link_down(device, e->link, e->clock);
    case EVENT_PAIRING_MODE:
        return fp_pairing_mode(device, e->value, e->clock);
    case EVENT_ADDRESS_ROTATED:
        memcpy(ble.bytes, e->bytes, sizeof ble.bytes);
        return fp_address_rotated(device, ble, START.salt, e->clock);
    case EVENT_FACTORY_RESET:
        return fp_factory_reset(device, e->clock);
    case EVENT_KEY_BASED_WRITE:
        return fp_key_based_write(device, e->link, e->clock, e->bytes, e->length, ELEMENT, RESPONSE_SALT, NONCE, out,
                                  sizeof out, packet, sizeof packet);
    case EVENT_PAIRING_STARTED:
        return fp_pairing_started(device, e->link, e->clock, e->value);
    case EVENT_CONFIRMATION_NEEDED:
        return fp_confirmation_needed(device, e->link, e->clock, e->passkey);
    case EVENT_PASSKEY_WRITE:
        return fp_passkey_write(device, e->link, e->clock, e->bytes, e->length, PASSKEY_SALT, out, sizeof out);
    case EVENT_PAIRING_ENDED:
        return fp_pairing_ended(device, e->link, e->clock, e->value);
    case EVENT_NAME_WRITE:
        return fp_name_write(device, e->link, e->clock, e->bytes, e->length);
    case EVENT_ACCOUNT_KEY_WRITE:
        break;
    }
    return fp_account_key_write(device, e->link, e->clock, e->bytes, e->length);
}

static uint8_t serve(const event *e)
{
    fp_outcome outcome = served(e);
    device = outcome.next;
    reply = outcome.reply;
    return reply.answer;
}

/* Takes one event out and serves it; true if it is of this kind and gets this answer. */
static bool gets(event_kind kind, uint8_t answer)
{
    event e;
    return event_queue_take(&queue, &e) && e.kind == kind && serve(&e) == answer;
}

static bool powered_on(void)
{
    empty_queue(0);
    fp_outcome outcome = fp_power_on(fp_off(), EMPTY_LIST, sizeof EMPTY_LIST, MAKERS_NAME, sizeof MAKERS_NAME, START);
    device = outcome.next;
    return outcome.reply.answer == FP_TAKEN;
}

static void put_write(event_kind kind, uint64_t clock, const uint8_t *bytes, size_t length)
{
    event e = event_of_write(kind, LINK, clock, bytes, length);
    event_queue_put(&queue, &e);
}

static void put_event(event_kind kind, uint64_t clock, uint8_t value)
{
    event e = {.kind = kind, .link = LINK, .clock = clock, .value = value, .passkey = PASSKEY};
    event_queue_put(&queue, &e);
}

/* The phone's request, and before it what lets it in. */
static void put_request(void)
{
    put_event(EVENT_PAIRING_MODE, 1000, 1);
    put_event(EVENT_LINK_UP, 1100, 0);
    put_write(EVENT_KEY_BASED_WRITE, 1200, REQUEST, sizeof REQUEST);
}

/* The rest of a pairing, with a name from the phone. */
static void put_rest(void)
{
    put_write(EVENT_NAME_WRITE, 1250, NAME_WRITE, sizeof NAME_WRITE);
    put_event(EVENT_PAIRING_STARTED, 1300, DISPLAY_YES_NO);
    put_event(EVENT_CONFIRMATION_NEEDED, 1400, 0);
    put_write(EVENT_PASSKEY_WRITE, 1500, PASSKEY_BLOCK, sizeof PASSKEY_BLOCK);
    put_event(EVENT_PAIRING_ENDED, 1600, 1);
    put_write(EVENT_ACCOUNT_KEY_WRITE, 1700, ACCOUNT_KEY_BLOCK, sizeof ACCOUNT_KEY_BLOCK);
}

/* Neither a key nor a name: the device's name is still the maker's. */
static bool stored_nothing(void)
{
    return device.stored.length == sizeof EMPTY_LIST && device.name.length == sizeof MAKERS_NAME &&
           memcmp(device.name.bytes, MAKERS_NAME, sizeof MAKERS_NAME) == 0;
}

static bool named_by_the_phone(void)
{
    return device.name.length == sizeof PHONES_NAME && memcmp(device.name.bytes, PHONES_NAME, sizeof PHONES_NAME) == 0;
}

static bool request_gets_0(void)
{
    return gets(EVENT_PAIRING_MODE, FP_TAKEN) && gets(EVENT_LINK_UP, FP_TAKEN) &&
           gets(EVENT_KEY_BASED_WRITE, FP_TAKEN);
}

/* The rest with the same answer to each event. */
static bool rest_gets(uint8_t answer)
{
    return gets(EVENT_NAME_WRITE, answer) && gets(EVENT_PAIRING_STARTED, answer) &&
           gets(EVENT_CONFIRMATION_NEEDED, answer) && gets(EVENT_PASSKEY_WRITE, answer) &&
           gets(EVENT_PAIRING_ENDED, answer) && gets(EVENT_ACCOUNT_KEY_WRITE, answer);
}

static void whole_pairing(void)
{
    printf("a pairing without a loss\n");
    check(powered_on(), "power-on");
    put_request();
    put_rest();
    check(request_gets_0() && memcmp(out, RESPONSE, sizeof out) == 0, "the request gets 0, and the response expected");
    check(reply.named == FP_NAMED_PUBLIC && !reply.rotate, "it named the public address, and asks for no rotation");
    check(reply.packet_length == sizeof NAME_PACKET && memcmp(packet, NAME_PACKET, sizeof NAME_PACKET) == 0,
          "the name is sent, in the packet expected");
    check(gets(EVENT_NAME_WRITE, FP_TAKEN) && named_by_the_phone(), "the phone's name is taken");
    check(gets(EVENT_PAIRING_STARTED, FP_TAKEN) && gets(EVENT_CONFIRMATION_NEEDED, FP_TAKEN) &&
              gets(EVENT_PASSKEY_WRITE, FP_TAKEN) && reply.confirm == FP_CONFIRM_YES &&
              memcmp(out, PASSKEY_RESPONSE, sizeof out) == 0,
          "the passkey is confirmed, with the response expected");
    check(gets(EVENT_PAIRING_ENDED, FP_TAKEN) && gets(EVENT_ACCOUNT_KEY_WRITE, FP_TAKEN) &&
              device.stored.length > sizeof EMPTY_LIST && named_by_the_phone(),
          "the account key is stored");

    uint8_t shown[FP_ADVERTISEMENT_MAX];
    put_event(EVENT_PAIRING_MODE, 2000, 0);
    check(gets(EVENT_PAIRING_MODE, FP_TAKEN), "pairing mode off");
    fp_report report = fp_advertisement(device, 0, shown, sizeof shown);
    check(report.answer == FP_TAKEN && report.length == sizeof ADVERTISEMENT &&
              memcmp(shown, ADVERTISEMENT, sizeof ADVERTISEMENT) == 0,
          "the advertisement expected");
}

/* The phone's request waits in the queue, events of another link fill it up, and then events are lost. */
static void lose_events_after_the_request(void)
{
    check(powered_on(), "power-on");
    put_request();
    event other = {.kind = EVENT_LINK_UP, .link = LINK + 1, .clock = 1200};
    while (event_queue_put(&queue, &other))
        continue;
    put_event(EVENT_LINK_DOWN, 1210, 0); /* lost: the phone went away */
    put_event(EVENT_LINK_UP, 1220, 0);   /* lost: somebody else came */
}

static bool others_get_0(int count)
{
    bool right = true;
    for (int i = 0; i < count; i++)
        right = gets(EVENT_LINK_UP, FP_TAKEN) && right;
    return right;
}

/* The events of another link that wait behind the request. */
enum { OTHERS = ROOM - 3 };

static void marker_in_its_place(void)
{
    printf("a loss after the request, the marker in its place\n");
    lose_events_after_the_request();
    check(request_gets_0() && others_get_0(OTHERS), "what was queued before the loss gets 0");
    check(device.sessions[LINK].stage == FP_STAGE_ASKED, "the link holds the request's key");
    put_rest();
    check(gets(EVENT_OVERFLOW, FP_TAKEN), "the marker comes next");
    check(rest_gets(FP_LINK_IDLE) && stored_nothing(),
          "the pairing after the loss gets 9, no key is stored and no name taken");
}

/* What the queue does not do: the main loop hears of the loss and sends the marker at once. */
static void marker_sent_at_once(void)
{
    printf("the same loss, the marker sent at once: the mistake\n");
    lose_events_after_the_request();
    event marker = {.kind = EVENT_OVERFLOW};
    check(serve(&marker) == FP_TAKEN, "the marker, before what is queued");
    check(request_gets_0() && others_get_0(OTHERS), "what was queued before the loss gets 0");
    put_rest();
    event in_its_place;
    check(event_queue_take(&queue, &in_its_place) && in_its_place.kind == EVENT_OVERFLOW,
          "the marker in its place is thrown away");
    check(rest_gets(FP_TAKEN) && named_by_the_phone() && device.stored.length > sizeof EMPTY_LIST,
          "the pairing after the loss gets 0, a key is stored and a name taken");
}

/* Who does not know the place: a marker before every event and one at the end. */
static void marker_everywhere(void)
{
    printf("the same loss, a marker before every queued event\n");
    lose_events_after_the_request();
    event marker = {.kind = EVENT_OVERFLOW}, e;
    bool right = true;
    while (event_queue_take(&queue, &e))
        if (e.kind != EVENT_OVERFLOW)
            right = serve(&marker) == FP_TAKEN && serve(&e) == FP_TAKEN && right;
    check(right && serve(&marker) == FP_TAKEN, "what was queued before the loss gets 0");
    put_rest();
    check(rest_gets(FP_LINK_IDLE) && stored_nothing(),
          "the pairing after the loss gets 9, no key is stored and no name taken");
}

int main(void)
{
    boundaries(0);
    boundaries(UINT_MAX - EVENT_QUEUE_SLOTS / 2);
    wrap_around();
    beside_a_list();
    long_writes();
    whole_pairing();
    marker_in_its_place();
    marker_sent_at_once();
    marker_everywhere();
    return all_checked();
}
