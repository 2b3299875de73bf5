/* The Fast Pair provider core, for C firmware.
 *
 * Link with libfastpair.a; tools/install puts both where pkg-config finds them. The core keeps nothing of its own: no
 * heap, no globals, no locks. All state is in an fp_device, which you hold and hand in by value; every event gives back
 * the next one. Keep that, drop the old one:
 *
 *     fp_device device = fp_off();
 *     fp_outcome o = fp_power_on(device, list, list_length, name, name_length, start);
 *     device = o.next;
 *     if (o.reply.answer != FP_TAKEN) ...
 *
 * The calls are reentrant: each works on its arguments alone, so one may interrupt another. The events of one device
 * still go one after the other, since each needs the device that the last one gave back. The archive is for x86-64, the
 * only target of its compiler today, and needs memcpy, memmove and memset.
 *
 * You check nothing first. Any bytes, any length, any link number and any clock get one answer, and a refusal writes
 * nothing to lent memory. The rules are in docs/RULES.md; that these functions keep them is proved.
 *
 * Memory: every pointer is lent for the call alone, and nothing is kept of it. A pointer with a length may be anything if
 * the length is 0. An output overlaps no input and no other output of the same call. A pointer to a fixed number of bytes,
 * as salt[9], points to that many. It is never null, also where the event is refused.
 *
 * Byte order: addresses and the model ID have their most significant byte first, as they are printed. The usual BLE
 * stacks hold addresses the other way round: turn them. With the wrong order no request fits: ten requests get 7, and
 * then every request gets 5 for five minutes.
 *
 * Salts and nonces: every salt and every nonce that you hand in is fresh random bytes, drawn for this one call. Take them
 * from a generator that is fit for keys. Of two names under one key and one nonce, a listener learns the difference.
 *
 * Clock: milliseconds in 64 bits. It never goes back while the device is on. Power-on sets the stored clock to 0, so
 * your counter may start again there. An event below the stored clock gets 4 and drops the key of every link. One huge
 * value makes all later events 4 until the next power-on. So does a 32-bit counter that wraps, after 49.7 days: count its
 * wraps in the upper half. Do not use the time of day, which may be set back.
 *
 * Timers: the core has no interrupt of its own. A key whose 10,000 ms are over is dropped by the next event with a
 * clock, on any link, and can be read in the fp_device until then.
 *
 * Links: a link is a number from 0 to 7, and a connection handle is none. Keep a table that gives every open connection a
 * number of its own. Two connections with one number would share a key. A number is free again after fp_link_down. Do not
 * serve a ninth connection.
 *
 * GATT: acknowledge a refused write as any other, and send no notification. Fast Pair says to ignore such a write; an
 * error code would tell a stranger which check failed. With FP_TAKEN notify the response, if the event has one. If
 * reply.packet_length is not 0, the phone asked for the device's name: after the response, notify that many bytes of
 * `packet` on the Additional Data characteristic, FE2C1237-8366-4814-8EB0-01DE32100BEA. What a phone writes to that
 * characteristic is a new name, for fp_name_write. A packet goes in one notification, so 80 bytes need an ATT MTU of 83.
 *
 * Name: the device holds a name of 0 to 64 bytes of UTF-8: whole characters, no overlong form, no surrogate, nothing above
 * U+10FFFF. A zero byte is a character as any other and does not end the name. If an earlier product had longer names, do
 * not cut one in the middle of a character: what is left would be no UTF-8.
 *
 * First boot: hand fp_power_on a list without keys, the four bytes 00 02 02 00, and the name that the maker gives the
 * device, or an empty one (NULL, 0). Begin with fp_off(): a device filled with zeros is another value, its list is no
 * list, and it gets 255.
 *
 * Order of use: the account keys stand in the order in which they were last used, the most recent last. A key is used
 * when it is stored, when it is written again, and when a request of 16 bytes under it is accepted. It then moves to the
 * end, and the others keep their order. Ten keys are held at most (FP_MAX_KEYS). If a new key is stored in a full list,
 * the first is removed: the least recently used.
 *
 * Saving: save the stored list, `next.stored`, and hand it in at the next power-on. It may have changed after these calls,
 * if they got FP_TAKEN, and after nothing else:
 *
 *     fp_account_key_write    the key was stored, or it was held already and moved to the end
 *     fp_key_based_write      with a request of 16 bytes: the key that fits moved to the end; no key came or went
 *     fp_factory_reset        every key is gone
 *
 * A power-on with FP_TAKEN gives the list that was handed in, unless firmware before 4.5.0 wrote it (see "Update" below).
 * Save the list if it differs from what you saved last, and only then: keep a copy of that (memcmp over the whole struct
 * tells). Do not compare with the device before: a change that was not saved at once would be missed. Save so that a power
 * cut leaves the old list or the new one.
 *
 * After fp_account_key_write and fp_factory_reset save before you serve the next event. A power cut before that loses the
 * new owner's key, or brings removed keys back. After fp_key_based_write only the order can have changed, and you may put
 * the save off: until the phone's link is down, or the device is switched off. A power cut before the save brings back the
 * order of the last one. No key is lost by that and none comes back, but a new owner may then remove one who used the
 * device more recently than another. Firmware that never saves after a request keeps its owners too, and forgets these
 * uses at every power-on.
 *
 * Update: the third byte of a stored list is its version. Firmware before 4.5.0 held five keys and wrote version 0x01.
 * Such a list is still read, with at most five keys, as the same keys in the same order. What is written is always version
 * 0x02, so after power-on `next.stored` has that byte changed and no other: the rule above saves it then. Firmware before
 * 4.5.0 answers 14 to version 0x02, and the owners would have to pair again. If an update may be taken back, keep the old
 * list beside the new one until it is final. Your room for the saved list and your outputs grow: see FP_STORED_LIST_MAX
 * and FP_ADVERTISEMENT_MAX.
 *
 * Flash wear: a request under the key that is last already changes nothing. One phone that connects again and again costs
 * no save; two that take turns cost one each time. A recorded request that is sent again gets 8 while its salt is
 * remembered: until 16 other requests were accepted, or until power-on. After that it counts as a use, if the address in
 * it is still the device's. If your flash bears few writes, limit how often you save the order alone.
 *
 * Save the name too, before you serve the next event, and hand it in at power-on. It may have changed after an
 * fp_name_write that got FP_TAKEN and after an fp_factory_reset that got FP_TAKEN, and after nothing else: compare
 * `next.name` with what you saved last (memcmp over the whole struct tells). A factory reset leaves an empty name, and the
 * maker's does not come back by itself: if you want it back, hand it in at the next power-on in place of an empty one.
 *
 * Filter: the device keeps the account key filter that it advertises, `next.filter`. The core builds it anew when the
 * salt or the keys change: at power-on, at a rotation, when a new key is stored, and at a factory reset, each with
 * FP_TAKEN. No other event touches it. So fp_advertisement only copies it, and may be asked for as often as you like. You
 * do not save the filter: power-on builds it. Nothing checks it when a device is handed in, since to check it is to build
 * it: a device whose filter you changed advertises it so, and phones may not find their key, until one of these events.
 * Hand in the device that the last call gave back, and the filter is right.
 *
 * Rotation: an accepted request named one of the device's two addresses, and reply.named says which; if both are equal, the
 * BLE address. A phone that named the BLE address asks for another one: reply.rotate is true. Have the radio change its
 * address, and tell the core by fp_address_rotated. Until then `next.rotation_awaited` is 1, and every key-based write gets
 * FP_ROTATION_AWAITED (16): of 16 and of 80 bytes, on every link, whoever sends it. It is not tried, and no failure is
 * counted. The pairing that the accepted request began goes on meanwhile, and so do those of other links.
 *
 * These calls end the wait if they get FP_TAKEN, and nothing else does:
 *
 *     fp_address_rotated    also with the address that the device has already
 *     fp_power_on
 *     fp_factory_reset
 *
 * Time does not end it, nor a link that goes up or down, pairing mode, an overflow marker, or one of these calls that was
 * refused. If the radio never rotates, no request is accepted any more until power-on or a factory reset: no owner connects
 * and nobody pairs. So rotate as soon as the response was notified. If rotation is put off, expect 16 to other phones until
 * then.
 *
 * If the rotation is among events that your queue lost, the device waits on, and has the old address: the marker does not
 * tell it. So after fp_overflow, if `next.rotation_awaited` is 1, call fp_address_rotated with the address that the radio
 * has, and a fresh salt.
 *
 * In pairing mode Fast Pair says not to rotate, but the core asks for it there too. A request of 80 bytes that named the
 * BLE address and was accepted has to be followed by fp_address_rotated: if that phone, or another, tries again before, it
 * gets 16. If your radio must keep its address in pairing mode, hand in the address that it has, with a fresh salt.
 *
 * Secrets: an fp_device holds the session keys and the owners' account keys, and an fp_stored the account keys. Wipe every
 * old copy that you leave, with a function that the compiler does not remove (as explicit_bzero). The core does not wipe
 * the stack that its calls used.
 *
 * Recording: a test build can write down what it hands to the core, and fp_replay prints later what each event was
 * answered. docs/RECORDING.md has the layout. Product firmware does not record: a recording holds the owners' keys, the
 * secret of every pairing and the device's addresses. docs/RECORDING.md says how to handle one. Wipe every copy.
 *
 * Record where events are taken out of the queue: each one that is handed to the core, in that order, power-ons and
 * overflow markers included, and nothing else. The record is written before the event is served or after it, with the same
 * arguments, the salts and the nonce too:
 *
 *     uint8_t record[FP_RECORD_MAX];
 *     fp_report r = fp_record_link_up(link, clock, record, sizeof record);
 *     if (r.answer == FP_TAKEN) append r.length bytes of `record` to the recording
 *     fp_outcome o = fp_link_up(device, link, clock);
 *
 * Where the record got 2 or 13, or your own store is full, the event is missing. Put the record of a marker
 * (fp_record_overflow, 4 bytes) in its place, and keep room for it: else the replay joins what did not stand together.
 * examples/recorder.c is a recorder that does so.
 *
 * Begin at a power-on: before the first one that is taken the replay has no device. If every event from a taken power-on
 * on is in the recording, a replay by the same build shows the answers that the events got. After a power-on that was
 * refused serve no events until one is taken, as fp_power_on says: the replay would go on with the device that it has.
 *
 * Replaying: the program fp_replay reads files and standard input. A tool that has the recording from elsewhere, as that of
 * a debug probe, feeds the replay itself, in parts as they come. All state is in an fp_replay, which you hold and hand in
 * by value; every call gives back the next one:
 *
 *     fp_replay replay = fp_replay_start();
 *
 *     for every part that comes, `length` bytes:
 *         for (size_t at = 0; at < length;) {
 *             fp_fed fed = fp_replay_feed(replay, part, length, at);
 *             replay = fed.next;
 *             at = fed.at;
 *             if (fed.status == FP_LINE_SHOWN) print fed.line
 *         }
 *
 *     when the recording has ended, once:
 *         fp_fed fed = fp_replay_end(replay);
 *         if (fed.status == FP_LINE_SHOWN) print fed.line
 *
 * A call gives at most one line, and says where the next call goes on in the same part. The lines of all parts and of the
 * end are those of the joined recording, wherever it was divided: that is proved. The program of the same version prints
 * the same.
 *
 * A part is any bytes: some of a record, many records, or none. It may end anywhere, also within a length field. An empty
 * part gives no line and changes nothing. It is not the end: if the probe has nothing at the moment, go on. The recording
 * ends with fp_replay_end, and with nothing else.
 *
 * The line of a record comes with the record's last byte. A record of more than 1,024 bytes after its length field is
 * skipped and is one marker, however it is divided: its bytes are not kept, and its line, too, comes with the last of them.
 * If the recording ends within a record, that is a cut record: fp_replay_end gives the line of one marker, also if the
 * record is too long as well. If it ends behind a whole record, or is empty, fp_replay_end gives no line.
 *
 * A part is lent for the call alone and never written. The fp_replay keeps what it needs of it: at most one record that is
 * not whole yet. It has 1,768 bytes, however long the recording is. You check nothing first: any bytes have their lines,
 * and an fp_replay that is none gets FP_NOT_A_REPLAY, with which the loop above ends too.
 *
 * An fp_replay holds the owners' keys and bytes of the recording: it is a secret as the recording is. Wipe every old copy
 * that you leave, those in an fp_fed and the parts too. Only a program that calls these functions links them: firmware
 * has nothing of the replay in it. examples/probe.c is a whole tool.
 */
#ifndef FASTPAIR_H
#define FASTPAIR_H

#include <stdbool.h>
#include <stddef.h>
#include <stdint.h>

/* The version of this interface; docs/CHANGES.md says what changed. */
#define FP_VERSION "4.7.0"
#define FP_VERSION_MAJOR 4
#define FP_VERSION_MINOR 7
#define FP_VERSION_PATCH 0

#ifdef __cplusplus
extern "C" {
#endif

/* ---- answers: the rules' numbers, and one of this interface */
enum {
    FP_TAKEN = 0,
    FP_UNKNOWN_LINK = 1,        /* link above 7; nothing changes */
    FP_WRONG_LENGTH = 2,        /* key-based write not 16 or 80 bytes, or name write not 16 to 80; nothing changes. Of
                                   fp_record_..: the record would be longer than FP_RECORD_MAX */
    FP_PASSKEY_TOO_LARGE = 3,   /* our passkey above 999,999; nothing changes */
    FP_CLOCK_WENT_BACK = 4,     /* clock below the stored clock; every link's key is dropped, the clock stays: after one
                                   huge value every event gets this until power-on */
    FP_LOCKED_OUT = 5,          /* ten failures were counted, the last less than 300,000 ms ago; from 300,000 ms on
                                   requests are tried again */
    FP_NOT_IN_PAIRING_MODE = 6, /* 80 bytes while pairing mode is off */
    FP_NO_KEY_FITS = 7,         /* no candidate fits; one more failure is counted. If every request gets this, look at the
                                   byte order of the addresses */
    FP_SALT_SPENT = 8,          /* a key fits, and the request's salt is one of the last 16 */
    FP_LINK_IDLE = 9,           /* a pairing, passkey, name or account key event on an idle link. A link becomes idle
                                   10,000 ms after a request was accepted, after a confirmation was needed, and after a
                                   pairing ended with success, if the next step did not come (9,999 ms is in time) */
    FP_WRONG_STAGE = 10,        /* the link is in another stage than this event needs (a name write: it is paired); its
                                   key is dropped */
    FP_CAPABILITY_REFUSED = 11, /* capability 3 or above 4; the link's key is dropped */
    FP_BAD_BLOCK = 12,          /* block not 16 bytes, or another first byte; the link's key is dropped */
    FP_OUTPUT_TOO_SHORT = 13,   /* a lent output is too short; nothing changes. A key-based write asks for 16 and 80 bytes
                                   in every call */
    FP_LIST_MALFORMED = 14,     /* at power-on: the stored list is malformed, or the name is none (above 64 bytes, not
                                   UTF-8); the device handed in comes back: see fp_power_on */
    FP_NAME_REFUSED = 15,       /* name write with a wrong tag, or with a name that is not UTF-8; the old name stays, and so
                                   do the link's key, stage and timer */
    FP_ROTATION_AWAITED = 16,   /* key-based write while the device waits for the radio to rotate the BLE address; no failure
                                   is counted: see "Rotation" above */
    FP_NOT_A_DEVICE = 255       /* the fp_device handed in is none; it comes back as it was, nothing is written */
};

/* ---- stages of a link */
enum {
    FP_STAGE_IDLE = 0,
    FP_STAGE_ASKED = 1,
    FP_STAGE_PAIRING = 2,
    FP_STAGE_CONFIRMING = 3,
    FP_STAGE_PROVED = 4,
    FP_STAGE_PAIRED = 5
};

/* what the radio is to do with the passkey: it confirms with FP_CONFIRM_YES, and with nothing else */
enum { FP_CONFIRM_UNASKED = 0, FP_CONFIRM_YES = 1, FP_CONFIRM_NO = 2 };

/* the address that an accepted request named: if both addresses are equal, the BLE address */
enum { FP_NAMED_NEITHER = 0, FP_NAMED_BLE = 1, FP_NAMED_PUBLIC = 2 };

enum { FP_LINKS = 8, FP_MAX_KEYS = 10, FP_MAX_SALTS = 16, FP_RESPONSE_SIZE = 16 };

/* the longest stored list and the longest advertisement, with FP_MAX_KEYS keys: outputs of these sizes always do. Beside
 * Flags (3 bytes) this advertisement leaves 4 of the 31 bytes of a legacy advertising packet */
enum { FP_STORED_LIST_MAX = 164, FP_ADVERTISEMENT_MAX = 24 };

/* the longest account key filter, with FP_MAX_KEYS keys; four bits of the payload say its length */
enum { FP_FILTER_MAX = 15 };

/* the longest name, and the longest packet with a name: a tag of 8 bytes, a nonce of 8, and the name encrypted */
enum { FP_NAME_MAX = 64, FP_PACKET_MAX = 80 };

/* the longest record of an event: a length field of 2 bytes, and at most 1,024 after it */
enum { FP_RECORD_MAX = 1026 };

/* the kinds of event: the kind byte of a record, and fp_line.kind; docs/RECORDING.md has the name of each */
enum {
    FP_KIND_MARKER = 0x01,
    FP_KIND_LINK_UP = 0x02,
    FP_KIND_LINK_DOWN = 0x03,
    FP_KIND_PAIRING_MODE = 0x04,
    FP_KIND_ADDRESS_ROTATED = 0x05,
    FP_KIND_POWER_ON = 0x06,
    FP_KIND_FACTORY_RESET = 0x07,
    FP_KIND_KEY_BASED_WRITE = 0x08,
    FP_KIND_PAIRING_STARTED = 0x09,
    FP_KIND_CONFIRMATION_NEEDED = 0x0A,
    FP_KIND_PASSKEY_WRITE = 0x0B,
    FP_KIND_PAIRING_ENDED = 0x0C,
    FP_KIND_ACCOUNT_KEY_WRITE = 0x0D,
    FP_KIND_NAME_WRITE = 0x0E
};

/* what came of feeding the replay: fp_fed.status */
enum {
    FP_PART_READ = 0,     /* no line: the part is read to its end. Of fp_replay_end: the recording ended behind a whole
                             record, or was empty */
    FP_LINE_SHOWN = 1,    /* fp_fed.line is the line of one event */
    FP_NOT_A_REPLAY = 255 /* the fp_replay handed in is none; it comes back as it was, there is no line, and nothing of the
                             part is read: `at` is behind it, so that a loop over it ends */
};

/* ---- types */

/* A Bluetooth address, most significant byte first, as it is printed and as a request names it. Most BLE stacks hold the
 * reverse. A0:B1:C2:D3:E4:F5 is {0xA0, 0xB1, 0xC2, 0xD3, 0xE4, 0xF5}. */
typedef struct {
    uint8_t bytes[6];
} fp_address;

/* A request's salt: its first `length` bytes, 2 or 8. */
typedef struct {
    uint8_t length;
    uint8_t bytes[8];
} fp_salt;

/* The salts of the last accepted requests, oldest first. */
typedef struct {
    fp_salt salts[FP_MAX_SALTS];
    uint64_t count;
} fp_spent_salts;

/* One link: the moment its stage began, our passkey while it is to be confirmed, its stage and its session key. An idle
 * link has zeros: nothing of a dropped key stays in it. */
typedef struct {
    uint64_t since;
    uint32_t passkey;
    uint8_t stage;
    uint8_t key[16];
    uint8_t reserved[3];
} fp_session;

/* The owners' account keys as the stored list, ready to be saved: the first `length` bytes; the others are zero. The keys
 * stand in order of use: the first is the least recently used, and the next to be removed from a full list. */
typedef struct {
    uint64_t length;
    uint8_t bytes[FP_STORED_LIST_MAX];
    uint8_t reserved[4];
} fp_stored;

/* The device's name, ready to be saved: the first `length` bytes, UTF-8; the others are zero. No zero byte ends it. */
typedef struct {
    uint64_t length;
    uint8_t bytes[FP_NAME_MAX];
} fp_name;

/* What power-on fixes. */
typedef struct {
    fp_address public_address;
    uint8_t model[3];  /* most significant byte first: model 123456 hex is {0x12, 0x34, 0x56} */
} fp_identity;

/* A device: read it as you like, hand it in as you got it. It has no padding: no unused or reserved byte keeps
 * anything of a dropped key (an owner's key stays in `stored`), and equal devices are equal byte by byte.
 *
 * FP_NOT_A_DEVICE is the answer to a `stored` that is no stored list, a `name` that is none (a length above 64, or not
 * UTF-8), more than 16 salts, a remembered salt of other than 2 or 8 bytes, more than 10 failures, a stage above
 * FP_STAGE_PAIRED, a `pairing` or `rotation_awaited` above 1, and a `rotation_awaited` of 1 while `failures` is not 0: the
 * request that began the wait set them to 0, and none is counted during it. Any other bytes are served by the rules as they stand, those of `filter` too: it
 * is not compared with the keys and the salt (see "Filter" above). Not looked at, and zero in the device that comes back:
 * the fields of an idle link, salts past `count`, bytes of a salt, of the list and of the name past their lengths,
 * `failed_at` while `failures` is 0, and what is reserved. With FP_NOT_A_DEVICE every byte comes back as it was. */
typedef struct {
    uint64_t clock;
    fp_session sessions[FP_LINKS];
    fp_spent_salts spent;
    uint64_t failed_at;  /* the moment of the last counted failure */
    fp_stored stored;
    fp_name name;
    fp_identity identity;
    fp_address ble;
    uint8_t salt[2];     /* of the advertised filter */
    uint8_t filter[FP_FILTER_MAX]; /* the filter of the account keys with this salt, 3 + 6 n / 5 bytes for n keys, also
                                      in pairing mode; the others are zero, and so are all without a key */
    uint8_t pairing;     /* 1 in pairing mode */
    uint8_t failures;    /* requests in a row that no key fitted */
    uint8_t rotation_awaited; /* 1 from an accepted request that named the BLE address to the rotation: requests get 16 */
    uint8_t reserved[5];
} fp_device;

/* What power-on is given besides the stored list and the name. */
typedef struct {
    fp_identity identity;
    fp_address ble;
    uint8_t salt[2];  /* of the advertised filter: two random bytes, fresh at every power-on */
} fp_start;

/* The address that a seeker asks to be bonded with, if it asks; else zeros. */
typedef struct {
    bool wanted;
    fp_address address;
} fp_bond;

/* All that an answer hands out. `tried` is the number of account keys (or the one shared key) that were tried. If an
 * account key fits, it is that key's place, counted from 1, in the list of the device that was handed in: before the key
 * moved to the end. An owner's place changes with use, so it is no number for an owner.
 * `packet_length` is 16 to 80 if a key-based write left a packet with the name of that length, and 0 if there is none.
 * `named` is FP_NAMED_BLE or FP_NAMED_PUBLIC for an accepted request, and FP_NAMED_NEITHER for every other answer. `rotate`
 * is true for FP_NAMED_BLE alone: the radio is to rotate the BLE address (see "Rotation" above). */
typedef struct {
    uint8_t answer;
    uint8_t tried;
    uint8_t confirm;
    uint8_t packet_length;
    uint8_t named;
    bool rotate;
    fp_bond bond;
} fp_reply;

typedef struct {
    fp_device next;
    fp_reply reply;
    uint8_t reserved[3];
} fp_outcome;

/* FP_TAKEN and the number of bytes written, or another answer and 0. */
typedef struct {
    uint64_t length;
    uint8_t answer;
    uint8_t reserved[7];
} fp_report;

/* What the secure element made of the public key in an 80-byte request: its secret, or a rejected point (accepted 0). A
 * 16-byte request never reads it. */
typedef struct {
    uint8_t accepted;
    uint8_t secret[32];
} fp_element;

/* A replay between two calls: read it as you like, hand it in as you got it. It has no padding, and equal replays are equal
 * byte by byte.
 *
 * FP_NOT_A_REPLAY is the status for a `device` that is none (see fp_device), a `started` above 1, a `held` above 1,025, a
 * `held` and a `skip` that are both not 0, and held bytes that are no beginning of a record: two or more, whose length
 * field says more than 1,024, or no more than stand behind it already. Any other bytes are replayed as they stand, those of
 * `number` and of a `skip` that no record would leave too, and so is a device with `started` 0: it gets no event, and comes
 * back until a power-on is taken. Not looked at, and zero in the replay that comes back: bytes of `unfinished` past `held`,
 * what is reserved, and of the device what fp_device names. With FP_NOT_A_REPLAY every byte comes back as it was. */
typedef struct {
    fp_device device;                  /* after the last event; fp_off() before the first power-on that is taken */
    uint64_t number;                   /* of the last event, in 64 bits: how many lines there were */
    uint64_t held;                     /* how many bytes of `unfinished` are in use, 0 to 1,025 */
    uint64_t skip;                     /* bytes of a record that is too long, still to be skipped; if not 0, `held` is 0 */
    uint8_t unfinished[FP_RECORD_MAX]; /* the record that is not whole yet, with its length field: the first `held` bytes;
                                          the others are zero */
    uint8_t started;                   /* 1 once a power-on was taken */
    uint8_t reserved[5];
} fp_replay;

/* The line of one event, as the program prints it; all zeros where there is none. Before the first power-on that is taken
 * there is no device: every event, marker too, has answer 14 and 0 keys. */
typedef struct {
    uint64_t number; /* the event's, from 1 on */
    uint64_t keys;   /* how many account keys the list then holds */
    uint8_t kind;    /* FP_KIND_.. */
    uint8_t answer;  /* 0 to 16 */
    uint8_t reserved[6];
} fp_line;

typedef struct {
    fp_replay next;
    fp_line line;   /* with FP_LINE_SHOWN, else zeros */
    uint64_t at;    /* where the next call goes on in the same part */
    uint8_t status; /* FP_PART_READ, FP_LINE_SHOWN or FP_NOT_A_REPLAY */
    uint8_t reserved[7];
} fp_fed;

/* The archive's layout on x86-64, where alone it links: a compiler that lays these out otherwise stops here. */
#if !defined(__x86_64__) || defined(__ILP32__) || defined(_WIN32)
#error "libfastpair.a is for x86-64 with 64-bit pointers and System V calls. There is no archive for this target."
#else
#if defined(__cplusplus)
#define FP_LAYOUT(what) static_assert(what, #what)
#else
#define FP_LAYOUT(what) _Static_assert(what, #what)
#endif
FP_LAYOUT(sizeof(fp_session) == 32 && offsetof(fp_session, key) == 13);
FP_LAYOUT(sizeof(fp_spent_salts) == 152 && offsetof(fp_spent_salts, count) == 144);
FP_LAYOUT(sizeof(fp_stored) == 176 && offsetof(fp_stored, bytes) == 8);
FP_LAYOUT(sizeof(fp_name) == 72 && offsetof(fp_name, bytes) == 8);
FP_LAYOUT(sizeof(fp_device) == 712 && offsetof(fp_device, spent) == 264);
FP_LAYOUT(offsetof(fp_device, name) == 600 && offsetof(fp_device, filter) == 689 && offsetof(fp_device, failures) == 705);
FP_LAYOUT(offsetof(fp_device, rotation_awaited) == 706);
FP_LAYOUT(sizeof(fp_start) == 17 && sizeof(fp_element) == 33 && sizeof(fp_bond) == 7);
FP_LAYOUT(sizeof(fp_reply) == 13 && offsetof(fp_reply, packet_length) == 3 && offsetof(fp_reply, named) == 4);
FP_LAYOUT(offsetof(fp_reply, rotate) == 5 && offsetof(fp_reply, bond) == 6);
FP_LAYOUT(sizeof(fp_outcome) == 728 && sizeof(fp_report) == 16);
FP_LAYOUT(sizeof(fp_replay) == 1768 && offsetof(fp_replay, held) == 720 && offsetof(fp_replay, unfinished) == 736);
FP_LAYOUT(offsetof(fp_replay, started) == 1762 && sizeof(fp_line) == 24 && offsetof(fp_line, kind) == 16);
FP_LAYOUT(sizeof(fp_fed) == 1808 && offsetof(fp_fed, at) == 1792 && offsetof(fp_fed, status) == 1800);
#undef FP_LAYOUT
#endif

/* ---- power-on and what concerns no single link */

/* The value before any device was made: zeros, so an empty name too, and the empty list 00 02 02 00 of length 4 in
 * `stored`. A device filled with zeros has no such list: every call gives it 255. */
fp_device fp_off(void);

/* Starts from the stored list as fp_stored_list wrote it, and from the name as it was saved: `name_length` bytes, 0 to 64.
 * At first boot these are 00 02 02 00 and the maker's name or none. A list of version 0x01, from firmware before 4.5.0, is
 * read too (00 02 01 00 without a key); with more than five keys it is malformed, as is every other version. The list's
 * order is taken as order of use. The clock becomes 0, and start.salt is two fresh random bytes. FP_TAKEN,
 * FP_LIST_MALFORMED or FP_NOT_A_DEVICE.
 *
 * After FP_LIST_MALFORMED no device was made, and the one handed in comes back. Serve no events with fp_off(). The same
 * bytes get the same answer again: try a second copy if you keep one. It may be the list or the name. Try the list with an
 * empty name (NULL, 0) first: if that is taken, only the name was bad. Else the list is bad: power on with 00 02 02 00 and
 * the name, and at last with 00 02 02 00 and an empty name, which is always taken. Save what was taken. With the list the
 * owners' keys are lost, and they pair again. */
fp_outcome fp_power_on(fp_device device, const uint8_t *stored, size_t stored_length, const uint8_t *name,
                       size_t name_length, fp_start start);

/* Events were lost: every link's key is dropped. FP_TAKEN for every device.
 *
 * Send it at the place of the loss: after every event that was queued before the loss, and before every event that was
 * queued after it. Never send it at once while older events still wait in the queue. Suppose a request is queued, then
 * events are lost, then "pairing started" is queued. The marker in its place drops the key that the request made, and
 * "pairing started" gets 9. The marker sent at once finds no key to drop; the request then makes its key, and "pairing
 * started" gets 0. An old proof is joined to a new pairing: a link down and a link up may be among what was lost.
 *
 * If you do not know the place, send one marker before every event that is still queued and one after the last. Extra
 * markers only take away: at worst a phone begins its pairing again. examples/event_queue.c is a queue that knows the
 * place. */
fp_outcome fp_overflow(fp_device device);

/* `on` is 0 for off, and any other number for on. */
fp_outcome fp_pairing_mode(fp_device device, uint8_t on, uint64_t clock);

/* A new BLE address, and with it the new salt of the advertised filter: two random bytes, fresh at every rotation. With
 * FP_TAKEN the filter is built anew, and requests are no longer answered 16, also if the address is the one that it was.
 * FP_CLOCK_WENT_BACK changes neither. */
fp_outcome fp_address_rotated(fp_device device, fp_address ble, const uint8_t salt[2], uint64_t clock);

/* Forgets the owners' keys, the spent salts, the failures, every link's key and the name, which is empty then; no rotation
 * is awaited any more. With FP_TAKEN save the stored list and the name, each if it is not what you saved last. */
fp_outcome fp_factory_reset(fp_device device, uint64_t clock);

/* ---- events on a link, 0 to 7; `clock` is in milliseconds and never goes back while the device is on */

/* Both drop the link's key, also when repeated. */
fp_outcome fp_link_up(fp_device device, uint8_t link, uint64_t clock);
fp_outcome fp_link_down(fp_device device, uint8_t link, uint64_t clock);

/* A write to the key-based pairing characteristic. `salt` is nine random bytes for the response and `nonce` eight for the
 * packet, fresh at every call, also if no name is sent.
 *
 * With FP_TAKEN the response's 16 bytes stand at the front of `out`, and "pairing started" has to come in less than
 * 10,000 ms. If the phone asked for the name (flag 0x20), the packet stands at the front of `packet`, and
 * reply.packet_length is its length: 16 and the name's length. Notify `out` first and then the packet, on the Additional
 * Data characteristic. If it did not ask, and with every other answer, reply.packet_length is 0 and `packet` is untouched.
 *
 * With FP_TAKEN and a request of 16 bytes the key that fits is the last of next.stored. Save the list if it is not what
 * you saved last; since only the order changed, that may be put off (see "Saving" above). A request of 80 bytes and every
 * refusal leave the list as it was.
 *
 * The outputs need FP_RESPONSE_SIZE and FP_PACKET_MAX bytes, in every call: else 13. They do not overlap.
 *
 * With FP_TAKEN and reply.rotate the radio is to rotate, and requests get 16 until fp_address_rotated (see "Rotation"
 * above).
 *
 * Ten requests in a row that no key fits get 7. All requests then get 5, until 300,000 ms after the tenth. */
fp_outcome fp_key_based_write(fp_device device, uint8_t link, uint64_t clock, const uint8_t *request,
                              size_t request_length, fp_element element, const uint8_t salt[9], const uint8_t nonce[8],
                              uint8_t *out, size_t out_length, uint8_t *packet, size_t packet_length);

/* A write to the Additional Data characteristic: a packet with a new name, under the link's key. It may come from an
 * accepted request to the end of the pairing, and more than once. FP_TAKEN and FP_NAME_REFUSED leave the link's key, stage
 * and timer as they are. An idle link gets 9. After a pairing that ended with success it gets 10.
 *
 * With FP_TAKEN the name is next.name: save it if it is not what you saved last. A packet of 16 bytes makes it empty.
 * There is no response to notify. */
fp_outcome fp_name_write(fp_device device, uint8_t link, uint64_t clock, const uint8_t *packet, size_t packet_length);

/* The phone asked to pair; `capability` is its IO capability byte. No timer runs until a confirmation is needed. */
fp_outcome fp_pairing_started(fp_device device, uint8_t link, uint64_t clock, uint8_t capability);

/* The radio has a passkey to compare: ours. With FP_TAKEN the passkey write has to come in less than 10,000 ms. */
fp_outcome fp_confirmation_needed(fp_device device, uint8_t link, uint64_t clock, uint32_t passkey);

/* A write to the passkey characteristic. `salt` is twelve random bytes for the response, fresh at every call. With
 * FP_TAKEN the response's 16 bytes stand at the front of `out`, and reply.confirm tells the radio yes or no. After yes no
 * timer runs until the pairing ended. */
fp_outcome fp_passkey_write(fp_device device, uint8_t link, uint64_t clock, const uint8_t *block, size_t block_length,
                            const uint8_t salt[12], uint8_t *out, size_t out_length);

/* `success` is 0 for a pairing that failed, and any other number for one that succeeded. After a success with FP_TAKEN
 * the account key write has to come in less than 10,000 ms. */
fp_outcome fp_pairing_ended(fp_device device, uint8_t link, uint64_t clock, uint8_t success);

/* A write to the account key characteristic. With FP_TAKEN the key that was written is the last of next.stored: a new one,
 * for which the first is removed if FP_MAX_KEYS were held, or one that was held already and moved to the end. Save the list
 * before the next event if it is not what you saved last: a key that was last already leaves it as it was. */
fp_outcome fp_account_key_write(fp_device device, uint8_t link, uint64_t clock, const uint8_t *block,
                                size_t block_length);

/* ---- questions: they change nothing and need no clock */

/* The advertising data, one AD structure; `hide` is 0 to show the pairing prompt, and any other number to hide it. The
 * filter is the device's, copied: nothing is hashed. The order of the keys changes no byte of it, so it is the same before
 * and after an accepted request. */
fp_report fp_advertisement(fp_device device, uint8_t hide, uint8_t *out, size_t out_length);

/* The stored list, for memory that lasts: version 0x02. */
fp_report fp_stored_list(fp_device device, uint8_t *out, size_t out_length);

/* ---- recording: the record of one event, as docs/RECORDING.md lays it out (see "Recording" above)
 *
 * There is one function for each event, with that event's arguments. No device goes in: what it would answer is not asked,
 * so any link, clock, passkey and length is recorded. `record` is the output, and overlaps no input. The answers:
 *
 *     FP_WRONG_LENGTH      the record would have more than 1,024 bytes after its length field: nothing is written
 *     FP_OUTPUT_TOO_SHORT  else, if `record_length` is less than the whole record: nothing is written
 *     FP_TAKEN             else. The record stands at the front of `record`, and the bytes behind it stay as they were
 *
 * With FP_TAKEN fp_report.length is the whole length of the record, its length field included; else it is 0. An output of
 * FP_RECORD_MAX bytes is never too short. A GATT write has at most 512 bytes, and so is never too long. */

/* Events were lost: 4 bytes. Also what stands for an event that could not be recorded. */
fp_report fp_record_overflow(uint8_t *record, size_t record_length);

/* The stored list and the name are recorded as they are handed in, also if they are malformed: FP_WRONG_LENGTH if they have
 * more than 1,003 bytes together. The record holds every account key. */
fp_report fp_record_power_on(const uint8_t *stored, size_t stored_length, const uint8_t *name, size_t name_length,
                             fp_start start, uint8_t *record, size_t record_length);

/* 13 bytes. */
fp_report fp_record_link_up(uint8_t link, uint64_t clock, uint8_t *record, size_t record_length);
fp_report fp_record_link_down(uint8_t link, uint64_t clock, uint8_t *record, size_t record_length);

/* 13 bytes. Any number but 0 is on, and is recorded as 1. */
fp_report fp_record_pairing_mode(uint8_t on, uint64_t clock, uint8_t *record, size_t record_length);

/* 20 bytes. */
fp_report fp_record_address_rotated(fp_address ble, const uint8_t salt[2], uint64_t clock, uint8_t *record,
                                    size_t record_length);

/* 12 bytes. */
fp_report fp_record_factory_reset(uint64_t clock, uint8_t *record, size_t record_length);

/* `out_length` and `packet_length` are the lengths of the outputs that the event is lent; the outputs do not go in. Any
 * number but 0 in element.accepted is recorded as 1. A rejected point is recorded with 32 zero bytes, whatever
 * element.secret holds; of an accepted one the record holds the secret. FP_WRONG_LENGTH for a request of more than 947
 * bytes. */
fp_report fp_record_key_based_write(uint8_t link, uint64_t clock, const uint8_t *request, size_t request_length,
                                    fp_element element, const uint8_t salt[9], const uint8_t nonce[8],
                                    size_t out_length, size_t packet_length, uint8_t *record, size_t record_length);

/* 14 bytes. */
fp_report fp_record_pairing_started(uint8_t link, uint64_t clock, uint8_t capability, uint8_t *record,
                                    size_t record_length);

/* 17 bytes. */
fp_report fp_record_confirmation_needed(uint8_t link, uint64_t clock, uint32_t passkey, uint8_t *record,
                                        size_t record_length);

/* `out_length` is the length of the output that the event is lent; the output does not go in. FP_WRONG_LENGTH for a block
 * of more than 993 bytes. */
fp_report fp_record_passkey_write(uint8_t link, uint64_t clock, const uint8_t *block, size_t block_length,
                                  const uint8_t salt[12], size_t out_length, uint8_t *record, size_t record_length);

/* 14 bytes. Any number but 0 is a success, and is recorded as 1. */
fp_report fp_record_pairing_ended(uint8_t link, uint64_t clock, uint8_t success, uint8_t *record, size_t record_length);

/* FP_WRONG_LENGTH for a block or a packet of more than 1,013 bytes. */
fp_report fp_record_account_key_write(uint8_t link, uint64_t clock, const uint8_t *block, size_t block_length,
                                      uint8_t *record, size_t record_length);
fp_report fp_record_name_write(uint8_t link, uint64_t clock, const uint8_t *packet, size_t packet_length,
                               uint8_t *record, size_t record_length);

/* ---- replaying: a recording in parts, as docs/RECORDING.md says how one is read (see "Replaying" above) */

/* The replay before the first part: no event, nothing unfinished, and fp_off() as its device. A replay filled with zeros
 * is none, as a device filled with zeros is none. */
fp_replay fp_replay_start(void);

/* Reads `part` from the place `at` on, which is 0 for a new part: to the end of one record, or to the end of the part.
 *
 *     FP_LINE_SHOWN    a record became whole. `line` is its line, and `at` the place behind it: at least 1 more than was
 *                      handed in. If that is less than `length`, call again with the same part and this `at`
 *     FP_PART_READ     the part ended before a record did. `next` keeps what came of it, and `at` is `length`, so the call
 *                      after it is for the next part. An `at` that is not less than `length` reads nothing, as an empty
 *                      part does: `next` is the replay that was handed in, and `at` the place
 *     FP_NOT_A_REPLAY  nothing is read. `next` is what was handed in, byte by byte, and `at` is as with FP_PART_READ
 *
 * Do not hand in the same bytes twice: after each call go on with `next` and `at` of that call. */
fp_fed fp_replay_feed(fp_replay replay, const uint8_t *part, size_t length, size_t at);

/* The recording ends. No part says so: call this once, behind the last one.
 *
 *     FP_LINE_SHOWN    the last record is cut: some bytes of it were held, or some still to be skipped. `line` is that of
 *                      one marker
 *     FP_PART_READ     the recording ended behind a whole record, or was empty
 *     FP_NOT_A_REPLAY  `next` is what was handed in, byte by byte
 *
 * But for FP_NOT_A_REPLAY, `next` has the device and the number of events at the end, and nothing unfinished. `at` is 0. For
 * another recording begin with fp_replay_start. */
fp_fed fp_replay_end(fp_replay replay);

#ifdef __cplusplus
}
#endif

#endif
