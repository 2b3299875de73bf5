/* A provider in C:
 *
 *     pairing LIST NAME RECORDING ANSWERS
 *
 * It powers on from the list and the name in these two files (first boot if there are none), tells a phone its name, gets
 * a new one, is paired by that phone, stores its account key, is switched off and on again, serves the owner, rotates its
 * address as the owner's request asks, meets a loss of events and prints its advertisement. Every answer is printed with
 * what it means. Exit 1 if one is not the answer expected, 2 if the program was called wrongly.
 *
 * All events are recorded, and RECORDING is written at the end. ANSWERS gets the lines that fp_replay has to print of it. A
 * product does not record.
 *
 * Salts and nonces are random, so the responses and packets are others in every run. event_queue_test.c has fixed ones and
 * compares.
 */
#define _DEFAULT_SOURCE /* explicit_bzero */

#include "phone.h"
#include "recorder.h"
#include "saved_file.h"

#include <errno.h>
#include <stdio.h>
#include <stdlib.h>
#include <string.h>
#include <sys/random.h>

static const char *list_path, *name_path;
static fp_device device;
static fp_stored saved_list; /* what was saved last */
static fp_name saved_name;

static void stop(const char *what, const char *why)
{
    fprintf(stderr, "pairing: %s: %s\n", what, why);
    exit(1);
}

static const char *const MEANINGS[] = {
    [FP_TAKEN] = "taken",
    [FP_UNKNOWN_LINK] = "no such link: the table of connections is wrong",
    [FP_WRONG_LENGTH] = "a request has 16 or 80 bytes, and a name write 16 to 80: ignored",
    [FP_PASSKEY_TOO_LARGE] = "our passkey has more than six digits: the radio is wrong",
    [FP_CLOCK_WENT_BACK] = "the clock went back: every phone begins again",
    [FP_LOCKED_OUT] = "ten requests did not fit: no request is tried for five minutes",
    [FP_NOT_IN_PAIRING_MODE] = "a new phone, and pairing mode is off: ignored",
    [FP_NO_KEY_FITS] = "no key fits the request: ignored",
    [FP_SALT_SPENT] = "the request was sent before: ignored",
    [FP_LINK_IDLE] = "the link has no key: the phone begins with a new request",
    [FP_WRONG_STAGE] = "not the step expected: the phone begins with a new request",
    [FP_CAPABILITY_REFUSED] = "the phone can't confirm a passkey: pairing is refused",
    [FP_BAD_BLOCK] = "the block is not what it has to be: the phone begins with a new request",
    [FP_OUTPUT_TOO_SHORT] = "our output is too short: a mistake in this program",
    [FP_LIST_MALFORMED] = "the stored list or the name is damaged",
    [FP_NAME_REFUSED] = "a wrong tag, or not UTF-8: the old name stays",
    [FP_ROTATION_AWAITED] = "the radio has to rotate the BLE address first: ignored",
};

static const char *meaning(uint8_t answer)
{
    if (answer == FP_NOT_A_DEVICE)
        return "our device is none: memory went wrong, power on again";
    return answer < sizeof MEANINGS / sizeof *MEANINGS ? MEANINGS[answer] : "an answer that the header does not know";
}

static void tell(const char *what, uint8_t answer)
{
    printf("%-24s answer %u: %s\n", what, answer, meaning(answer));
}

static void print_bytes(const char *what, const uint8_t *bytes, size_t length)
{
    printf("%-24s ", what);
    for (size_t i = 0; i < length; i++)
        printf("%02X", bytes[i]);
    printf("\n");
}

static void draw(uint8_t *bytes, size_t length)
{
    if (getrandom(bytes, length, 0) != (ssize_t)length)
        stop("random bytes", strerror(errno));
}

static void save(const char *what, const char *path, const uint8_t *bytes, uint64_t length)
{
    if (!saved_file_save(path, bytes, length))
        stop(path, strerror(errno));
    printf("  %s saved, %u bytes\n", what, (unsigned)length);
}

static void save_list(const fp_stored *stored)
{
    save("list", list_path, stored->bytes, stored->length);
    saved_list = *stored;
}

static void save_name(const fp_name *name)
{
    save("name", name_path, name->bytes, name->length);
    saved_name = *name;
}

/* ---- the recording */

static uint8_t store[4096];
static recorder recording;
static FILE *answers;
static unsigned events;

static void recorded(fp_report report)
{
    if (!recorder_wrote(&recording, report))
        stop("recording", "the store is too short");
}

static void save_recording(const char *path)
{
    if (!saved_file_save(path, store, recording.used) || fclose(answers) != 0)
        stop(path, strerror(errno));
    printf("recording saved, %zu bytes\n", recording.used);
    explicit_bzero(store, sizeof store);
}

/* ---- what follows every event */

/* Its answer is told, and the next device replaces the old one. `kind` is the name that fp_replay prints. */
static fp_reply answered(const char *kind, fp_outcome outcome)
{
    fp_reply reply = outcome.reply;
    tell(kind, reply.answer);
    device = outcome.next;
    explicit_bzero(&outcome, sizeof outcome); /* a copy of every key */
    fprintf(answers, "%u %s %u %u\n", ++events, kind, reply.answer, device.stored.bytes[3]);
    return reply;
}

/* And the list and the name are saved if they are not what was saved last. Gives back the reply. */
static fp_reply served(const char *kind, fp_outcome outcome, uint8_t expected)
{
    fp_reply reply = answered(kind, outcome);
    explicit_bzero(&outcome, sizeof outcome);
    if (memcmp(&device.stored, &saved_list, sizeof saved_list) != 0)
        save_list(&device.stored);
    if (memcmp(&device.name, &saved_name, sizeof saved_name) != 0)
        save_name(&device.name);
    if (reply.answer != expected)
        stop(kind, "another answer was expected");
    return reply;
}

/* ---- power-on */

/* What was saved: a list, or a name. There is room for one byte more than the longest, so that a longer file is seen to be
 * too long. */
typedef struct {
    size_t length;
    uint8_t bytes[FP_STORED_LIST_MAX + 1];
} saved;

/* The file's bytes, or the factory's if there is no file. */
static saved loaded(const char *what, const char *path, const uint8_t *factory, size_t factory_length)
{
    saved bytes = {0};
    saved_file_result result = saved_file_load(path, bytes.bytes, sizeof bytes.bytes, &bytes.length);
    if (result == SAVED_FILE_FAILED)
        stop(path, strerror(errno));
    if (result == SAVED_FILE_MISSING) {
        bytes.length = factory_length;
        memcpy(bytes.bytes, factory, factory_length);
    }
    printf("%s %s, %zu bytes\n", what, result == SAVED_FILE_MISSING ? "of the factory" : "read", bytes.length);
    return bytes;
}

static uint8_t powered_on(const saved *list, const saved *name)
{
    fp_start start = START;
    draw(start.salt, sizeof start.salt);
    recorded(fp_record_power_on(list->bytes, list->length, name->bytes, name->length, start, recorder_place(&recording),
                                recorder_room(&recording)));
    return answered("power-on", fp_power_on(fp_off(), list->bytes, list->length, name->bytes, name->length, start)).answer;
}

/* The list is damaged, or the name, or both. A product tries second copies first. The owners pair again only if it was the
 * list: the name is left out before it. */
static uint8_t powered_on_without(const saved *list, const saved *name)
{
    static const saved no_name = {0};
    saved no_keys = {.length = sizeof EMPTY_LIST};
    memcpy(no_keys.bytes, EMPTY_LIST, sizeof EMPTY_LIST);
    printf("without the name\n");
    if (powered_on(list, &no_name) == FP_TAKEN)
        return FP_TAKEN;
    printf("without the keys\n");
    if (powered_on(&no_keys, name) == FP_TAKEN)
        return FP_TAKEN;
    printf("without both\n");
    return powered_on(&no_keys, &no_name);
}

static void power_on(void)
{
    saved list = loaded("list", list_path, EMPTY_LIST, sizeof EMPTY_LIST);
    saved name = loaded("name", name_path, MAKERS_NAME, sizeof MAKERS_NAME);
    uint8_t answer = powered_on(&list, &name);
    bool damaged = answer == FP_LIST_MALFORMED;
    if (damaged)
        answer = powered_on_without(&list, &name);
    explicit_bzero(&list, sizeof list);
    if (answer != FP_TAKEN)
        stop("power-on", meaning(answer));
    if (damaged) {
        save_list(&device.stored);
        save_name(&device.name);
    }
    saved_list = device.stored; /* as read, as saved just now, or the factory's */
    saved_name = device.name;
}

/* ---- the advertisement */

/* The filter's bytes depend on the random salt; the others are known. */
static void advertise(void)
{
    enum { BEFORE_FILTER = 6, AFTER_FILTER = 10 };
    uint8_t out[FP_ADVERTISEMENT_MAX];
    fp_report report = fp_advertisement(device, 0, out, sizeof out);
    tell("advertisement", report.answer);
    if (report.answer != FP_TAKEN || report.length != sizeof ADVERTISEMENT)
        stop("advertisement", "13 bytes were expected");
    print_bytes("  payload", out, report.length);
    if (memcmp(out, ADVERTISEMENT, BEFORE_FILTER) != 0 || out[AFTER_FILTER] != ADVERTISEMENT[AFTER_FILTER] ||
        memcmp(out + AFTER_FILTER + 1, device.salt, sizeof device.salt) != 0)
        stop("advertisement", "other bytes were expected");
}

/* ---- events: each is recorded and then served, with the same arguments */

static void overflow(void)
{
    recorded(fp_record_overflow(recorder_place(&recording), recorder_room(&recording)));
    served("marker", fp_overflow(device), FP_TAKEN);
}

static void pairing_mode(uint64_t clock, uint8_t on)
{
    recorded(fp_record_pairing_mode(on, clock, recorder_place(&recording), recorder_room(&recording)));
    served("pairing-mode", fp_pairing_mode(device, on, clock), FP_TAKEN);
}

static void link_up(uint64_t clock)
{
    recorded(fp_record_link_up(LINK, clock, recorder_place(&recording), recorder_room(&recording)));
    served("link-up", fp_link_up(device, LINK, clock), FP_TAKEN);
}

/* The radio gives itself a new address, and the advertisement has a new salt. Here the address is drawn: a resolvable
 * private one, which begins with the bits 01. A product's radio makes it, and is then set to the new advertisement. */
static void rotate_address(uint64_t clock)
{
    fp_address ble;
    uint8_t salt[2];
    draw(ble.bytes, sizeof ble.bytes);
    draw(salt, sizeof salt);
    ble.bytes[0] = (uint8_t)((ble.bytes[0] & 0x3F) | 0x40);
    recorded(fp_record_address_rotated(ble, salt, clock, recorder_place(&recording), recorder_room(&recording)));
    served("address-rotated", fp_address_rotated(device, ble, salt, clock), FP_TAKEN);
    advertise();
}

static void key_based_write(uint64_t clock, const uint8_t *request, size_t length, fp_element element, uint8_t named)
{
    uint8_t salt[9], nonce[8], out[FP_RESPONSE_SIZE], packet[FP_PACKET_MAX];
    draw(salt, sizeof salt);
    draw(nonce, sizeof nonce);
    recorded(fp_record_key_based_write(LINK, clock, request, length, element, salt, nonce, sizeof out, sizeof packet,
                                       recorder_place(&recording), recorder_room(&recording)));
    fp_reply reply = served("key-based-write",
                            fp_key_based_write(device, LINK, clock, request, length, element, salt, nonce, out,
                                               sizeof out, packet, sizeof packet),
                            FP_TAKEN);
    print_bytes("  response", out, sizeof out);

    /* The phone asked for the name: a second notification, on the Additional Data characteristic. */
    print_bytes("  packet with the name", packet, reply.packet_length);
    if (reply.packet_length != 16 + device.name.length)
        stop("key-based-write", "a packet with the whole name was expected");

    /* After both notifications, and soon: until the rotation every request gets 16. */
    if (reply.named != named)
        stop("key-based-write", "the request named another address");
    if (reply.rotate)
        rotate_address(clock);
}

static void name_write(uint64_t clock, uint8_t expected)
{
    recorded(fp_record_name_write(LINK, clock, NAME_WRITE, sizeof NAME_WRITE, recorder_place(&recording),
                                  recorder_room(&recording)));
    served("name-write", fp_name_write(device, LINK, clock, NAME_WRITE, sizeof NAME_WRITE), expected);
    if (device.name.length != sizeof PHONES_NAME || memcmp(device.name.bytes, PHONES_NAME, sizeof PHONES_NAME) != 0)
        stop("name-write", "the phone's name was expected");
}

static void pairing_started(uint64_t clock, uint8_t expected)
{
    recorded(fp_record_pairing_started(LINK, clock, DISPLAY_YES_NO, recorder_place(&recording),
                                       recorder_room(&recording)));
    served("pairing-started", fp_pairing_started(device, LINK, clock, DISPLAY_YES_NO), expected);
}

static void confirmation_needed(uint64_t clock)
{
    recorded(fp_record_confirmation_needed(LINK, clock, PASSKEY, recorder_place(&recording),
                                           recorder_room(&recording)));
    served("confirmation-needed", fp_confirmation_needed(device, LINK, clock, PASSKEY), FP_TAKEN);
}

static void passkey_write(uint64_t clock)
{
    uint8_t salt[12], out[FP_RESPONSE_SIZE];
    draw(salt, sizeof salt);
    recorded(fp_record_passkey_write(LINK, clock, PASSKEY_BLOCK, sizeof PASSKEY_BLOCK, salt, sizeof out,
                                     recorder_place(&recording), recorder_room(&recording)));
    fp_reply reply = served("passkey-write",
                            fp_passkey_write(device, LINK, clock, PASSKEY_BLOCK, sizeof PASSKEY_BLOCK, salt, out,
                                             sizeof out),
                            FP_TAKEN);
    print_bytes("  response", out, sizeof out);
    if (reply.confirm != FP_CONFIRM_YES)
        stop("passkey-write", "the passkeys are not the same: the radio says no");
}

static void pairing_ended(uint64_t clock)
{
    recorded(fp_record_pairing_ended(LINK, clock, 1, recorder_place(&recording), recorder_room(&recording)));
    served("pairing-ended", fp_pairing_ended(device, LINK, clock, 1), FP_TAKEN);
}

static void account_key_write(uint64_t clock)
{
    recorded(fp_record_account_key_write(LINK, clock, ACCOUNT_KEY_BLOCK, sizeof ACCOUNT_KEY_BLOCK,
                                         recorder_place(&recording), recorder_room(&recording)));
    served("account-key-write",
           fp_account_key_write(device, LINK, clock, ACCOUNT_KEY_BLOCK, sizeof ACCOUNT_KEY_BLOCK), FP_TAKEN);
}

/* ---- what happens */

static void paired_by_phone(void)
{
    pairing_mode(1000, 1);
    link_up(1100);
    key_based_write(1200, REQUEST, sizeof REQUEST, ELEMENT, FP_NAMED_PUBLIC);
    name_write(1250, FP_TAKEN);
    pairing_started(1300, FP_TAKEN);
    confirmation_needed(1400);
    passkey_write(1500);
    pairing_ended(1600);
    account_key_write(1700);
}

/* Events were lost after the owner's request: what begins then is not joined to it. The phone's name was kept. */
static void events_lost(void)
{
    link_up(1000);
    key_based_write(1100, OWNER_REQUEST, sizeof OWNER_REQUEST, (fp_element){0}, FP_NAMED_BLE);
    overflow();
    name_write(1150, FP_LINK_IDLE);
    pairing_started(1200, FP_LINK_IDLE);
}

int main(int argc, char **argv)
{
    if (argc != 5) {
        fprintf(stderr, "usage: pairing LIST NAME RECORDING ANSWERS\n");
        return 2;
    }
    list_path = argv[1];
    name_path = argv[2];
    recorder_begin(&recording, store, sizeof store);
    answers = fopen(argv[4], "w");
    if (answers == NULL)
        stop(argv[4], strerror(errno));
    power_on();
    paired_by_phone();

    printf("switched off and on again\n");
    explicit_bzero(&device, sizeof device);
    power_on();
    events_lost();
    advertise();
    explicit_bzero(&device, sizeof device);
    explicit_bzero(&saved_list, sizeof saved_list);
    save_recording(argv[3]);
    printf("every answer was the one expected\n");
    return 0;
}
