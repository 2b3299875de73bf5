/* The advertisement between events, and when the radio gets other data:
 *
 *     advertising
 *
 * A radio asks for its data at every advertising interval, ten times a second. The filter in it is kept in the device, so
 * asking only copies. It changes with the keys and with the salt, and with nothing else: here ten owners, A to J, are
 * powered on, A's phone connects, an eleventh owner, Z, pairs and B's key is removed, the address rotates, and the device
 * is reset. Every event is printed with the data that the radio then has. Exit 1 if that is not the data expected.
 *
 * The expected data were computed with hashlib, and not by this library. The salts and the nonce are fixed; a product draws
 * them, and wipes its copies of the keys.
 */
#include "owners.h"
#include "phone.h"

#include <stdio.h>
#include <stdlib.h>
#include <string.h>

static const uint8_t OF_A_TO_J[24] = {
    0x17, 0x16, 0x2C, 0xFE, 0x00, 0xF0, 0xD4, 0x35, 0xEE, 0x2A, 0xAA, 0xAA, 0x97, 0x0B, 0xE0, 0x4A,
    0x47, 0x19, 0x3E, 0xD8, 0x1D, 0x21, 0xC7, 0xC8};
static const uint8_t OF_Z_WITHOUT_B[24] = {
    0x17, 0x16, 0x2C, 0xFE, 0x00, 0xF0, 0xD4, 0x35, 0xEE, 0x6A, 0xAE, 0xAA, 0x97, 0x0B, 0xE0, 0x4A,
    0x47, 0x19, 0x3E, 0xD8, 0x09, 0x21, 0xC7, 0xC8};
static const uint8_t WITH_NEW_SALT[24] = {
    0x17, 0x16, 0x2C, 0xFE, 0x00, 0xF0, 0x10, 0xE9, 0x81, 0xC9, 0x9F, 0x42, 0x7A, 0x65, 0x0B, 0x6A,
    0x81, 0x36, 0x74, 0x23, 0x8B, 0x21, 0xD1, 0xD2};
static const uint8_t MODEL_ID[7] = {0x06, 0x16, 0x2C, 0xFE, 0x12, 0x34, 0x56};
static const uint8_t NO_OWNER[6] = {0x05, 0x16, 0x2C, 0xFE, 0x00, 0x00};

static const uint8_t NEW_SALT[2] = {0xD1, 0xD2};

static fp_device device;

/* The radio's buffer. It is set again if the data differ: a controller that is told the same data would begin anew. */
static struct {
    uint8_t data[FP_ADVERTISEMENT_MAX];
    uint64_t length;
    unsigned settings;
} radio;

static void stop(const char *what)
{
    fprintf(stderr, "advertising: %s: something else was expected\n", what);
    exit(1);
}

static void advertise(void)
{
    uint8_t data[FP_ADVERTISEMENT_MAX];
    fp_report report = fp_advertisement(device, 0, data, sizeof data);
    if (report.answer != FP_TAKEN)
        stop("an advertisement");
    if (report.length == radio.length && memcmp(data, radio.data, report.length) == 0)
        return;
    memcpy(radio.data, data, report.length);
    radio.length = report.length;
    radio.settings++;
}

/* An event that is taken, and a second of advertising after it: its first interval may set the radio, the others do not. */
static void served(const char *event, fp_outcome outcome, const uint8_t *expected, size_t length)
{
    if (outcome.reply.answer != FP_TAKEN)
        stop(event);
    device = outcome.next;
    advertise();
    unsigned settings = radio.settings;
    for (int interval = 1; interval < 10; interval++)
        advertise();
    printf("%-24s radio set %u times, data", event, radio.settings);
    for (size_t i = 0; i < radio.length; i++)
        printf(" %02X", radio.data[i]);
    printf("\n");
    if (radio.settings != settings || radio.length != length || memcmp(radio.data, expected, length) != 0)
        stop(event);
}

static fp_outcome requested(uint64_t clock, const uint8_t *request, size_t length)
{
    uint8_t out[FP_RESPONSE_SIZE], packet[FP_PACKET_MAX];
    return fp_key_based_write(device, LINK, clock, request, length, ELEMENT, RESPONSE_SALT, NONCE, out, sizeof out,
                              packet, sizeof packet);
}

/* Z's phone pairs while the model ID is shown. The filter is kept up all the same: it is there when pairing mode ends. */
static void pair_z(uint64_t clock)
{
    uint8_t out[FP_RESPONSE_SIZE];
    served("pairing mode on", fp_pairing_mode(device, 1, clock), MODEL_ID, sizeof MODEL_ID);
    served("Z's request of 80 bytes", requested(clock, REQUEST, sizeof REQUEST), MODEL_ID, sizeof MODEL_ID);
    served("pairing started", fp_pairing_started(device, LINK, clock, DISPLAY_YES_NO), MODEL_ID, sizeof MODEL_ID);
    served("confirmation needed", fp_confirmation_needed(device, LINK, clock, PASSKEY), MODEL_ID, sizeof MODEL_ID);
    served("passkey write",
           fp_passkey_write(device, LINK, clock, PASSKEY_BLOCK, sizeof PASSKEY_BLOCK, PASSKEY_SALT, out, sizeof out),
           MODEL_ID, sizeof MODEL_ID);
    served("pairing ended", fp_pairing_ended(device, LINK, clock, 1), MODEL_ID, sizeof MODEL_ID);
    served("account key write",
           fp_account_key_write(device, LINK, clock, ACCOUNT_KEY_BLOCK, sizeof ACCOUNT_KEY_BLOCK), MODEL_ID,
           sizeof MODEL_ID);
    served("pairing mode off", fp_pairing_mode(device, 0, clock), OF_Z_WITHOUT_B, sizeof OF_Z_WITHOUT_B);
}

int main(void)
{
    served("power-on", fp_power_on(fp_off(), TEN_OWNERS, sizeof TEN_OWNERS, NULL, 0, START), OF_A_TO_J,
           sizeof OF_A_TO_J);
    /* A's key moves to the end of the list: an order shows nowhere */
    served("A's request", requested(1000, REQUEST_OF_A, 16), OF_A_TO_J, sizeof OF_A_TO_J);
    pair_z(2000);
    served("address rotated", fp_address_rotated(device, START.ble, NEW_SALT, 3000), WITH_NEW_SALT, sizeof WITH_NEW_SALT);
    served("overflow marker", fp_overflow(device), WITH_NEW_SALT, sizeof WITH_NEW_SALT);
    served("factory reset", fp_factory_reset(device, 4000), NO_OWNER, sizeof NO_OWNER);
    if (radio.settings != 5)
        stop("five settings of the radio");
    printf("the data were those expected in every interval, and the radio was set %u times\n", radio.settings);
    return 0;
}
