/* The rotation that a request asks for, and answer 16 until it comes:
 *
 *     rotation
 *
 * A's phone names the BLE address that it saw in the advertisement. Its request is taken and asks the radio to rotate. Until
 * the radio has, every request gets 16, and a marker does not help. A's own pairing goes on. After the rotation B's phone
 * names the new address. C's and D's phones name the public address, and nothing has to rotate. At last a new phone names the
 * BLE address in pairing mode and tries again too early. Every event is printed with its answer, the address that was named
 * and whether a rotation is asked for. Exit 1 if one of them is not the one expected.
 *
 * The requests here were computed with OpenSSL, and not by this library. Addresses, salts and the nonce are fixed; a product
 * draws them, and wipes its copies of the keys.
 */
#include "owners.h"
#include "phone.h"

#include <stdio.h>
#include <stdlib.h>
#include <string.h>

/* A's link is LINK; this is that of the others. */
enum { OTHER_LINK = LINK + 1 };

/* What the radio rotates to, and the salts that it draws with it. */
static const fp_address NEW_ADDRESS = {{0x7A, 0x11, 0x12, 0x13, 0x14, 0x15}};
static const fp_address NEWER_ADDRESS = {{0x7A, 0x21, 0x22, 0x23, 0x24, 0x25}};
static const uint8_t NEW_SALT[2] = {0xD1, 0xD2}, NEWER_SALT[2] = {0xE1, 0xE2};

/* Requests of A and B that name START's BLE address, and one of B that names the new address. */
static const uint8_t OF_A[16] = {
    0x90, 0x95, 0xED, 0x2D, 0x4E, 0xEA, 0x83, 0x41, 0x23, 0xB4, 0x63, 0x0D, 0x79, 0xAE, 0xE3, 0xA5};
static const uint8_t OF_B[16] = {
    0x02, 0x7D, 0xFA, 0xDF, 0xFC, 0xD9, 0xFB, 0xC8, 0x09, 0xE0, 0x61, 0x6B, 0x2F, 0x0E, 0xD8, 0xE5};
static const uint8_t OF_B_TO_NEW_ADDRESS[16] = {
    0x79, 0x88, 0x60, 0x55, 0xB7, 0xE5, 0x40, 0x7A, 0x3A, 0xB1, 0x6E, 0xA1, 0x8E, 0x67, 0xEE, 0x63};

/* The blocks of a new phone under the key of ELEMENT's secret, each with a salt of its own: to START's BLE address, to the
 * same when it tries again, and to the new address. */
static const uint8_t FIRST_TRY[16] = {
    0xD9, 0x3D, 0x00, 0x97, 0x34, 0xA5, 0xF7, 0x47, 0xF5, 0xBF, 0xC0, 0xA4, 0xB4, 0x9B, 0xCC, 0xDE};
static const uint8_t SECOND_TRY[16] = {
    0x0D, 0x75, 0x1E, 0x02, 0x0F, 0xA4, 0x64, 0xD4, 0xED, 0x45, 0x78, 0xF2, 0xB4, 0x2E, 0x58, 0x03};
static const uint8_t TRY_TO_NEW_ADDRESS[16] = {
    0x3A, 0xB5, 0x71, 0xAB, 0xB8, 0x71, 0x76, 0x57, 0x10, 0xA8, 0xED, 0x23, 0xB9, 0x81, 0x51, 0x51};

static fp_device device;

static void stop(const char *what)
{
    fprintf(stderr, "rotation: %s: something else was expected\n", what);
    exit(1);
}

/* ---- events */

/* An event with its answer and the address that it named: a rotation is asked for if that is the BLE address. */
static void served(const char *event, fp_outcome outcome, uint8_t answer, uint8_t named)
{
    static const char *const addresses[] = {"no address", "the BLE address", "the public address"};
    fp_reply reply = outcome.reply;
    device = outcome.next;
    if (reply.answer != answer || reply.named != named || reply.rotate != (named == FP_NAMED_BLE))
        stop(event);
    printf("%-36s answer %2u, %s named%s\n", event, reply.answer, addresses[reply.named],
           reply.rotate ? ": rotate" : "");
}

static fp_outcome requested(uint8_t link, uint64_t clock, const uint8_t *request, size_t length)
{
    uint8_t out[FP_RESPONSE_SIZE], packet[FP_PACKET_MAX];
    return fp_key_based_write(device, link, clock, request, length, ELEMENT, RESPONSE_SALT, NONCE, out, sizeof out,
                              packet, sizeof packet);
}

static void request(const char *event, uint8_t link, uint64_t clock, const uint8_t block[16], uint8_t answer,
                    uint8_t named)
{
    served(event, requested(link, clock, block, 16), answer, named);
}

/* A block and the phone's public key: 80 bytes. */
static void first_request(const char *event, uint64_t clock, const uint8_t block[16], uint8_t answer, uint8_t named)
{
    uint8_t whole[sizeof REQUEST];
    memcpy(whole, REQUEST, sizeof whole);
    memcpy(whole, block, 16);
    served(event, requested(LINK, clock, whole, sizeof whole), answer, named);
}

/* What firmware does when it is asked to. The device then knows the new address, and advertises with the new salt. */
static void rotate(uint64_t clock, fp_address ble, const uint8_t salt[2])
{
    uint8_t data[FP_ADVERTISEMENT_MAX];
    served("address rotated", fp_address_rotated(device, ble, salt, clock), FP_TAKEN, FP_NAMED_NEITHER);
    fp_report report = fp_advertisement(device, 0, data, sizeof data);
    if (report.answer != FP_TAKEN || memcmp(&device.ble, &ble, sizeof ble) != 0 || device.rotation_awaited)
        stop("the device behind a rotation");
    if (!device.pairing && memcmp(data + report.length - 2, salt, 2) != 0)
        stop("the advertisement behind a rotation");
}

/* ---- what happens */

static void power_on(void)
{
    served("power-on", fp_power_on(fp_off(), TEN_OWNERS, sizeof TEN_OWNERS, NULL, 0, START), FP_TAKEN,
           FP_NAMED_NEITHER);
}

static void named_by_two_phones(void)
{
    power_on();
    request("A's request, to the BLE address", LINK, 1000, OF_A, FP_TAKEN, FP_NAMED_BLE);
    request("B's request, to the BLE address", OTHER_LINK, 1100, OF_B, FP_ROTATION_AWAITED, FP_NAMED_NEITHER);
    request("C's request, to the public address", OTHER_LINK, 1200, REQUEST_OF_C, FP_ROTATION_AWAITED,
            FP_NAMED_NEITHER);
    served("A's pairing goes on", fp_pairing_started(device, LINK, 1300, DISPLAY_YES_NO), FP_TAKEN, FP_NAMED_NEITHER);
    served("overflow marker", fp_overflow(device), FP_TAKEN, FP_NAMED_NEITHER);
    request("B's request again", OTHER_LINK, 1400, OF_B, FP_ROTATION_AWAITED, FP_NAMED_NEITHER);
    rotate(1500, NEW_ADDRESS, NEW_SALT);
    request("B's request, to the old address", OTHER_LINK, 1600, OF_B, FP_NO_KEY_FITS, FP_NAMED_NEITHER);
    request("B's request, to the new address", OTHER_LINK, 1700, OF_B_TO_NEW_ADDRESS, FP_TAKEN, FP_NAMED_BLE);
    rotate(1800, NEWER_ADDRESS, NEWER_SALT);
}

/* C's request that got 16 above was not counted, and its salt is not spent. */
static void named_by_public_address(void)
{
    request("C's request, to the public address", OTHER_LINK, 1900, REQUEST_OF_C, FP_TAKEN, FP_NAMED_PUBLIC);
    request("D's request, to the public address", OTHER_LINK, 2000, REQUEST_OF_D, FP_TAKEN, FP_NAMED_PUBLIC);
}

/* The phone did not get the response. Its retries get 16 in pairing mode too, so the radio rotates here as well. */
static void named_in_pairing_mode(void)
{
    power_on();
    served("pairing mode on", fp_pairing_mode(device, 1, 1000), FP_TAKEN, FP_NAMED_NEITHER);
    first_request("a new phone, to the BLE address", 1100, FIRST_TRY, FP_TAKEN, FP_NAMED_BLE);
    first_request("it tries again", 1200, SECOND_TRY, FP_ROTATION_AWAITED, FP_NAMED_NEITHER);
    rotate(1300, NEW_ADDRESS, NEW_SALT);
    first_request("it tries again, to the new address", 1400, TRY_TO_NEW_ADDRESS, FP_TAKEN, FP_NAMED_BLE);
    rotate(1500, NEWER_ADDRESS, NEWER_SALT);
    first_request("it tries to the public address", 1600, REQUEST, FP_TAKEN, FP_NAMED_PUBLIC);
}

int main(void)
{
    named_by_two_phones();
    named_by_public_address();
    named_in_pairing_mode();
    printf("every answer was the one expected, and every rotation was asked for\n");
    return 0;
}
