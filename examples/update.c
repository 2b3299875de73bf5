/* An update from firmware that held five owners:
 *
 *     update
 *
 * Firmware before 4.5.0 saved a list of version 0x01 with five owners, A to E. The new firmware reads it as the same
 * owners in the same order, writes it as version 0x02, and has room for five more: Z pairs, and nobody is removed. Every
 * step is printed with its answer and the list's version, owners and length. Exit 1 if one is not the one expected.
 *
 * Older firmware answers 14 to version 0x02. So the old list is kept until the update is final: here until power-on has
 * taken the list that was saved. Flash memory is two variables; pairing.c saves in a file. The expected advertisements
 * were computed with hashlib, and not by this library. The salts and the nonce are fixed; a product draws them.
 */
#include "owners.h"
#include "phone.h"

#include <stdio.h>
#include <stdlib.h>
#include <string.h>

static const uint8_t OF_SIX[19] = {
    0x12, 0x16, 0x2C, 0xFE, 0x00, 0xA0, 0xB8, 0x33, 0x89, 0x88, 0x13, 0x86, 0x1D, 0x6A, 0x72, 0x36,
    0x21, 0xC7, 0xC8};
static const uint8_t OF_TEN[24] = {
    0x17, 0x16, 0x2C, 0xFE, 0x00, 0xF0, 0xD4, 0x35, 0xEE, 0x2A, 0xAA, 0xAA, 0x97, 0x0B, 0xE0, 0x4A,
    0x47, 0x19, 0x3E, 0xD8, 0x1D, 0x21, 0xC7, 0xC8};

/* How a list of five began in older firmware: length, version 0x01, count. The keys stood behind it as they do now. */
static const uint8_t FIVE_OF_VERSION_1[4] = {0x00, 0x52, 0x01, 0x05};

static fp_stored old_flash, flash;

static void stop(const char *what)
{
    fprintf(stderr, "update: %s: something else was expected\n", what);
    exit(1);
}

/* A step, and the list that the device then has: always version 0x02. */
static fp_device served(const char *event, fp_outcome outcome, uint8_t answer, uint8_t tried, uint8_t owners)
{
    const fp_stored *list = &outcome.next.stored;
    printf("%-36s answer %2u, list of version %u, %2u owners, %3u bytes\n", event, outcome.reply.answer, list->bytes[2],
           list->bytes[3], (unsigned)list->length);
    if (outcome.reply.answer != answer || outcome.reply.tried != tried || list->bytes[2] != 2 ||
        list->bytes[3] != owners)
        stop(event);
    return outcome.next;
}

static fp_outcome power_on(fp_device device, const uint8_t *list, size_t length)
{
    return fp_power_on(device, list, length, NULL, 0, START);
}

static void advertises(fp_device device, const uint8_t *expected, size_t length)
{
    uint8_t data[FP_ADVERTISEMENT_MAX];
    fp_report report = fp_advertisement(device, 0, data, sizeof data);
    if (report.answer != FP_TAKEN || report.length != length || memcmp(data, expected, length) != 0)
        stop("an advertisement");
}

static fp_outcome requested(fp_device device, uint64_t clock, const uint8_t *request, size_t length)
{
    uint8_t out[FP_RESPONSE_SIZE], packet[FP_PACKET_MAX];
    return fp_key_based_write(device, LINK, clock, request, length, ELEMENT, RESPONSE_SALT, NONCE, out, sizeof out,
                              packet, sizeof packet);
}

/* Z's phone pairs, up to the end of the pairing. */
static fp_device paired_with_z(fp_device device)
{
    uint8_t out[FP_RESPONSE_SIZE];
    device = fp_pairing_mode(device, 1, 1000).next;
    device = requested(device, 1000, REQUEST, sizeof REQUEST).next;
    device = fp_pairing_started(device, LINK, 1000, DISPLAY_YES_NO).next;
    device = fp_confirmation_needed(device, LINK, 1000, PASSKEY).next;
    device =
        fp_passkey_write(device, LINK, 1000, PASSKEY_BLOCK, sizeof PASSKEY_BLOCK, PASSKEY_SALT, out, sizeof out).next;
    device = fp_pairing_ended(device, LINK, 1000, 1).next;
    return fp_pairing_mode(device, 0, 1000).next;
}

/* The first boot after the update: the list comes back with its version changed and no other byte. */
static fp_device first_boot(void)
{
    old_flash.length = 84;
    memcpy(old_flash.bytes, TEN_OWNERS, 84);
    memcpy(old_flash.bytes, FIVE_OF_VERSION_1, sizeof FIVE_OF_VERSION_1);
    fp_device device =
        served("five owners of version 1", power_on(fp_off(), old_flash.bytes, old_flash.length), FP_TAKEN, 0, 5);
    flash = device.stored;
    old_flash.bytes[2] = 2;
    if (memcmp(&flash, &old_flash, sizeof flash) != 0)
        stop("the same list in version 2");
    old_flash.bytes[2] = 1;
    return device;
}

static fp_device sixth_owner(fp_device device)
{
    device = paired_with_z(device);
    device = served("the sixth owner's account key",
                    fp_account_key_write(device, LINK, 1000, ACCOUNT_KEY_BLOCK, sizeof ACCOUNT_KEY_BLOCK), FP_TAKEN, 0,
                    6);
    advertises(device, OF_SIX, sizeof OF_SIX);
    flash = device.stored;
    device = served("power-on from the saved list", power_on(device, flash.bytes, flash.length), FP_TAKEN, 0, 6);
    memset(&old_flash, 0, sizeof old_flash); /* the update is final */
    return device;
}

/* Six owners in a list of version 1 are malformed, and the device stays as it was. */
static void six_of_version_1(fp_device device)
{
    fp_stored wrong = flash;
    wrong.bytes[2] = 1;
    served("six owners of version 1", power_on(device, wrong.bytes, wrong.length), FP_LIST_MALFORMED, 0, 6);
}

static void ten_owners(void)
{
    fp_device device = served("ten owners", power_on(fp_off(), TEN_OWNERS, sizeof TEN_OWNERS), FP_TAKEN, 0, FP_MAX_KEYS);
    advertises(device, OF_TEN, sizeof OF_TEN);
    served("the tenth owner's request", requested(device, 1000, REQUEST_OF_J, sizeof REQUEST_OF_J), FP_TAKEN, 10,
           FP_MAX_KEYS);
}

int main(void)
{
    fp_device device = sixth_owner(first_boot());
    six_of_version_1(device);
    ten_owners();
    printf("every answer, list and advertisement was the one expected\n");
    return 0;
}
