/* One record of each kind, to standard output: the examples of docs/RECORDING.md, in their order.
 *
 *     every_kind >RECORDING
 *
 * Each fp_record_.. is called once. examples/run compares the bytes with those that the page prints. Exit 1 if a record is
 * not written.
 */
#include "phone.h"

#include <stdio.h>
#include <stdlib.h>

static uint8_t record[FP_RECORD_MAX];

static void put(fp_report report)
{
    if (report.answer != FP_TAKEN || fwrite(record, 1, report.length, stdout) != report.length) {
        fprintf(stderr, "every_kind: a record was expected, and answer %u came\n", report.answer);
        exit(1);
    }
}

static void put_events_of_the_device(void)
{
    static const fp_address rotated = {{0x7A, 0x11, 0x12, 0x13, 0x14, 0x15}};
    static const uint8_t filter_salt[2] = {0xC9, 0xCA};
    put(fp_record_pairing_mode(1, 1000, record, sizeof record));
    put(fp_record_address_rotated(rotated, filter_salt, 900000, record, sizeof record));
    put(fp_record_power_on(EMPTY_LIST, sizeof EMPTY_LIST, MAKERS_NAME, sizeof MAKERS_NAME, START, record, sizeof record));
    put(fp_record_factory_reset(70000, record, sizeof record));
}

/* The lengths 16 and 80 are those of the outputs that the events are lent. */
static void put_pairing(void)
{
    static const uint8_t zeros[16], salt[12] = {0x50, 0x51, 0x52, 0x53, 0x54, 0x55, 0x56, 0x57, 0x58, 0x59, 0x5A, 0x5B};
    static const fp_element rejected = {.accepted = 0, .secret = {0xFF}}; /* recorded as zeros */
    put(fp_record_key_based_write(LINK, 2500, zeros, sizeof zeros, rejected, RESPONSE_SALT, NONCE, FP_RESPONSE_SIZE,
                                  FP_PACKET_MAX, record, sizeof record));
    put(fp_record_pairing_started(LINK, 2600, DISPLAY_YES_NO, record, sizeof record));
    put(fp_record_confirmation_needed(LINK, 2700, PASSKEY, record, sizeof record));
    put(fp_record_passkey_write(LINK, 2800, zeros, sizeof zeros, salt, FP_RESPONSE_SIZE, record, sizeof record));
    put(fp_record_pairing_ended(LINK, 2900, 0xFF, record, sizeof record)); /* any number but 0 is recorded as 1 */
    put(fp_record_account_key_write(LINK, 3000, zeros, sizeof zeros, record, sizeof record));
    put(fp_record_name_write(LINK, 3100, zeros, sizeof zeros, record, sizeof record));
}

int main(void)
{
    put(fp_record_overflow(record, sizeof record));
    put(fp_record_link_up(LINK, 2000, record, sizeof record));
    put(fp_record_link_down(LINK, 60000, record, sizeof record));
    put_events_of_the_device();
    put_pairing();
    return fflush(stdout) == 0 ? 0 : 1;
}
