/*
 * Hands the events of a recording to the library, as firmware in C would:
 *
 *     replay feed FILE     prints the nanoseconds that all events took
 *     replay lines FILE    prints what fp_replay has to print of it
 *
 * The recording is read whole before the first event. Every record in it has to be right: what is none ends the program
 * with exit 1.
 */
#include "loaded.h"

#include "../include/fastpair.h"

#include <string.h>

enum { HEAD = 4, START_BYTES = 17 };

static fp_device device;
static uint8_t out[FP_RESPONSE_SIZE], packet[FP_PACKET_MAX];

/* ---- reading */

static uint64_t number(const uint8_t *bytes, size_t length)
{
	uint64_t value = 0;
	for (size_t i = 0; i < length; i++)
		value = value << 8 | bytes[i];
	return value;
}

/* As much of the output as the event was lent: no answer depends on what passes the room here. */
static size_t lent(const uint8_t *length, size_t room)
{
	uint64_t recorded = number(length, 8);
	return recorded < room ? (size_t)recorded : room;
}

/* ---- events: `fields` are what follows the kind, `length` bytes */

static fp_outcome power_on(const uint8_t *fields, size_t length)
{
	size_t list_length = number(fields, 2);
	const uint8_t *rest = fields + 2 + list_length;
	fp_start start;
	memcpy(start.ble.bytes, rest, 6);
	memcpy(start.identity.public_address.bytes, rest + 6, 6);
	memcpy(start.identity.model, rest + 12, 3);
	memcpy(start.salt, rest + 15, 2);
	return fp_power_on(device, fields + 2, list_length, rest + START_BYTES, length - 2 - list_length - START_BYTES,
			   start);
}

static fp_outcome rotated(const uint8_t *fields)
{
	fp_address ble;
	memcpy(ble.bytes, fields + 8, 6);
	return fp_address_rotated(device, ble, fields + 14, number(fields, 8));
}

static fp_outcome key_based(uint8_t link, uint64_t clock, const uint8_t *fields, size_t length)
{
	enum { AFTER_REQUEST = 1 + 32 + 9 + 8 + 8 + 8 };
	const uint8_t *rest = fields + length - AFTER_REQUEST;
	fp_element element = { .accepted = rest[0] };
	memcpy(element.secret, rest + 1, 32);
	return fp_key_based_write(device, link, clock, fields, length - AFTER_REQUEST, element, rest + 33, rest + 42, out,
				  lent(rest + 50, sizeof out), packet, lent(rest + 58, sizeof packet));
}

static fp_outcome passkey(uint8_t link, uint64_t clock, const uint8_t *fields, size_t length)
{
	enum { AFTER_BLOCK = 12 + 8 };
	const uint8_t *rest = fields + length - AFTER_BLOCK;
	return fp_passkey_write(device, link, clock, fields, length - AFTER_BLOCK, rest, out, lent(rest + 12, sizeof out));
}

/* Link and clock stand before the fields of an event on a link. */
static fp_outcome on_link(uint8_t kind, const uint8_t *fields, size_t length)
{
	uint8_t link = fields[0];
	uint64_t clock = number(fields + 1, 8);
	const uint8_t *rest = fields + 9;
	switch (kind) {
	case 0x02:
		return fp_link_up(device, link, clock);
	case 0x03:
		return fp_link_down(device, link, clock);
	case 0x08:
		return key_based(link, clock, rest, length - 9);
	case 0x09:
		return fp_pairing_started(device, link, clock, rest[0]);
	case 0x0A:
		return fp_confirmation_needed(device, link, clock, (uint32_t)number(rest, 4));
	case 0x0B:
		return passkey(link, clock, rest, length - 9);
	case 0x0C:
		return fp_pairing_ended(device, link, clock, rest[0]);
	case 0x0D:
		return fp_account_key_write(device, link, clock, rest, length - 9);
	default:
		return fp_name_write(device, link, clock, rest, length - 9);
	}
}

static fp_outcome fed(uint8_t kind, const uint8_t *fields, size_t length)
{
	switch (kind) {
	case 0x01:
		return fp_overflow(device);
	case 0x04:
		return fp_pairing_mode(device, fields[8], number(fields, 8));
	case 0x05:
		return rotated(fields);
	case 0x06:
		return power_on(fields, length);
	case 0x07:
		return fp_factory_reset(device, number(fields, 8));
	default:
		return on_link(kind, fields, length);
	}
}

/* ---- the whole recording */

static void show(unsigned long event, uint8_t kind, uint8_t answer)
{
	printf("%lu %s %u %u\n", event, KINDS[kind], answer, device.stored.bytes[3]);
}

/* One event after the other. Not inlined, so that its instructions are counted apart from reading the file. */
__attribute__((noinline)) static void feed(bool shown)
{
	unsigned long events = 0;
	device = fp_off();
	for (size_t at = 0; at < recording_length;) {
		const uint8_t *record = recording + at;
		if (recording_length - at < HEAD || record[2] != 1 || record[3] == 0 || record[3] > LAST_KIND)
			stop("this is no record");
		size_t length = number(record, 2);
		at += 2 + length;
		if (at > recording_length)
			stop("the last record is cut");
		fp_outcome outcome = fed(record[3], record + HEAD, length - 2);
		device = outcome.next;
		events++;
		if (shown)
			show(events, record[3], outcome.reply.answer);
	}
}

int main(int argc, char **argv)
{
	bool shown = argc == 3 && !strcmp(argv[1], "lines");
	if (!shown && (argc != 3 || strcmp(argv[1], "feed"))) {
		fputs("usage: replay feed|lines FILE\n", stderr);
		return 2;
	}
	load(argv[2]);
	uint64_t start = now();
	feed(shown);
	if (!shown)
		printf("%llu\n", (unsigned long long)(now() - start));
	free(recording);
	return 0;
}
