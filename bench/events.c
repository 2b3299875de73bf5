/*
 * Calls one event of the interface a number of times on the same device:
 *
 *     events list                            the rows, one a line: number, name
 *     events sizes                           the bytes of fp_device and fp_outcome
 *     events count ROW event|interface COUNT
 *     events stack ROW                       the bytes of stack that one call takes
 *
 * A device or a replay goes in by value, so every call does the same work. `interface` calls, on the row's own device or
 * replay, what only reads it in and writes it out. Exit 1 if an event does not get the answer meant.
 */
#define _DEFAULT_SOURCE /* the members of stack_t */

#include "../include/fastpair.h"
#include "seeker.h"

#include <stdio.h>
#include <stdlib.h>
#include <ucontext.h>

enum { LINK = 3, NO_LINK = 8, BEFORE = 1000, NOW = 2000, PASSKEY = 123456 };
enum { STACK_BYTES = 256 * 1024, PAINT = 0xA5 };

/* Whose key a request is under: an account key's place in the list, a key that nobody holds, the shared secret's. */
enum { UNKNOWN = 15, SHARED = 16 };

static const fp_start START = { .identity = { .public_address = { { 0xA0, 0xB1, 0xC2, 0xD3, 0xE4, 0xF5 } },
					      .model = { 0x12, 0x34, 0x56 } },
				.ble = { { 0x7A, 0x01, 0x02, 0x03, 0x04, 0x05 } },
				.salt = { 0xC7, 0xC8 } };
static const fp_element ELEMENT = { .accepted = 1, .secret = { 0x9D, 0xAD, 0xE4, 0xF8 } };
static const uint8_t NONCE[8] = { 0x70, 0x71, 0x72, 0x73, 0x74, 0x75, 0x76, 0x77 };
static const uint8_t SALT[12] = { 0x50, 0x51, 0x52, 0x53, 0x54, 0x55, 0x56, 0x57, 0x58, 0x59, 0x5A, 0x5B };

/* What the events are given: made before they are counted. */
static uint8_t request[80], passkey_block[16], account_block[16], list[FP_STORED_LIST_MAX];
static uint8_t name[FP_NAME_MAX], written_packet[FP_PACKET_MAX];
static size_t request_length, list_length, name_length, written_length;
static uint8_t out[FP_STORED_LIST_MAX], packet[FP_PACKET_MAX];

/* Account keys that differ in their last byte alone. Real ones differ in their second, and take as long to compare. */
static bool alike;

/* The flags of the requests: 0x20 asks for the name. */
static uint8_t flags;

/* ---- what the phone sends */

static void account_key(unsigned place, uint8_t key[16])
{
	for (unsigned i = 0; i < 16; i++)
		key[i] = (uint8_t)(0x30 + i);
	key[0] = 0x04;
	key[alike ? 15 : 1] = (uint8_t)(0xE0 + place);
}

static void key_under(unsigned whose, uint8_t key[16])
{
	if (whose == SHARED)
		seeker_shared_key(ELEMENT.secret, key);
	else
		account_key(whose, key);
}

static void encrypt(unsigned whose, uint8_t block[16])
{
	uint8_t key[16];
	key_under(whose, key);
	seeker_encrypt(key, block);
}

static void make_request(unsigned whose, uint8_t salt)
{
	memset(request, 0, sizeof request);
	request[1] = flags;
	memcpy(request + 2, START.ble.bytes, 6);
	request[15] = salt;
	encrypt(whose, request);
	request_length = whose == SHARED ? 80 : 16;
}

static void make_blocks(unsigned written)
{
	static const uint8_t passkey[4] = { 0x02, PASSKEY >> 16, PASSKEY >> 8 & 0xFF, PASSKEY & 0xFF };
	memcpy(passkey_block, passkey, sizeof passkey);
	encrypt(SHARED, passkey_block);
	account_key(written, account_block);
	encrypt(SHARED, account_block);
}

/* The packet with which the phone names the device. */
static void make_name_write(size_t length)
{
	uint8_t key[16], written[FP_NAME_MAX];
	key_under(SHARED, key);
	memset(written, 'w', sizeof written);
	written_length = seeker_seal(key, NONCE, written, length, written_packet);
}

static void make_list(unsigned keys)
{
	list_length = 4 + 16 * keys;
	list[1] = (uint8_t)(2 + 16 * keys);
	list[2] = 2;
	list[3] = (uint8_t)keys;
	for (unsigned i = 0; i < keys; i++)
		account_key(i, list + 4 + 16 * i);
}

/* ---- the events that are counted, each at one moment */

static fp_outcome overflow(const fp_device *d) { return fp_overflow(*d); }
static fp_outcome link_up(const fp_device *d) { return fp_link_up(*d, LINK, NOW); }
static fp_outcome link_down(const fp_device *d) { return fp_link_down(*d, LINK, NOW); }
static fp_outcome no_link(const fp_device *d) { return fp_link_up(*d, NO_LINK, NOW); }
static fp_outcome pairing_mode(const fp_device *d) { return fp_pairing_mode(*d, 1, NOW); }
static fp_outcome rotated(const fp_device *d) { return fp_address_rotated(*d, START.ble, SALT, NOW); }
static fp_outcome power_on(const fp_device *d)
{
	return fp_power_on(*d, list, list_length, name, name_length, START);
}
static fp_outcome reset(const fp_device *d) { return fp_factory_reset(*d, NOW); }
static fp_outcome started(const fp_device *d) { return fp_pairing_started(*d, LINK, NOW, 1); }
static fp_outcome needed(const fp_device *d) { return fp_confirmation_needed(*d, LINK, NOW, PASSKEY); }
static fp_outcome ended(const fp_device *d) { return fp_pairing_ended(*d, LINK, NOW, 1); }
static fp_outcome account(const fp_device *d) { return fp_account_key_write(*d, LINK, NOW, account_block, 16); }

static fp_outcome key_based_on(const fp_device *d, uint8_t link, uint64_t clock)
{
	return fp_key_based_write(*d, link, clock, request, request_length, ELEMENT, SALT, NONCE, out, sizeof out, packet,
				  sizeof packet);
}

static fp_outcome key_based(const fp_device *d) { return key_based_on(d, LINK, NOW); }

static fp_outcome name_write(const fp_device *d)
{
	return fp_name_write(*d, LINK, NOW, written_packet, written_length);
}

static fp_outcome passkey(const fp_device *d)
{
	return fp_passkey_write(*d, LINK, NOW, passkey_block, 16, SALT, out, sizeof out);
}

/* A report in an outcome's place, so that a row has one kind of event: nothing else of the outcome is written. */
static fp_outcome told(fp_report report)
{
	fp_outcome o;
	o.reply.answer = report.answer;
	o.reply.tried = 0;
	o.reply.packet_length = 0;
	o.next.stored.length = report.length;
	return o;
}

/* The replay that is fed, and what it is fed with: its device is the row's. */
static fp_replay replay;
static uint8_t record[FP_RECORD_MAX];
static size_t record_length;

/* The status of a feeding, and the place that was read to. The stack of such a row has the fp_fed in it, which an outcome
 * has no room for. */
static fp_outcome told_of(const fp_fed *fed)
{
	return told((fp_report){ .answer = fed->status, .length = fed->at });
}

static fp_outcome fed(size_t length)
{
	fp_fed fed = fp_replay_feed(replay, record, length, 0);
	return told_of(&fed);
}

static fp_outcome fed_record(const fp_device *d) { return (void)d, fed(record_length); }
static fp_outcome fed_byte(const fp_device *d) { return (void)d, fed(1); }
static fp_outcome fed_nothing(const fp_device *d) { return (void)d, fed(0); }

static fp_outcome fed_end(const fp_device *d)
{
	(void)d;
	fp_fed fed = fp_replay_end(replay);
	return told_of(&fed);
}

static fp_outcome advertisement(const fp_device *d) { return told(fp_advertisement(*d, 0, out, sizeof out)); }
static fp_outcome stored_list(const fp_device *d) { return told(fp_stored_list(*d, out, sizeof out)); }

/* What a copy of the state costs, the yardstick of the other rows: by memcpy, not by what the compiler makes of it. */
static fp_outcome copied(const fp_device *d)
{
	static void *(*volatile copy)(void *, const void *, size_t) = memcpy;
	static fp_device kept;
	copy(&kept, d, sizeof kept);
	return told((fp_report){ .answer = FP_TAKEN, .length = kept.stored.length });
}

/* ---- the devices they are called on */

static fp_device must(fp_outcome o, uint8_t answer)
{
	if (o.reply.answer != answer) {
		fprintf(stderr, "preparing a device: answer %u and not %u\n", o.reply.answer, answer);
		exit(1);
	}
	return o.next;
}

static fp_device off(unsigned keys)
{
	make_list(keys);
	return fp_off();
}

/* The list as firmware before 4.5.0 wrote it. */
static fp_device off_older(unsigned keys)
{
	fp_device d = off(keys);
	list[2] = 1;
	return d;
}

static fp_device powered(unsigned keys)
{
	fp_device d = off(keys);
	return must(power_on(&d), FP_TAKEN);
}

static fp_device powered_alike(unsigned keys)
{
	alike = true;
	return powered(keys);
}

/* The longest name for the device that is powered on next. */
static void give_name(void)
{
	name_length = sizeof name;
	memset(name, 'n', sizeof name);
}

static fp_device off_named(unsigned keys)
{
	give_name();
	return off(keys);
}

static fp_device named(unsigned keys)
{
	give_name();
	return powered(keys);
}

/* The request that comes asks for the name. */
static fp_device asked_for_name(unsigned keys)
{
	flags = 0x20;
	return named(keys);
}

static fp_device asked_for_empty_name(unsigned keys)
{
	flags = 0x20;
	return powered(keys);
}

static fp_device open_to_pair(unsigned keys)
{
	return must(fp_pairing_mode(powered(keys), 1, BEFORE), FP_TAKEN);
}

static fp_device asked(unsigned keys)
{
	fp_device d = open_to_pair(keys);
	make_request(SHARED, 0);
	return must(key_based(&d), FP_TAKEN);
}

/* The phone writes a name: the longest, or an empty one in place of the longest. */
static fp_device asked_to_name(unsigned keys)
{
	make_name_write(FP_NAME_MAX);
	return asked(keys);
}

static fp_device asked_to_unname(unsigned keys)
{
	give_name();
	make_name_write(0);
	return asked(keys);
}

static fp_device pairing(unsigned keys)
{
	fp_device d = asked(keys);
	return must(started(&d), FP_TAKEN);
}

static fp_device confirming(unsigned keys)
{
	fp_device d = pairing(keys);
	return must(needed(&d), FP_TAKEN);
}

static fp_device proved(unsigned keys)
{
	fp_device d = confirming(keys);
	return must(passkey(&d), FP_TAKEN);
}

static fp_device paired(unsigned keys)
{
	fp_device d = proved(keys);
	return must(ended(&d), FP_TAKEN);
}

static fp_device locked(unsigned keys)
{
	fp_device d = powered(keys);
	make_request(UNKNOWN, 0);
	for (int i = 0; i < 10; i++)
		d = must(key_based(&d), FP_NO_KEY_FITS);
	return d;
}

/* The radio has not rotated yet. */
static fp_device awaiting_rotation(unsigned keys)
{
	fp_device d = powered(keys);
	make_request(0, 1);
	return must(key_based_on(&d, LINK, BEFORE), FP_TAKEN);
}

/* Every place in use: ten keys, sixteen salts, the longest name, a key on every link, and all keys and salts as alike as
 * can be. The requests are under the last key, so that the keys keep their places, and each is followed by the rotation
 * that it asks for, to the same address and salt. */
static fp_device full(unsigned keys)
{
	alike = true;
	fp_device d = named(keys);
	for (uint8_t i = 1; i <= FP_MAX_SALTS; i++) {
		make_request(keys - 1, i);
		d = must(key_based_on(&d, i % FP_LINKS, BEFORE), FP_TAKEN);
		d = must(fp_address_rotated(d, START.ble, START.salt, BEFORE), FP_TAKEN);
	}
	return d;
}

/* A replay behind a power-on; a link goes up next. */
static fp_device replaying(unsigned keys)
{
	make_list(keys);
	record_length = fp_record_power_on(list, list_length, name, name_length, START, record, sizeof record).length;
	replay = fp_replay_feed(fp_replay_start(), record, record_length, 0).next;
	record_length = fp_record_link_up(LINK, NOW, record, sizeof record).length;
	return replay.device;
}

/* The first byte of the record is held. */
static fp_device replaying_within(unsigned keys)
{
	replaying(keys);
	replay = fp_replay_feed(replay, record, 1, 0).next;
	return replay.device;
}

/* ---- the rows: a name, the device and its keys, the event, what it must answer; whose key a request is under or an
 * account key write carries, and the length of the packet with the device's name that it must leave */

struct row {
	const char *name;
	fp_device (*device)(unsigned keys);
	unsigned keys;
	fp_outcome (*event)(const fp_device *);
	uint8_t answer, tried, length; /* the length of the stored list afterwards, of the text told, or of what was fed */
	unsigned whose;
	uint8_t packet;
};

static const struct row rows[] = {
	{ "copy of an fp_device by memcpy", powered, 0, copied, 0, 0, 4, 0, 0 },
	{ "link up on link 8 (1), 0 keys", powered, 0, no_link, 1, 0, 4, 0, 0 },
	{ "link up on link 8 (1), 1 key", powered, 1, no_link, 1, 0, 20, 0, 0 },
	{ "link up on link 8 (1), 5 keys", powered, 5, no_link, 1, 0, 84, 0, 0 },
	{ "link up on link 8 (1), 10 keys", powered, 10, no_link, 1, 0, 164, 0, 0 },
	{ "link up on link 8 (1), 10 keys that differ in their last byte", powered_alike, 10, no_link, 1, 0, 164, 0, 0 },
	{ "link up on link 8 (1), 0 keys, name of 64 bytes", named, 0, no_link, 1, 0, 4, 0, 0 },
	{ "link up on link 8 (1), all places in use", full, 10, no_link, 1, 0, 164, 0, 0 },
	{ "overflow marker", asked, 0, overflow, 0, 0, 4, 0, 0 },
	{ "link up", powered, 0, link_up, 0, 0, 4, 0, 0 },
	{ "link down", asked, 0, link_down, 0, 0, 4, 0, 0 },
	{ "pairing mode, 0 keys", powered, 0, pairing_mode, 0, 0, 4, 0, 0 },
	{ "pairing mode, 5 keys", powered, 5, pairing_mode, 0, 0, 84, 0, 0 },
	{ "pairing mode, 10 keys", powered, 10, pairing_mode, 0, 0, 164, 0, 0 },
	{ "address rotated, 0 keys", powered, 0, rotated, 0, 0, 4, 0, 0 },
	{ "address rotated, 5 keys", powered, 5, rotated, 0, 0, 84, 0, 0 },
	{ "address rotated, 10 keys", powered, 10, rotated, 0, 0, 164, 0, 0 },
	{ "power-on, 0 keys", off, 0, power_on, 0, 0, 4, 0, 0 },
	{ "power-on, 5 keys", off, 5, power_on, 0, 0, 84, 0, 0 },
	{ "power-on, 5 keys of version 1", off_older, 5, power_on, 0, 0, 84, 0, 0 },
	{ "power-on, 10 keys", off, 10, power_on, 0, 0, 164, 0, 0 },
	{ "power-on, 0 keys, name of 64 bytes", off_named, 0, power_on, 0, 0, 4, 0, 0 },
	{ "factory reset, 10 keys", powered, 10, reset, 0, 0, 4, 0, 0 },
	{ "key-based write of 16, 0 keys (7)", powered, 0, key_based, 7, 0, 4, UNKNOWN, 0 },
	{ "key-based write of 16, 1 key, fits", powered, 1, key_based, 0, 1, 20, 0, 0 },
	{ "key-based write of 16, 1 key, fits, name of 0 bytes sent", asked_for_empty_name, 1, key_based, 0, 1, 20, 0, 16 },
	{ "key-based write of 16, 1 key, fits, name of 64 bytes sent", asked_for_name, 1, key_based, 0, 1, 20, 0, 80 },
	{ "key-based write of 16, 1 key, fits, name of 64 bytes not asked for", named, 1, key_based, 0, 1, 20, 0, 0 },
	{ "key-based write of 16, 5 keys, the first fits", powered, 5, key_based, 0, 1, 84, 0, 0 },
	{ "key-based write of 16, 5 keys, the fifth fits", powered, 5, key_based, 0, 5, 84, 4, 0 },
	{ "key-based write of 16, 5 keys, none fits (7)", powered, 5, key_based, 7, 5, 84, UNKNOWN, 0 },
	{ "key-based write of 16, 10 keys, the first fits", powered, 10, key_based, 0, 1, 164, 0, 0 },
	{ "key-based write of 16, 10 keys, the tenth fits", powered, 10, key_based, 0, 10, 164, 9, 0 },
	{ "key-based write of 16, 10 keys, none fits (7)", powered, 10, key_based, 7, 10, 164, UNKNOWN, 0 },
	{ "key-based write of 16, the tenth fits, all places in use", full, 10, key_based, 0, 10, 164, 9, 0 },
	{ "key-based write of 80, 0 keys, fits", open_to_pair, 0, key_based, 0, 1, 4, SHARED, 0 },
	{ "key-based write locked out (5), 1 key", locked, 1, key_based, 5, 0, 20, 0, 0 },
	{ "key-based write before the rotation (16), 1 key", awaiting_rotation, 1, key_based, 16, 0, 20, 0, 0 },
	{ "pairing started", asked, 0, started, 0, 0, 4, 0, 0 },
	{ "confirmation needed", pairing, 0, needed, 0, 0, 4, 0, 0 },
	{ "passkey write, equal", confirming, 0, passkey, 0, 0, 4, 0, 0 },
	{ "pairing ended", proved, 0, ended, 0, 0, 4, 0, 0 },
	{ "name write of 0 bytes, in place of 64", asked_to_unname, 0, name_write, 0, 0, 4, 0, 0 },
	{ "name write of 64 bytes", asked_to_name, 0, name_write, 0, 0, 4, 0, 0 },
	{ "account key write, 0 keys", paired, 0, account, 0, 0, 20, UNKNOWN, 0 },
	{ "account key write, 5 keys", paired, 5, account, 0, 0, 100, UNKNOWN, 0 },
	{ "account key write, 10 keys", paired, 10, account, 0, 0, 164, UNKNOWN, 0 },
	{ "account key write, 5 keys, the first written again", paired, 5, account, 0, 0, 84, 0, 0 },
	{ "account key write, 10 keys, the first written again", paired, 10, account, 0, 0, 164, 0, 0 },
	{ "advertisement, 0 keys", powered, 0, advertisement, 0, 0, 6, 0, 0 },
	{ "advertisement, 5 keys", powered, 5, advertisement, 0, 0, 18, 0, 0 },
	{ "advertisement, 10 keys", powered, 10, advertisement, 0, 0, 24, 0, 0 },
	{ "stored list, 5 keys", powered, 5, stored_list, 0, 0, 84, 0, 0 },
	{ "stored list, 10 keys", powered, 10, stored_list, 0, 0, 164, 0, 0 },
	{ "replay fed with a record of link up, 0 keys", replaying, 0, fed_record, FP_LINE_SHOWN, 0, 13, 0, 0 },
	{ "replay fed with a record of link up, 10 keys", replaying, 10, fed_record, FP_LINE_SHOWN, 0, 13, 0, 0 },
	{ "replay fed with one byte, 0 keys", replaying, 0, fed_byte, FP_PART_READ, 0, 1, 0, 0 },
	{ "replay fed with one byte, 10 keys", replaying, 10, fed_byte, FP_PART_READ, 0, 1, 0, 0 },
	{ "replay ended behind a record, 0 keys", replaying, 0, fed_end, FP_PART_READ, 0, 0, 0, 0 },
	{ "replay ended within a record, 0 keys", replaying_within, 0, fed_end, FP_LINE_SHOWN, 0, 0, 0, 0 },
};
enum { ROWS = sizeof rows / sizeof *rows };

/* ---- what the row's device or replay costs to read in and to write out */

/* A stored list of no bytes is refused: the device comes back. */
static fp_outcome refused(const fp_device *d) { return fp_power_on(*d, list, 0, name, 0, START); }
static fp_outcome no_room(const fp_device *d) { return told(fp_stored_list(*d, out, 0)); }
static fp_outcome nothing(const fp_device *d) { return told((fp_report){ .answer = (uint8_t)d->clock, .length = 0 }); }

/* A question writes no device out, and a copy by C does not read one in. */
static fp_outcome (*interface_of(const struct row *row))(const fp_device *)
{
	if (row->event == copied)
		return nothing;
	if (row->device == replaying || row->device == replaying_within)
		return fed_nothing;
	return row->event == advertisement || row->event == stored_list ? no_room : refused;
}

/* An account key write that is taken uses a key, and so does a request of 16 bytes: that key is the list's last then. */
static bool used_is_last(const struct row *row, const fp_stored *stored)
{
	uint8_t key[16];
	if (row->answer != FP_TAKEN || row->whose == SHARED || (row->event != account && row->event != key_based))
		return true;
	account_key(row->whose, key);
	return !memcmp(stored->bytes + stored->length - sizeof key, key, sizeof key);
}

static void check(const struct row *row, const fp_device *d)
{
	fp_outcome o = row->event(d);
	if (o.reply.answer == row->answer && o.reply.tried == row->tried && o.next.stored.length == row->length &&
	    o.reply.packet_length == row->packet && used_is_last(row, &o.next.stored))
		return;
	fprintf(stderr, "%s: answer %u, %u tried, length %u, packet of %u, or the used key is not last\n", row->name,
		o.reply.answer, o.reply.tried, (unsigned)o.next.stored.length, o.reply.packet_length);
	exit(1);
}

/* ---- the stack of one call: a stack of its own, painted, and how far down the paint is gone */

static uint8_t stack[STACK_BYTES];
static ucontext_t here, there;
static fp_outcome (*on_stack)(const fp_device *);
static const fp_device *handed;

static void call(void)
{
	fp_outcome o = on_stack(handed);
	out[0] = o.reply.answer;
}

static size_t touched(fp_outcome (*event)(const fp_device *), const fp_device *d)
{
	size_t clean = 0;
	on_stack = event;
	handed = d;
	memset(stack, PAINT, sizeof stack);
	getcontext(&there);
	there.uc_stack.ss_sp = stack;
	there.uc_stack.ss_size = sizeof stack;
	there.uc_link = &here;
	makecontext(&there, call, 0);
	swapcontext(&here, &there);
	while (stack[clean] == PAINT)
		clean++;
	return sizeof stack - clean;
}

/* ---- commands */

static void repeat(fp_outcome (*event)(const fp_device *), const fp_device *d, unsigned long count)
{
	for (unsigned long i = 0; i < count; i++)
		out[0] = event(d).reply.answer;
}

static int list_rows(void)
{
	for (size_t i = 0; i < ROWS; i++)
		printf("%zu %s\n", i, rows[i].name);
	return 0;
}

/* The checked call comes first: it also lets the loader find memcpy, which would take stack of its own. */
static int on_row(const struct row *row, int argc, char **argv)
{
	make_blocks(row->whose);
	fp_device d = row->device(row->keys);
	make_request(row->whose, 0);
	check(row, &d);
	if (!strcmp(argv[1], "stack"))
		return printf("%zu\n", touched(row->event, &d) - touched(nothing, &d)) < 0;
	if (argc != 5)
		return 2;
	bool interface = !strcmp(argv[3], "interface");
	repeat(interface ? interface_of(row) : row->event, &d, strtoul(argv[4], NULL, 10));
	return 0;
}

int main(int argc, char **argv)
{
	if (argc == 2 && !strcmp(argv[1], "list"))
		return list_rows();
	if (argc == 2 && !strcmp(argv[1], "sizes"))
		return printf("%zu %zu\n", sizeof(fp_device), sizeof(fp_outcome)) < 0;
	if (argc > 2 && strtoul(argv[2], NULL, 10) < ROWS)
		return on_row(&rows[strtoul(argv[2], NULL, 10)], argc, argv);
	fputs("usage: events list|sizes|count ROW event|interface COUNT|stack ROW\n", stderr);
	return 2;
}
