/*
 * Makes a recording, the same one in every run:
 *
 *     recording EVENTS FILE
 *
 * Fifty events are a turn: a new phone pairs, names the device and stores its account key, and comes back with a request
 * under that key; then 36 events that need no cipher. So a tenth of the events are taken writes with ciphers: a request with
 * a public key, one under an account key, a name, a passkey, an account key. EVENTS is a multiple of fifty. Blocks and
 * packets of the phone are made with BearSSL. Exit 1 if a record is not written.
 */
#include "../include/fastpair.h"
#include "seeker.h"

#include <stdio.h>
#include <stdlib.h>

enum { TURN = 50, QUIET = 36, PASSKEY_LIMIT = 1000000, TURNS_BETWEEN_POWER_ONS = 100 };

static const fp_identity IDENTITY = { .public_address = { { 0xA0, 0xB1, 0xC2, 0xD3, 0xE4, 0xF5 } },
				      .model = { 0x12, 0x34, 0x56 } };

static FILE *file;
static uint8_t record[FP_RECORD_MAX];
static uint64_t moment;

/* ---- bytes and numbers from a fixed seed: splitmix64 */

static uint64_t drawn(void)
{
	static uint64_t state = 2026;
	uint64_t z = state += 0x9E3779B97F4A7C15u;
	z = (z ^ z >> 30) * 0xBF58476D1CE4E5B9u;
	z = (z ^ z >> 27) * 0x94D049BB133111EBu;
	return z ^ z >> 31;
}

static uint64_t below(uint64_t limit)
{
	return drawn() % limit;
}

static void fill(uint8_t *bytes, size_t length)
{
	for (size_t i = 0; i < length; i++)
		bytes[i] = (uint8_t)drawn();
}

/* ---- records */

static void put(fp_report report)
{
	if (report.answer != FP_TAKEN || fwrite(record, 1, report.length, file) != report.length) {
		fprintf(stderr, "a record gets %u, or is not written\n", report.answer);
		exit(1);
	}
}

static uint64_t later(void)
{
	return moment += 1 + below(40);
}

static void put_power_on(void)
{
	uint8_t list[FP_STORED_LIST_MAX] = { 0x00, 0x02, 0x02 }, keys = (uint8_t)below(FP_MAX_KEYS + 1);
	fp_start start = { .identity = IDENTITY };
	list[1] = (uint8_t)(2 + 16 * keys);
	list[3] = keys;
	for (size_t i = 0; i < keys; i++) {
		fill(list + 4 + 16 * i, 16);
		list[4 + 16 * i] = 0x04;
	}
	fill(start.ble.bytes, sizeof start.ble.bytes);
	fill(start.salt, sizeof start.salt);
	put(fp_record_power_on(list, 4u + 16u * keys, (const uint8_t *)"Earbuds", 7, start, record, sizeof record));
	moment = 0;
}

/* ---- what a phone writes: each is taken */

/* A request that names the public address, and in every second one asks for the name. */
static void make_request(const uint8_t key[16], uint8_t block[16])
{
	fill(block, 16);
	block[0] = 0x00;
	block[1] = below(2) ? 0x20 : 0x00;
	memcpy(block + 2, IDENTITY.public_address.bytes, 6);
	seeker_encrypt(key, block);
}

static void put_request(uint8_t link, const uint8_t *request, size_t length, fp_element element)
{
	uint8_t salt[9], nonce[8];
	fill(salt, sizeof salt);
	fill(nonce, sizeof nonce);
	put(fp_record_key_based_write(link, later(), request, length, element, salt, nonce, FP_RESPONSE_SIZE,
				      FP_PACKET_MAX, record, sizeof record));
}

static void put_first_request(uint8_t link, uint8_t key[16])
{
	uint8_t request[80];
	fp_element element = { .accepted = 1 };
	fill(element.secret, sizeof element.secret);
	fill(request, sizeof request);
	seeker_shared_key(element.secret, key);
	make_request(key, request);
	put_request(link, request, sizeof request, element);
}

static void put_owners_request(uint8_t link, const uint8_t account_key[16])
{
	uint8_t request[16];
	make_request(account_key, request);
	put_request(link, request, sizeof request, (fp_element){ 0 });
}

static void put_name(uint8_t link, const uint8_t key[16])
{
	uint8_t name[FP_NAME_MAX], nonce[8], packet[FP_PACKET_MAX];
	memset(name, 'n', sizeof name);
	fill(nonce, sizeof nonce);
	size_t length = seeker_seal(key, nonce, name, below(FP_NAME_MAX + 1), packet);
	put(fp_record_name_write(link, later(), packet, length, record, sizeof record));
}

static void put_passkey(uint8_t link, const uint8_t key[16], uint32_t passkey)
{
	uint8_t block[16], salt[12];
	fill(salt, sizeof salt);
	fill(block, sizeof block);
	block[0] = 0x02;
	for (int i = 1; i <= 3; i++)
		block[i] = (uint8_t)(passkey >> 8 * (3 - i));
	seeker_encrypt(key, block);
	put(fp_record_passkey_write(link, later(), block, sizeof block, salt, FP_RESPONSE_SIZE, record, sizeof record));
}

static void put_account_key(uint8_t link, const uint8_t key[16], uint8_t account_key[16])
{
	uint8_t block[16];
	fill(account_key, 16);
	account_key[0] = 0x04;
	memcpy(block, account_key, sizeof block);
	seeker_encrypt(key, block);
	put(fp_record_account_key_write(link, later(), block, sizeof block, record, sizeof record));
}

/* Fourteen events, five of them with ciphers. Every link is idle at the end, and pairing mode off. */
static void put_pairing(uint8_t link)
{
	uint8_t key[16], account_key[16];
	uint32_t passkey = (uint32_t)below(PASSKEY_LIMIT);
	put(fp_record_pairing_mode(1, later(), record, sizeof record));
	put(fp_record_link_up(link, later(), record, sizeof record));
	put_first_request(link, key);
	put_name(link, key);
	put(fp_record_pairing_started(link, later(), 1, record, sizeof record));
	put(fp_record_confirmation_needed(link, later(), passkey, record, sizeof record));
	put_passkey(link, key, passkey);
	put(fp_record_pairing_ended(link, later(), 1, record, sizeof record));
	put_account_key(link, key, account_key);
	put(fp_record_link_down(link, later(), record, sizeof record));
	put(fp_record_link_up(link, later(), record, sizeof record));
	put_owners_request(link, account_key);
	put(fp_record_link_down(link, later(), record, sizeof record));
	put(fp_record_pairing_mode(0, later(), record, sizeof record));
}

/* ---- events that need no cipher, while every link is idle and pairing mode is off: taken ones and refused ones */

/* Writes on an idle link, a request in the wrong mode, or one of the wrong length. */
static void put_refused_write(uint8_t link)
{
	uint8_t bytes[81], salt[12];
	fill(bytes, sizeof bytes);
	fill(salt, sizeof salt);
	switch (below(4)) {
	case 0:
		put_request(link, bytes, 80 + below(2), (fp_element){ 0 });
		break;
	case 1:
		put(fp_record_passkey_write(link, later(), bytes, 16, salt, FP_RESPONSE_SIZE, record, sizeof record));
		break;
	case 2:
		put(fp_record_account_key_write(link, later(), bytes, 16, record, sizeof record));
		break;
	default:
		put(fp_record_name_write(link, later(), bytes, 15 + below(66), record, sizeof record));
	}
}

static void put_refused_step(uint8_t link)
{
	switch (below(4)) {
	case 0:
		put(fp_record_pairing_started(link, later(), 1, record, sizeof record));
		break;
	case 1:
		put(fp_record_confirmation_needed(link, later(), (uint32_t)below(2 * PASSKEY_LIMIT), record,
						  sizeof record));
		break;
	case 2:
		put(fp_record_pairing_ended(link, later(), (uint8_t)below(2), record, sizeof record));
		break;
	default: /* the clock goes back */
		put(fp_record_link_up(link, moment - 1, record, sizeof record));
	}
}

static void put_event_of_the_device(void)
{
	fp_address ble;
	uint8_t salt[2];
	switch (below(8)) {
	case 0:
		put(fp_record_overflow(record, sizeof record));
		break;
	case 1:
		fill(ble.bytes, sizeof ble.bytes);
		fill(salt, sizeof salt);
		put(fp_record_address_rotated(ble, salt, later(), record, sizeof record));
		break;
	case 2:
		put(below(8) ? fp_record_pairing_mode(0, later(), record, sizeof record)
			     : fp_record_factory_reset(later(), record, sizeof record));
		break;
	default:
		put(fp_record_pairing_mode(0, later(), record, sizeof record));
	}
}

/* Most are links that come and go, some of them on link 8, which is none. */
static void put_quiet(void)
{
	uint8_t link = (uint8_t)below(FP_LINKS + 1);
	switch (below(8)) {
	case 0:
		put_refused_write(link);
		break;
	case 1:
		put_refused_step(link);
		break;
	case 2:
		put_event_of_the_device();
		break;
	default:
		put(below(2) ? fp_record_link_up(link, later(), record, sizeof record)
			     : fp_record_link_down(link, later(), record, sizeof record));
	}
}

/* The first turn begins with a power-on in a quiet event's place, and so does every hundredth after it. */
static void put_turn(unsigned long turn)
{
	bool powers_on = turn % TURNS_BETWEEN_POWER_ONS == 0;
	if (powers_on)
		put_power_on();
	put_pairing((uint8_t)below(FP_LINKS));
	for (int i = powers_on ? 1 : 0; i < QUIET; i++)
		put_quiet();
}

int main(int argc, char **argv)
{
	unsigned long events = argc == 3 ? strtoul(argv[1], NULL, 10) : 0;
	if (events == 0 || events % TURN != 0) {
		fputs("usage: recording EVENTS FILE, with a multiple of 50 EVENTS\n", stderr);
		return 2;
	}
	file = fopen(argv[2], "wb");
	if (file == NULL) {
		perror(argv[2]);
		return 1;
	}
	for (unsigned long turn = 0; turn < events / TURN; turn++)
		put_turn(turn);
	return fclose(file) == 0 ? 0 : 1;
}
