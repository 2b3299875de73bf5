/*
 * Runs one operation of one implementation a number of times:
 *
 *     bench ours|bearssl digest|encrypt|decrypt|seal|open LENGTH COUNT
 *     bench bearssl-big|bearssl-ct encrypt|decrypt 16 COUNT
 *
 * and prints the nanoseconds that all of it took and the bytes that came out last. Each turn works
 * on what the turn before it made, so the last bytes depend on every turn; `open` counts the packets
 * that were good. LENGTH is that of the message, of the name to seal or of the packet to open; a
 * block has 16 bytes.
 */
#define _POSIX_C_SOURCE 200809L /* clock_gettime */

#include <bearssl.h>
#include <stdbool.h>
#include <stdint.h>
#include <stdio.h>
#include <stdlib.h>
#include <string.h>
#include <time.h>

/* Ours: crates/bench_exports. */
void bench_digest(const uint8_t *msg, size_t len, uint8_t out[32]);
void bench_encrypt(const uint8_t key[16], uint8_t block[16]);
void bench_decrypt(const uint8_t key[16], uint8_t block[16]);
void bench_seal(const uint8_t key[16], const uint8_t nonce[8], const uint8_t *name, size_t name_len, uint8_t out[80]);
uint8_t bench_open(const uint8_t key[16], const uint8_t *packet, size_t packet_len);

/* BearSSL's AES with small and with big tables, and its key schedules: in its archive, and not in its headers. */
unsigned br_aes_keysched(uint32_t *skey, const void *key, size_t key_len);
void br_aes_small_encrypt(unsigned num_rounds, const uint32_t *skey, void *data);
void br_aes_small_decrypt(unsigned num_rounds, const uint32_t *skey, void *data);
void br_aes_big_encrypt(unsigned num_rounds, const uint32_t *skey, void *data);
unsigned br_aes_big_keysched_inv(uint32_t *skey, const void *key, size_t key_len);
void br_aes_big_decrypt(unsigned num_rounds, const uint32_t *skey, void *data);

enum { LONGEST = 1000, SCHEDULE_WORDS = 60 };

/* A packet: the tag, the nonce, and the name under the counter mode. */
enum { TAG = 8, NONCE = 8, DATA = TAG + NONCE, NAME_MAX = 64, PACKET_MAX = DATA + NAME_MAX };

struct work {
	size_t length;
	uint8_t key[16];
	uint8_t message[LONGEST];
	uint8_t nonce[NONCE];
	uint8_t name[NAME_MAX]; /* ASCII, so UTF-8 */
	uint8_t packet[PACKET_MAX]; /* with as much of that name as fits the length, by BearSSL */
	uint8_t opened[NAME_MAX]; /* what BearSSL opened last */
	uint8_t result[PACKET_MAX]; /* the hash, the block, the packet, or the number of good ones; and zeros */
};

typedef void (*operation)(struct work *);

static void ours_digest(struct work *w)
{
	bench_digest(w->message, w->length, w->result);
	w->message[0] = w->result[0];
}

static void bearssl_digest(struct work *w)
{
	br_sha256_context context;
	br_sha256_init(&context);
	br_sha256_update(&context, w->message, w->length);
	br_sha256_out(&context, w->result);
	w->message[0] = w->result[0];
}

static void ours_encrypt(struct work *w)
{
	bench_encrypt(w->key, w->result);
}

static void bearssl_encrypt(struct work *w)
{
	uint32_t schedule[SCHEDULE_WORDS];
	unsigned rounds = br_aes_keysched(schedule, w->key, sizeof w->key);
	br_aes_small_encrypt(rounds, schedule, w->result);
}

static void ours_decrypt(struct work *w)
{
	bench_decrypt(w->key, w->result);
}

static void bearssl_decrypt(struct work *w)
{
	uint32_t schedule[SCHEDULE_WORDS];
	unsigned rounds = br_aes_keysched(schedule, w->key, sizeof w->key);
	br_aes_small_decrypt(rounds, schedule, w->result);
}

/* ---- yardsticks: BearSSL's AES with big tables, and that in constant time */

static void bearssl_big_encrypt(struct work *w)
{
	uint32_t schedule[SCHEDULE_WORDS];
	unsigned rounds = br_aes_keysched(schedule, w->key, sizeof w->key);
	br_aes_big_encrypt(rounds, schedule, w->result);
}

static void bearssl_big_decrypt(struct work *w)
{
	uint32_t schedule[SCHEDULE_WORDS];
	unsigned rounds = br_aes_big_keysched_inv(schedule, w->key, sizeof w->key);
	br_aes_big_decrypt(rounds, schedule, w->result);
}

/* A block by itself is a message of one block in CBC mode, with zeros before it. */
static void bearssl_ct_encrypt(struct work *w)
{
	br_aes_ct_cbcenc_keys keys;
	uint8_t before[16] = { 0 };
	br_aes_ct_cbcenc_init(&keys, w->key, sizeof w->key);
	br_aes_ct_cbcenc_run(&keys, before, w->result, 16);
}

static void bearssl_ct_decrypt(struct work *w)
{
	br_aes_ct_cbcdec_keys keys;
	uint8_t before[16] = { 0 };
	br_aes_ct_cbcdec_init(&keys, w->key, sizeof w->key);
	br_aes_ct_cbcdec_run(&keys, before, w->result, 16);
}

/* ---- packets with a name */

static void ours_seal(struct work *w)
{
	bench_seal(w->key, w->nonce, w->name, w->length, w->result);
	w->nonce[0] = w->result[0];
}

/* Block i of the data is joined with the cipher of `i, seven zero bytes, nonce`. BearSSL's own counter mode has its
 * counter in the last four bytes, so its cipher is called block by block; the key is expanded once. */
static void bearssl_counter_mode(const uint8_t key[16], const uint8_t nonce[NONCE], uint8_t *data, size_t length)
{
	uint32_t schedule[SCHEDULE_WORDS];
	unsigned rounds = br_aes_keysched(schedule, key, 16);
	for (size_t at = 0; at < length; at += 16) {
		uint8_t block[16] = { (uint8_t)(at / 16) };
		memcpy(block + 8, nonce, NONCE);
		br_aes_small_encrypt(rounds, schedule, block);
		for (size_t i = 0; i < 16 && at + i < length; i++)
			data[at + i] ^= block[i];
	}
}

/* The tag of nonce and data. HMAC fills its key up with zeros to 64 bytes. */
static void bearssl_tag(const uint8_t key[16], const uint8_t *message, size_t length, uint8_t tag[TAG])
{
	br_hmac_key_context padded;
	br_hmac_context context;
	br_hmac_key_init(&padded, &br_sha256_vtable, key, 16);
	br_hmac_init(&context, &padded, TAG);
	br_hmac_update(&context, message, length);
	br_hmac_out(&context, tag);
}

static void bearssl_packet(const struct work *w, size_t name_length, uint8_t *packet)
{
	memcpy(packet + TAG, w->nonce, NONCE);
	memcpy(packet + DATA, w->name, name_length);
	bearssl_counter_mode(w->key, w->nonce, packet + DATA, name_length);
	bearssl_tag(w->key, packet + TAG, NONCE + name_length, packet);
}

static void bearssl_seal(struct work *w)
{
	bearssl_packet(w, w->length, w->result);
	w->nonce[0] = w->result[0];
}

static void ours_open(struct work *w)
{
	w->result[0] += bench_open(w->key, w->packet, w->length);
}

static void bearssl_open(struct work *w)
{
	uint8_t tag[TAG], different = 0;
	bearssl_tag(w->key, w->packet + TAG, w->length - TAG, tag);
	for (size_t i = 0; i < TAG; i++)
		different |= tag[i] ^ w->packet[i];
	if (different)
		return;
	memcpy(w->opened, w->packet + DATA, w->length - DATA);
	bearssl_counter_mode(w->key, w->packet + TAG, w->opened, w->length - DATA);
	w->result[0]++;
}

static const struct operation_of {
	const char *who, *what;
	operation run;
	size_t shortest, longest;
} operations[] = {
	{ "ours", "digest", ours_digest, 0, LONGEST },
	{ "ours", "encrypt", ours_encrypt, 16, 16 },
	{ "ours", "decrypt", ours_decrypt, 16, 16 },
	{ "ours", "seal", ours_seal, 0, NAME_MAX },
	{ "ours", "open", ours_open, DATA, PACKET_MAX },
	{ "bearssl", "digest", bearssl_digest, 0, LONGEST },
	{ "bearssl", "encrypt", bearssl_encrypt, 16, 16 },
	{ "bearssl", "decrypt", bearssl_decrypt, 16, 16 },
	{ "bearssl", "seal", bearssl_seal, 0, NAME_MAX },
	{ "bearssl", "open", bearssl_open, DATA, PACKET_MAX },
	{ "bearssl-big", "encrypt", bearssl_big_encrypt, 16, 16 },
	{ "bearssl-big", "decrypt", bearssl_big_decrypt, 16, 16 },
	{ "bearssl-ct", "encrypt", bearssl_ct_encrypt, 16, 16 },
	{ "bearssl-ct", "decrypt", bearssl_ct_decrypt, 16, 16 },
};

/* The operation, if it takes that length. */
static operation find(const char *who, const char *what, size_t length)
{
	for (size_t i = 0; i < sizeof operations / sizeof *operations; i++) {
		const struct operation_of *o = &operations[i];
		if (!strcmp(o->who, who) && !strcmp(o->what, what))
			return o->shortest <= length && length <= o->longest ? o->run : NULL;
	}
	return NULL;
}

static void fill(uint8_t *bytes, size_t count, unsigned first)
{
	for (size_t i = 0; i < count; i++)
		bytes[i] = (uint8_t)(7 * i + first);
}

/* A packet to open, and before it a damaged one, which has to be refused. */
static void prepare_open(operation run, struct work *w)
{
	bearssl_packet(w, w->length - DATA, w->packet);
	w->packet[w->length - 1] ^= 1;
	run(w);
	w->packet[w->length - 1] ^= 1;
	bool refused = w->result[0] == 0;
	bearssl_open(w);
	if (!refused || w->result[0] != 1 || memcmp(w->opened, w->name, w->length - DATA)) {
		fputs("open: a damaged packet is not refused, or a good one does not hold its name\n", stderr);
		exit(1);
	}
	w->result[0] = 0;
}

static uint64_t now(void)
{
	struct timespec t;
	clock_gettime(CLOCK_MONOTONIC, &t);
	return (uint64_t)t.tv_sec * 1000000000u + (uint64_t)t.tv_nsec;
}

int main(int argc, char **argv)
{
	static struct work work;
	work.length = argc == 5 ? strtoul(argv[3], NULL, 10) : 0;
	operation run = argc == 5 ? find(argv[1], argv[2], work.length) : NULL;
	if (run == NULL) {
		fputs("usage: bench ours|bearssl digest|encrypt|decrypt|seal|open LENGTH COUNT\n"
		      "       bench bearssl-big|bearssl-ct encrypt|decrypt 16 COUNT\n",
		      stderr);
		return 2;
	}
	fill(work.key, sizeof work.key, 1);
	fill(work.message, sizeof work.message, 3);
	fill(work.nonce, sizeof work.nonce, 5);
	memset(work.name, 'n', sizeof work.name);
	if (!strcmp(argv[2], "open"))
		prepare_open(run, &work);
	unsigned long count = strtoul(argv[4], NULL, 10);

	uint64_t start = now();
	for (unsigned long i = 0; i < count; i++)
		run(&work);
	uint64_t end = now();

	printf("%llu ", (unsigned long long)(end - start));
	for (size_t i = 0; i < sizeof work.result; i++)
		printf("%02x", work.result[i]);
	puts("");
	return 0;
}
