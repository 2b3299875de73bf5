/*
 * What a phone sends, made with BearSSL: blocks under a key, and packets with a name.
 */
#ifndef SEEKER_H
#define SEEKER_H

#include <bearssl.h>
#include <stdint.h>
#include <string.h>

/* BearSSL's small AES and its key schedule: in its archive, and not in its headers. */
unsigned br_aes_keysched(uint32_t *skey, const void *key, size_t key_len);
void br_aes_small_encrypt(unsigned num_rounds, const uint32_t *skey, void *data);

/* The key K of a request with a public key: the first 16 bytes of SHA-256 of the element's secret. */
static inline void seeker_shared_key(const uint8_t secret[32], uint8_t key[16])
{
	uint8_t digest[32];
	br_sha256_context context;
	br_sha256_init(&context);
	br_sha256_update(&context, secret, 32);
	br_sha256_out(&context, digest);
	memcpy(key, digest, 16);
}

static inline void seeker_encrypt(const uint8_t key[16], uint8_t block[16])
{
	uint32_t schedule[60];
	br_aes_small_encrypt(br_aes_keysched(schedule, key, 16), schedule, block);
}

/* A packet with a name: its tag, its nonce, and the name under the counter mode. Gives back its length. */
static inline size_t seeker_seal(const uint8_t key[16], const uint8_t nonce[8], const uint8_t *name, size_t length,
				 uint8_t packet[80])
{
	br_hmac_key_context padded;
	br_hmac_context context;
	memcpy(packet + 8, nonce, 8);
	for (size_t at = 0; at < length; at += 16) {
		uint8_t block[16] = { (uint8_t)(at / 16) };
		memcpy(block + 8, nonce, 8);
		seeker_encrypt(key, block);
		for (size_t i = 0; i < 16 && at + i < length; i++)
			packet[16 + at + i] = name[at + i] ^ block[i];
	}
	br_hmac_key_init(&padded, &br_sha256_vtable, key, 16);
	br_hmac_init(&context, &padded, 8);
	br_hmac_update(&context, packet + 8, 8 + length);
	br_hmac_out(&context, packet);
	return 16 + length;
}

#endif
