/*
 * A recording that is read whole before anything is measured, the names that fp_replay prints, and a clock.
 */
#ifndef LOADED_H
#define LOADED_H

#define _POSIX_C_SOURCE 200809L /* clock_gettime */

#include <stdint.h>
#include <stdio.h>
#include <stdlib.h>
#include <time.h>

static const char *const KINDS[] = { NULL, "marker", "link-up", "link-down", "pairing-mode", "address-rotated", "power-on",
				     "factory-reset", "key-based-write", "pairing-started", "confirmation-needed",
				     "passkey-write", "pairing-ended", "account-key-write", "name-write" };
enum { LAST_KIND = sizeof KINDS / sizeof *KINDS - 1 };

static uint8_t *recording;
static size_t recording_length;

static void stop(const char *what)
{
	fprintf(stderr, "%s\n", what);
	exit(1);
}

static void load(const char *path)
{
	FILE *file = fopen(path, "rb");
	if (file == NULL || fseek(file, 0, SEEK_END) != 0)
		stop(path);
	recording_length = (size_t)ftell(file);
	recording = malloc(recording_length + 1);
	rewind(file);
	if (recording == NULL || fread(recording, 1, recording_length, file) != recording_length)
		stop(path);
	fclose(file);
}

/* In nanoseconds. */
static uint64_t now(void)
{
	struct timespec t;
	clock_gettime(CLOCK_MONOTONIC, &t);
	return (uint64_t)t.tv_sec * 1000000000u + (uint64_t)t.tv_nsec;
}

#endif
