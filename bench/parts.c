/*
 * Feeds the library's replay with a recording in parts, as the tool of a debug probe would:
 *
 *     parts feed SIZE FILE     prints the nanoseconds that all parts and the end took
 *     parts lines SIZE FILE    prints what fp_replay has to print of it
 *     parts sizes              prints the bytes of fp_replay and of fp_fed
 *
 * The recording is read whole before the first part. A part has SIZE bytes, and the last one what is left: if SIZE is not
 * less than the recording, it is one part.
 */
#include "loaded.h"

#include "../include/fastpair.h"

#include <inttypes.h>
#include <string.h>

static fp_replay replay;

static void show(const fp_line *line)
{
	printf("%" PRIu64 " %s %u %" PRIu64 "\n", line->number, KINDS[line->kind], line->answer, line->keys);
}

static void taken(const fp_fed *fed, bool shown)
{
	replay = fed->next;
	if (fed->status == FP_NOT_A_REPLAY)
		stop("this is no replay");
	if (shown && fed->status == FP_LINE_SHOWN)
		show(&fed->line);
}

static void feed_part(const uint8_t *part, size_t length, bool shown)
{
	for (size_t at = 0; at < length;) {
		fp_fed fed = fp_replay_feed(replay, part, length, at);
		at = fed.at;
		taken(&fed, shown);
	}
}

/* One part after the other, and the end. Not inlined, so that its instructions are counted apart from reading the file. */
__attribute__((noinline)) static void feed(size_t size, bool shown)
{
	replay = fp_replay_start();
	for (size_t at = 0, length; at < recording_length; at += length) {
		length = recording_length - at < size ? recording_length - at : size;
		feed_part(recording + at, length, shown);
	}
	fp_fed fed = fp_replay_end(replay);
	taken(&fed, shown);
}

int main(int argc, char **argv)
{
	if (argc == 2 && !strcmp(argv[1], "sizes"))
		return printf("%zu %zu\n", sizeof(fp_replay), sizeof(fp_fed)) < 0;
	bool shown = argc == 4 && !strcmp(argv[1], "lines");
	size_t size = argc == 4 ? strtoul(argv[2], NULL, 10) : 0;
	if (size == 0 || (!shown && strcmp(argv[1], "feed"))) {
		fputs("usage: parts feed|lines SIZE FILE, with a SIZE of 1 or more; parts sizes\n", stderr);
		return 2;
	}
	load(argv[3]);
	uint64_t start = now();
	feed(size, shown);
	if (!shown)
		printf("%llu\n", (unsigned long long)(now() - start));
	free(recording);
	return 0;
}
