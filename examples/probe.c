/* Replays a recording while it arrives, as the tool of a debug probe would:
 *
 *     probe           from standard input: a pipe, a socket or a file
 *     probe SOCKET    from the UNIX stream socket of that name
 *
 * It prints each line as soon as its record is whole: the lines that fp_replay prints of the joined recording. If a read
 * fails, the recording ends there. Exit 1 if something failed, 2 if the program was called wrongly.
 *
 * A recording holds the owners' keys, and so does the replay of it: both are wiped at the end. docs/RECORDING.md says how
 * to handle a recording.
 */
#define _DEFAULT_SOURCE /* explicit_bzero */

#include <fastpair.h>

#include <errno.h>
#include <inttypes.h>
#include <stdio.h>
#include <string.h>
#include <sys/socket.h>
#include <sys/un.h>
#include <unistd.h>

static const char *const KINDS[] = {
    [FP_KIND_MARKER] = "marker",
    [FP_KIND_LINK_UP] = "link-up",
    [FP_KIND_LINK_DOWN] = "link-down",
    [FP_KIND_PAIRING_MODE] = "pairing-mode",
    [FP_KIND_ADDRESS_ROTATED] = "address-rotated",
    [FP_KIND_POWER_ON] = "power-on",
    [FP_KIND_FACTORY_RESET] = "factory-reset",
    [FP_KIND_KEY_BASED_WRITE] = "key-based-write",
    [FP_KIND_PAIRING_STARTED] = "pairing-started",
    [FP_KIND_CONFIRMATION_NEEDED] = "confirmation-needed",
    [FP_KIND_PASSKEY_WRITE] = "passkey-write",
    [FP_KIND_PAIRING_ENDED] = "pairing-ended",
    [FP_KIND_ACCOUNT_KEY_WRITE] = "account-key-write",
    [FP_KIND_NAME_WRITE] = "name-write",
};

static fp_replay replay;
static uint8_t part[4096];

/* ---- the replay */

/* The next replay replaces the old one, and the line is printed if there is one. False if the replay is none. */
static bool taken(fp_fed *fed)
{
    fp_line line = fed->line;
    uint8_t status = fed->status;
    replay = fed->next;
    explicit_bzero(fed, sizeof *fed); /* a copy of every key */
    if (status == FP_LINE_SHOWN)
        printf("%" PRIu64 " %s %u %" PRIu64 "\n", line.number, KINDS[line.kind], line.answer, line.keys);
    return status != FP_NOT_A_REPLAY;
}

/* One part, line after line to its end. The lines are out before the next part is waited for. */
static bool feed(size_t length)
{
    bool right = true;
    for (size_t at = 0; right && at < length;) {
        fp_fed fed = fp_replay_feed(replay, part, length, at);
        at = fed.at;
        right = taken(&fed);
    }
    return fflush(stdout) == 0 && right;
}

/* The recording has ended: a record that is not whole is a marker. What failed above still does, and is named here. */
static bool end(void)
{
    fp_fed fed = fp_replay_end(replay);
    bool is_replay = taken(&fed), is_written = fflush(stdout) == 0 && !ferror(stdout);
    if (!is_replay)
        fputs("probe: the replay is none: memory went wrong\n", stderr);
    if (!is_written)
        fputs("probe: standard output can't be written\n", stderr);
    return is_replay && is_written;
}

/* ---- the recording */

static int connected(const char *path)
{
    struct sockaddr_un address = {.sun_family = AF_UNIX};
    if (strlen(path) >= sizeof address.sun_path) {
        errno = ENAMETOOLONG;
        return -1;
    }
    strcpy(address.sun_path, path);
    int fd = socket(AF_UNIX, SOCK_STREAM, 0);
    return fd >= 0 && connect(fd, (const struct sockaddr *)&address, sizeof address) == 0 ? fd : -1;
}

/* Parts as they come. A read that was interrupted is an empty part, and not the end: a read of 0 bytes is the end. */
static bool read_to_end(int fd)
{
    ssize_t got;
    while ((got = read(fd, part, sizeof part)) != 0) {
        if (got < 0 && errno != EINTR) {
            perror("probe");
            return false;
        }
        if (!feed(got < 0 ? 0 : (size_t)got))
            return false;
    }
    return true;
}

int main(int argc, char **argv)
{
    if (argc > 2) {
        fputs("usage: probe [SOCKET]\n", stderr);
        return 2;
    }
    int fd = argc == 2 ? connected(argv[1]) : STDIN_FILENO;
    if (fd < 0) {
        perror(argv[1]);
        return 1;
    }
    replay = fp_replay_start();
    bool right = read_to_end(fd);
    right = end() && right;
    explicit_bzero(&replay, sizeof replay);
    explicit_bzero(part, sizeof part);
    return right ? 0 : 1;
}
