/* The order of use, and when the list is saved:
 *
 *     order_of_use
 *
 * Ten owners, A to J, were stored in this order. A's phone connects again, and its key moves to the end. Then an
 * eleventh owner, Z, pairs: B's key is removed, since it is the least recently used. Every event is printed with its
 * answer, the number of keys tried and the owners in list order. Exit 1 if one of them is not the one expected.
 *
 * The list is saved if it is not what was saved last. Flash memory is a variable here; pairing.c saves in a file. The
 * salts and the nonce are fixed; a product draws them, and wipes its copies of the keys.
 */
#include "owners.h"
#include "phone.h"

#include <stdio.h>
#include <stdlib.h>
#include <string.h>

static fp_device device;
static fp_stored flash; /* what was saved last */
static unsigned saves;

static void stop(const char *what)
{
    fprintf(stderr, "order_of_use: %s: something else was expected\n", what);
    exit(1);
}

/* ---- the list */

typedef struct {
    char letters[FP_MAX_KEYS + 1];
} owners;

/* A key is known by the high half of its second byte here: A to F and 6 to 9 in owners.h, 3 in phone.h. */
static char owner_of(const uint8_t key[16])
{
    return "???Z??GHIJABCDEF"[key[1] >> 4];
}

static owners in_order(const fp_stored *stored)
{
    owners text = {{0}};
    for (size_t i = 0; i < stored->bytes[3]; i++)
        text.letters[i] = owner_of(stored->bytes + 4 + 16 * i);
    return text;
}

/* Compared with what was saved last, and not with the device before: a save that was put off is made up for. */
static void save_if_changed(void)
{
    if (memcmp(&device.stored, &flash, sizeof flash) == 0)
        return;
    flash = device.stored;
    saves++;
    printf("  list saved\n");
}

/* ---- events */

/* What follows every event, the save left out. */
static void answered(const char *event, fp_outcome outcome, uint8_t answer, uint8_t tried, const char *expected)
{
    device = outcome.next;
    owners now = in_order(&device.stored);
    printf("%-24s answer %u, %u tried, owners %s\n", event, outcome.reply.answer, outcome.reply.tried, now.letters);
    if (outcome.reply.answer != answer || outcome.reply.tried != tried || strcmp(now.letters, expected) != 0)
        stop(event);
}

static void served(const char *event, fp_outcome outcome, uint8_t answer, uint8_t tried, const char *expected)
{
    answered(event, outcome, answer, tried, expected);
    save_if_changed();
}

static void power_on(const char *event, const char *expected)
{
    fp_outcome outcome = fp_power_on(fp_off(), flash.bytes, flash.length, NULL, 0, START);
    served(event, outcome, FP_TAKEN, 0, expected);
}

static fp_outcome requested(uint64_t clock, const uint8_t *request, size_t length)
{
    uint8_t out[FP_RESPONSE_SIZE], packet[FP_PACKET_MAX];
    return fp_key_based_write(device, LINK, clock, request, length, ELEMENT, RESPONSE_SALT, NONCE, out, sizeof out,
                              packet, sizeof packet);
}

/* Z's phone pairs. Its request of 80 bytes uses no key of the list; its account key write uses the key it carries. */
static void pair_z(uint64_t clock, const char *before, const char *after)
{
    uint8_t out[FP_RESPONSE_SIZE];
    served("pairing mode on", fp_pairing_mode(device, 1, clock), FP_TAKEN, 0, before);
    served("Z's request of 80 bytes", requested(clock, REQUEST, sizeof REQUEST), FP_TAKEN, 1, before);
    served("pairing started", fp_pairing_started(device, LINK, clock, DISPLAY_YES_NO), FP_TAKEN, 0, before);
    served("confirmation needed", fp_confirmation_needed(device, LINK, clock, PASSKEY), FP_TAKEN, 0, before);
    served("passkey write",
           fp_passkey_write(device, LINK, clock, PASSKEY_BLOCK, sizeof PASSKEY_BLOCK, PASSKEY_SALT, out, sizeof out),
           FP_TAKEN, 0, before);
    served("pairing ended", fp_pairing_ended(device, LINK, clock, 1), FP_TAKEN, 0, before);
    served("account key write",
           fp_account_key_write(device, LINK, clock, ACCOUNT_KEY_BLOCK, sizeof ACCOUNT_KEY_BLOCK), FP_TAKEN, 0, after);
}

/* ---- what happens */

static void least_recently_used_goes(void)
{
    served("A's request", requested(1000, REQUEST_OF_A, 16), FP_TAKEN, 1, "BCDEFGHIJA");
    served("A's next request", requested(2000, SECOND_REQUEST_OF_A, 16), FP_TAKEN, 10, "BCDEFGHIJA");
    pair_z(3000, "BCDEFGHIJA", "CDEFGHIJAZ");
    served("B's request", requested(4000, REQUEST_OF_B, 16), FP_NO_KEY_FITS, 10, "CDEFGHIJAZ");
    if (saves != 2)
        stop("two saves, of A's request and of Z's key");
}

/* Only the order changed, so the save may be put off. A power cut before it forgets that use, and no key. */
static void power_cut_before_save(void)
{
    answered("C's request, not saved", requested(5000, REQUEST_OF_C, 16), FP_TAKEN, 1, "DEFGHIJAZC");
    power_on("power cut, power-on", "CDEFGHIJAZ");
    if (saves != 2)
        stop("no further save");
}

/* Z pairs again, and its phone writes the key that is held already. */
static void written_again(void)
{
    served("D's request", requested(1000, REQUEST_OF_D, 16), FP_TAKEN, 2, "CEFGHIJAZD");
    pair_z(2000, "CEFGHIJAZD", "CEFGHIJADZ");
    if (saves != 4)
        stop("two more saves, of D's request and of Z's key");
}

int main(void)
{
    flash.length = sizeof TEN_OWNERS;
    memcpy(flash.bytes, TEN_OWNERS, sizeof TEN_OWNERS);
    power_on("power-on", "ABCDEFGHIJ");
    least_recently_used_goes();
    power_cut_before_save();
    written_again();
    printf("%u saves; every answer and every order was the one expected\n", saves);
    return 0;
}
