/* Seals a record and opens it again, from buffer to buffer and in place. From the root of the repository:
 *
 *     ./run library x86-64                 # or aarch64: the processor of this machine
 *     cc examples/record.c -Iinclude target/x86-64/libsnoekeldraf.a -o target/record
 *     target/record
 *
 * An error ends the program: a message that was refused is never used as if it were sealed.
 */
#include <stdio.h>
#include <stdlib.h>

#include "snoekeldraf.h"

enum { SUITE = COMET_SPECK64 };

/* A real program takes the key from a key ring and the nonce from a counter that never repeats, not from constants. */
static const uint8_t key[COMET_KEY_BYTES] = {0, 1, 2, 3, 4, 5, 6, 7, 8, 9, 10, 11, 12, 13, 14, 15};
static const uint8_t first_nonce[COMET_NONCE_BYTES(SUITE)] = {1};
static const uint8_t second_nonce[COMET_NONCE_BYTES(SUITE)] = {3};

/* The associated data is sealed with the message but not encrypted: job 7, and the unit of its torques. */
static const uint8_t ad[] = {7, 0, 0, 0, SHIFT_NEWTON_METRES};
static const uint8_t wrong_ad[] = {7, 0, 0, 0, SHIFT_INCH_POUNDS};

static void require(const char *what, uint32_t status)
{
    printf("%s: %s\n", what, snoekeldraf_words(status));
    if (status != SNOEKELDRAF_OK) exit(1);
}

static void print_hex(const char *what, const uint8_t *bytes, size_t len)
{
    printf("  %-12s", what);
    for (size_t i = 0; i < len; i++) printf("%02x", bytes[i]);
    printf("\n");
}

static void from_buffer_to_buffer(void)
{
    static const uint8_t message[] = "torque 48.5 48.7 48.4";
    uint8_t text[sizeof message], tag[COMET_TAG_BYTES(SUITE)], opened[sizeof message];

    require("seal", comet_seal(SUITE, key, sizeof key, first_nonce, sizeof first_nonce, ad, sizeof ad,
                               message, sizeof message, text, sizeof text, tag, sizeof tag));
    print_hex("ciphertext", text, sizeof text);
    print_hex("tag", tag, sizeof tag);

    require("open", comet_open(SUITE, key, sizeof key, first_nonce, sizeof first_nonce, ad, sizeof ad,
                               text, sizeof text, tag, sizeof tag, opened, sizeof opened));
    printf("  %-12s%s\n", "message", (const char *)opened);

    /* The unit was changed: the tag differs, and the output is all zero. */
    uint32_t status = comet_open(SUITE, key, sizeof key, first_nonce, sizeof first_nonce, wrong_ad, sizeof wrong_ad,
                                 text, sizeof text, tag, sizeof tag, opened, sizeof opened);
    printf("open with the other unit: %s\n", snoekeldraf_words(status));
    print_hex("output", opened, sizeof opened);
}

/* Uses one buffer, if memory is scarce. comet_verify compares the tag and writes nothing, so it can come first. */
static void in_place(void)
{
    uint8_t text[] = "torque 51.0 51.2 50.9", tag[COMET_TAG_BYTES(SUITE)];

    require("seal in place", comet_seal_in_place(SUITE, key, sizeof key, second_nonce, sizeof second_nonce, ad, sizeof ad,
                                                 text, sizeof text, tag, sizeof tag));
    print_hex("ciphertext", text, sizeof text);
    require("verify", comet_verify(SUITE, key, sizeof key, second_nonce, sizeof second_nonce, ad, sizeof ad,
                                   text, sizeof text, tag, sizeof tag));
    require("open in place", comet_open_in_place(SUITE, key, sizeof key, second_nonce, sizeof second_nonce, ad, sizeof ad,
                                                 text, sizeof text, tag, sizeof tag));
    printf("  %-12s%s\n", "message", (const char *)text);
}

int main(void)
{
    from_buffer_to_buffer();
    in_place();
    snoekeldraf_forget(); /* clears the stack that the calls used */
    return 0;
}
