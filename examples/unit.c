/* Prints the unit of a job's torques in words, and the job's message, once the job's tag is right. From the root of the
 * repository:
 *
 *     ./run library x86-64                 # or aarch64: the processor of this machine
 *     cc examples/unit.c -Iinclude target/x86-64/libsnoekeldraf.a -o target/unit
 *     target/unit samples/day.shift samples/ring.keys 4103
 *
 * Exit status: 0 printed, 1 refused, 2 usage. Nothing of an entry is printed before shift_verified returned 0.
 */
#include <stdio.h>
#include <stdlib.h>
#include <string.h>

#include "snoekeldraf.h"

/* A byte more than allowed shows a file that is too long. */
static uint8_t file[SHIFT_FILE_BYTES_MAX + 1], ring[SHIFT_RING_BYTES + 1], message[COMET_TEXT_BYTES_MAX];

/* Ends the program after an error. Words that begin with "the row" speak of the row that the call gave. */
static void require(const char *what, uint32_t status, uint32_t row)
{
    const char *words = snoekeldraf_words(status);
    if (status == SNOEKELDRAF_OK) return;
    fprintf(stderr, "%s: status %u: %s", what, (unsigned)status, words);
    if (strncmp(words, "the row", 7) == 0) fprintf(stderr, " (row %u)", (unsigned)row);
    fprintf(stderr, "\n");
    exit(1);
}

static size_t read_file(const char *path, uint8_t *bytes, size_t room)
{
    FILE *from = fopen(path, "rb");
    if (from == NULL) {
        perror(path);
        exit(2);
    }
    size_t len = fread(bytes, 1, room, from);
    fclose(from);
    return len;
}

/* A job number in decimal digits alone. strtoul by itself takes signs and letters, and reduces a larger number. */
static uint32_t read_job(const char *digits)
{
    size_t len = strlen(digits);
    unsigned long long job = strtoull(digits, NULL, 10);
    if (len == 0 || len > 10 || strspn(digits, "0123456789") != len || job > UINT32_MAX) {
        fprintf(stderr, "%s is no job number\n", digits);
        exit(2);
    }
    return (uint32_t)job;
}

static const char *unit_in_words(uint8_t unit)
{
    switch (unit) {
    case SHIFT_NEWTON_METRES: return "newton-metres";
    case SHIFT_INCH_POUNDS: return "inch-pounds";
    default: return "unknown"; /* cannot occur after status 0: the full check refuses other units with 30 */
    }
}

int main(int count, char **arguments)
{
    uint32_t row, ad_at, ad_len, text_at, text_len;
    if (count != 4) {
        fprintf(stderr, "unit FILE RING JOB\n");
        return 2;
    }
    size_t file_len = read_file(arguments[1], file, sizeof file);
    size_t ring_len = read_file(arguments[2], ring, sizeof ring);
    uint32_t job = read_job(arguments[3]);

    uint32_t status = shift_verified(file, file_len, ring, ring_len, job, &row, &ad_at, &ad_len);
    require("verify", status, row);
    printf("job %u: %s\n", (unsigned)job, unit_in_words(file[ad_at + SHIFT_UNIT_AT]));

    /* The message's length comes from the table; shift_open_job compares the tag once more and decrypts. */
    status = shift_entry(file, file_len, job, &row, &ad_at, &ad_len, &text_at, &text_len);
    require("look up", status, row);
    status = shift_open_job(file, file_len, ring, ring_len, job, message, text_len, &row);
    require("open", status, row);
    printf("%.*s\n", (int)text_len, (const char *)message);
    snoekeldraf_forget(); /* clears the stack that the calls used */
    return 0;
}
