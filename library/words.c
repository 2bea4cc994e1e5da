/* The plain C part of the library: its version, every status in words, snoekeldraf_forget and comet_forget.
 * C99, freestanding: no function of the C library is called. Tested by tools/test-c, not proved.
 */
#include "snoekeldraf.h"

uint32_t snoekeldraf_version(void)
{
    return SNOEKELDRAF_VERSION;
}

/* The table of words, a line for each status. Scripts read it too (./run prints these words), so its format is fixed:
 *     WORDS(8, "the tag differs")
 *     FILE_WORDS(32, "no row has the job, or the file has no such row", "no row has the job")
 * Four spaces, WORDS or FILE_WORDS, the status, and strings without quotes or backslashes. A script uses the last string of
 * the line: in FILE_WORDS that is the narrower wording for programs that always work on a shift file. Words that begin with
 * "the row" are about the row that the function returns with the status.
 */
#define WORDS(status, words) case status: return words;
#define FILE_WORDS(status, words, of_a_file) case status: return words;

const char *snoekeldraf_words(uint32_t status)
{
    switch (status) {
    WORDS(0, "success")
    WORDS(1, "the suite is not 1 to 6")
    FILE_WORDS(2, "the key is not 16 bytes long, or the ring is not 256 bytes long", "the ring is not 256 bytes long")
    WORDS(3, "the nonce does not have the suite's nonce length")
    WORDS(4, "the associated data is longer than 65,536 bytes")
    WORDS(5, "the message or ciphertext is longer than 65,536 bytes")
    WORDS(6, "the output does not have the required length")
    WORDS(7, "the tag does not have the suite's tag length")
    WORDS(8, "the tag differs")
    WORDS(9, "the session is not in progress, or associated data comes after the first message byte")
    FILE_WORDS(10, "suite 4 is retired: it is opened and no longer sealed", "the row's suite is 4, which is retired: it is opened and no longer sealed")
    WORDS(20, "the file is shorter than 8 bytes, or it or its moved form is longer than 1,048,576 bytes (a report: 65,280)")
    WORDS(21, "the file's edition is not one that this function takes")
    WORDS(22, "the file has more than 512 rows")
    WORDS(23, "the total length in the file's header is not the file's length")
    WORDS(24, "the file's table of contents runs past its end")
    WORDS(25, "the row's job number is not above the row before's")
    WORDS(26, "the row's suite is not 1 to 6, or its key number is over 15")
    WORDS(27, "the row's associated data is not 5 to 1,024 bytes long, or its message is longer than 65,536 bytes")
    WORDS(28, "the row's body does not start where the one before ends (row 0: after the table), or runs past the file's end")
    WORDS(29, "the row repeats the suite, key number and nonce of an earlier row, or would after resealing")
    WORDS(30, "the row's associated data has another job number, or its unit is not 1 (newton-metres) or 2 (inch-pounds)")
    WORDS(31, "the last body does not end where the file ends")
    FILE_WORDS(32, "no row has the job, or the file has no such row", "no row has the job")
    WORDS(33, "the row's tag in the draft is not all zero")
    WORDS(34, "the row's suite has a nonce of 15 bytes, and its 16th nonce byte is not 0")
    WORDS(35, "the row's station is not 0")
    WORDS(36, "a list is longer than its buffer")
    default: return "this number is no status";
    }
}

/* The functions that overwrite the stack are never inlined: their frames must occupy the stack that the earlier calls used. */
#if defined(__GNUC__)
#define OWN_FRAME __attribute__((noinline))
#else
#define OWN_FRAME
#endif

/* Writes zeros. On x86-64 one string instruction does it, in a quarter of the time that a store for each word takes;
 * elsewhere the compiler keeps the volatile stores.
 */
static void clear(volatile uintptr_t *words, uint32_t count)
{
#if defined(__GNUC__) && defined(__x86_64__) && !defined(__ILP32__)
    uint64_t left = count;
    __asm__ volatile("rep stosq" : "+D"(words), "+c"(left) : "a"(0) : "memory");
#else
    for (uint32_t i = 0; i < count; i++) {
        words[i] = 0;
    }
#endif
}

OWN_FRAME void snoekeldraf_forget(void)
{
    volatile uintptr_t stack[SNOEKELDRAF_STACK_BYTES / sizeof(uintptr_t)];
    clear(stack, sizeof stack / sizeof stack[0]);
}

static OWN_FRAME void forget_plain(void)
{
    volatile uintptr_t stack[COMET_STACK_BYTES / sizeof(uintptr_t)];
    clear(stack, sizeof stack / sizeof stack[0]);
}

void comet_forget(uint8_t suite)
{
    switch (suite) {
    case COMET_CHAM128: case COMET_SPECK64: case COMET2_SPECK64: forget_plain(); break;
    default: snoekeldraf_forget();
    }
}
