/* The C and C++ interface of Snoekeldraf: COMET (authenticated encryption of records) and the plant's shift file.
 *
 * For every input, a function returns the first status that applies, in the order given above its prototype, and leaves
 * every output in the state described there, on errors too. This is proved of every function that returns a status, of
 * shift_moved_length and of comet_session_wipe. The other four (snoekeldraf_version, snoekeldraf_words,
 * snoekeldraf_forget, comet_forget) are plain C in library/words.c and are tested, not proved.
 *
 * The caller guarantees what C does not check:
 *   - A pointer is valid for the length beside it, for the whole call. At length 0 it is not used and may be NULL.
 *   - An output (a pointer without const) overlaps no other argument. To seal or open a record in one buffer, use
 *     comet_seal_in_place and comet_open_in_place.
 *   - A pointer without a length (session, calls, count, row, file, offsets, lengths, fields) is not NULL and is aligned.
 *   - A suite is one byte. C truncates a larger number before the call: 257 is taken as suite 1.
 *   - No two records are sealed with one key and one nonce.
 *
 * A length is 64 bits on every processor, also where size_t has 32. Lengths of lists count elements, all others bytes.
 * The functions keep no state between calls and allocate nothing. They call memcpy and memset of the C library and, on some
 * 32-bit processors, arithmetic functions of the compiler's own library. They take less than SNOEKELDRAF_STACK_BYTES of stack
 * (measured, not proved; docs/LIBRARY.md has the figure of each function).
 *
 *   +-----------------------------------------------------------------------------------------------------------------+
 *   | Constant time: not claimed. Suites 1 and 5 index lookup tables by secret bytes: they are not constant-time and   |
 *   | can leak through the cache. Suites 2, 3, 4 and 6 have no secret-dependent loads or branches by design; this is   |
 *   | not proved. The tag comparison has no early exit. The library does not wipe keys: see snoekeldraf_forget and     |
 *   | comet_session_wipe.                                                                                              |
 *   +-----------------------------------------------------------------------------------------------------------------+
 */
#ifndef SNOEKELDRAF_H
#define SNOEKELDRAF_H

#include <stdint.h>

/* The version of this header. snoekeldraf_version returns that of the library. */
#define SNOEKELDRAF_VERSION_MAJOR 1
#define SNOEKELDRAF_VERSION_MINOR 0
#define SNOEKELDRAF_VERSION_PATCH 0
#define SNOEKELDRAF_VERSION_STRING "1.0.0"
#define SNOEKELDRAF_VERSION \
    ((uint32_t)SNOEKELDRAF_VERSION_MAJOR << 16 | (uint32_t)SNOEKELDRAF_VERSION_MINOR << 8 | SNOEKELDRAF_VERSION_PATCH)

/* Suites: version and cipher of COMET. A nonce has 16 bytes and a tag 16 where the block has 16; else 15 and 8. */
enum comet_suite {
    COMET_AES128 = 1,   /* version 1, AES-128, block of 16 bytes */
    COMET_CHAM128 = 2,  /* version 1, CHAM-128/128, block of 16 bytes */
    COMET_SPECK64 = 3,  /* version 1, Speck-64/128, block of 8 bytes */
    COMET_CHAM64 = 4,   /* version 1, CHAM-64/128, block of 8 bytes; retired: it is opened and no longer sealed */
    COMET2_AES128 = 5,  /* version 2, AES-128, block of 16 bytes */
    COMET2_SPECK64 = 6  /* version 2, Speck-64/128, block of 8 bytes */
};

/* Sizes in bytes. With a constant suite each is a constant expression; the argument is evaluated once. */
#define COMET_KEY_BYTES 16u
#define COMET_BLOCK_BYTES(suite) ((0x26u >> ((unsigned)(suite) & 31u) & 1u) != 0 ? 16u : 8u) /* bits 1, 2 and 5 */
#define COMET_NONCE_BYTES(suite) (COMET_BLOCK_BYTES(suite) == 16u ? 16u : 15u)
#define COMET_TAG_BYTES(suite) COMET_BLOCK_BYTES(suite)
#define COMET_TAG_BYTES_MAX 16u
#define COMET_NONCE_BYTES_MAX 16u
#define COMET_AD_BYTES_MAX 65536u
#define COMET_TEXT_BYTES_MAX 65536u
/* The output that comet_session_part requires for a part of n bytes, and comet_session_end. */
#define COMET_PART_ROOM(suite, n) ((n) + (COMET_BLOCK_BYTES(suite) - 1u))
#define COMET_END_ROOM(suite) COMET_BLOCK_BYTES(suite)

/* Units: byte SHIFT_UNIT_AT of an entry's associated data, after the job number (4 bytes, little-endian). */
enum shift_unit {
    SHIFT_NEWTON_METRES = 1,
    SHIFT_INCH_POUNDS = 2
};
#define SHIFT_UNIT_AT 4u

#define SHIFT_RING_BYTES 256u /* 16 keys; key k is bytes 16k to 16k + 15 */
#define SHIFT_FILE_BYTES_MAX 1048576u
#define SHIFT_REPORT_BYTES_MAX 65280u
#define SHIFT_ROWS_MAX 512u
#define SHIFT_AD_BYTES_MIN 5u
#define SHIFT_AD_BYTES_MAX 1024u

/* Statuses, by the numbers of documents 01 and 02. The words above each are those of snoekeldraf_words. Words that begin
 * with "the row" speak of the row that *row gives, counted from 0.
 */
enum snoekeldraf_status {
    /* success */
    SNOEKELDRAF_OK = 0,
    /* the suite is not 1 to 6 */
    SNOEKELDRAF_SUITE = 1,
    /* the key is not 16 bytes long, or the ring is not 256 bytes long */
    SNOEKELDRAF_KEY_LENGTH = 2,
    /* the nonce does not have the suite's nonce length */
    SNOEKELDRAF_NONCE_LENGTH = 3,
    /* the associated data is longer than 65,536 bytes */
    SNOEKELDRAF_AD_LENGTH = 4,
    /* the message or ciphertext is longer than 65,536 bytes */
    SNOEKELDRAF_TEXT_LENGTH = 5,
    /* the output does not have the required length */
    SNOEKELDRAF_OUTPUT_LENGTH = 6,
    /* the tag does not have the suite's tag length */
    SNOEKELDRAF_TAG_LENGTH = 7,
    /* the tag differs */
    SNOEKELDRAF_TAG_DIFFERS = 8,
    /* the session is not in progress, or associated data comes after the first message byte */
    SNOEKELDRAF_SESSION = 9,
    /* suite 4 is retired: it is opened and no longer sealed */
    SNOEKELDRAF_SUITE_RETIRED = 10,

    /* the file is shorter than 8 bytes, or it or its moved form is longer than 1,048,576 bytes (a report: 65,280) */
    SNOEKELDRAF_FILE_LENGTH = 20,
    /* the file's edition is not one that this function takes */
    SNOEKELDRAF_FILE_EDITION = 21,
    /* the file has more than 512 rows */
    SNOEKELDRAF_FILE_ROWS = 22,
    /* the total length in the file's header is not the file's length */
    SNOEKELDRAF_FILE_TOTAL = 23,
    /* the file's table of contents runs past its end */
    SNOEKELDRAF_FILE_TABLE = 24,
    /* the row's job number is not above the row before's */
    SNOEKELDRAF_ROW_ORDER = 25,
    /* the row's suite is not 1 to 6, or its key number is over 15 */
    SNOEKELDRAF_ROW_SUITE = 26,
    /* the row's associated data is not 5 to 1,024 bytes long, or its message is longer than 65,536 bytes */
    SNOEKELDRAF_ROW_LENGTHS = 27,
    /* the row's body does not start where the one before ends (row 0: after the table), or runs past the file's end */
    SNOEKELDRAF_ROW_BODY = 28,
    /* the row repeats the suite, key number and nonce of an earlier row, or would after resealing */
    SNOEKELDRAF_ROW_NONCE = 29,
    /* the row's associated data has another job number, or its unit is not 1 (newton-metres) or 2 (inch-pounds) */
    SNOEKELDRAF_ROW_JOB_OR_UNIT = 30,
    /* the last body does not end where the file ends */
    SNOEKELDRAF_FILE_END = 31,
    /* no row has the job, or the file has no such row */
    SNOEKELDRAF_NO_ROW = 32,
    /* the row's tag in the draft is not all zero */
    SNOEKELDRAF_ROW_TAG_SET = 33,
    /* the row's suite has a nonce of 15 bytes, and its 16th nonce byte is not 0 */
    SNOEKELDRAF_ROW_NONCE_BYTE = 34,
    /* the row's station is not 0 */
    SNOEKELDRAF_ROW_STATION = 35,
    /* a list is longer than its buffer */
    SNOEKELDRAF_LIST_LENGTH = 36
};

/* Checks by the compiler, where it has them: an ignored status, a pointer that is too short for its length, NULL for
 * what is always written, one buffer passed as input and output. They do not change how a function is called.
 * The numbers are positions of parameters: pointer and length, or a pointer alone.
 */
#if defined(__GNUC__)
#define SNOEKELDRAF_CHECKED __attribute__((warn_unused_result))
#define SNOEKELDRAF_NEEDED(pointer) __attribute__((nonnull(pointer)))
#define SNOEKELDRAF_ALONE __restrict__
#if defined(__has_attribute)
#if __has_attribute(access)
#define SNOEKELDRAF_ACCESS(kind) __attribute__((access kind))
#endif
#endif
#else
#define SNOEKELDRAF_CHECKED
#define SNOEKELDRAF_NEEDED(pointer)
#define SNOEKELDRAF_ALONE
#endif
#if !defined(SNOEKELDRAF_ACCESS)
#define SNOEKELDRAF_ACCESS(kind)
#endif
#define SNOEKELDRAF_READS(pointer, length) SNOEKELDRAF_ACCESS((read_only, pointer, length))
#define SNOEKELDRAF_WRITES(pointer, length) SNOEKELDRAF_ACCESS((write_only, pointer, length))
#define SNOEKELDRAF_CHANGES(pointer, length) SNOEKELDRAF_ACCESS((read_write, pointer, length))
#define SNOEKELDRAF_SETS(pointer) SNOEKELDRAF_NEEDED(pointer) SNOEKELDRAF_ACCESS((write_only, pointer))
#define SNOEKELDRAF_UPDATES(pointer) SNOEKELDRAF_NEEDED(pointer) SNOEKELDRAF_ACCESS((read_write, pointer))

#if defined(__cplusplus) && __cplusplus >= 201103L
#define SNOEKELDRAF_SIZE(type, bytes) static_assert(sizeof(type) == (bytes), #type " has another size here")
#elif defined(__STDC_VERSION__) && __STDC_VERSION__ >= 201112L
#define SNOEKELDRAF_SIZE(type, bytes) _Static_assert(sizeof(type) == (bytes), #type " has another size here")
#else
#define SNOEKELDRAF_SIZE(type, bytes) typedef char type##_has_another_size_here[sizeof(type) == (bytes) ? 1 : -1]
#endif

#ifdef __cplusplus
extern "C" {
#endif

/* ---- The library itself (plain C, not proved) ---- */

/* The library's version: major << 16 | minor << 8 | patch, SNOEKELDRAF_VERSION of the header that it was built with. */
uint32_t snoekeldraf_version(void);

/* A status in words: a constant string, never NULL. A number that is no status gets a string that says so. */
const char *snoekeldraf_words(uint32_t status);

/* Overwrites SNOEKELDRAF_STACK_BYTES of stack below its caller with zeros, and with them what earlier calls from the same
 * function left there: chaining values, round keys, parts of a message. Call it after the last call that used a key, from
 * the function that made those calls. It does not clear registers, nor the caller's own buffers: key, ring and session
 * are the caller's to overwrite.
 */
void snoekeldraf_forget(void);

/* What the deepest call of the library takes (comet_session_end: 11,048 bytes on Cortex-M0+, at most 9,544 elsewhere), and
 * 1,240 bytes more. A program with a small stack that uses few functions can measure its own need and build
 * library/words.c with -DSNOEKELDRAF_STACK_BYTES=that.
 */
#ifndef SNOEKELDRAF_STACK_BYTES
#define SNOEKELDRAF_STACK_BYTES 12288
#endif

/* As snoekeldraf_forget, for records of one suite: enough after comet_seal, comet_open, comet_verify, their counted variants and
 * those in place, and not after a session or a function of the shift file. Suites 2, 3 and 6 have no tables on the stack:
 * COMET_STACK_BYTES are overwritten. For every other number it does what snoekeldraf_forget does.
 */
void comet_forget(uint8_t suite);

/* What the deepest of these calls takes in suites 2, 3 and 6 (992 bytes on AArch64, 1,592 on Cortex-M0+, less elsewhere), and
 * at least 1,024 bytes more.
 */
#ifndef COMET_STACK_BYTES
#if UINTPTR_MAX > 0xffffffffu
#define COMET_STACK_BYTES 2048
#else
#define COMET_STACK_BYTES 3072
#endif
#endif

/* ---- Records ---- */

/* Seals msg with the associated data ad: out gets the ciphertext, tag the tag.
 * Status: 1, 10, 2, 3, 4, 5, 6 (out_len is not msg_len), 7, 0.
 * After 0, out and tag are written whole. After every other status both are unchanged.
 */
SNOEKELDRAF_CHECKED SNOEKELDRAF_READS(2, 3) SNOEKELDRAF_READS(4, 5) SNOEKELDRAF_READS(6, 7) SNOEKELDRAF_READS(8, 9)
SNOEKELDRAF_WRITES(10, 11) SNOEKELDRAF_WRITES(12, 13)
uint32_t comet_seal(uint8_t suite,
                    const uint8_t *key, uint64_t key_len,
                    const uint8_t *nonce, uint64_t nonce_len,
                    const uint8_t *ad, uint64_t ad_len,
                    const uint8_t *msg, uint64_t msg_len,
                    uint8_t *SNOEKELDRAF_ALONE out, uint64_t out_len,
                    uint8_t *SNOEKELDRAF_ALONE tag, uint64_t tag_len);

/* Opens the ciphertext text with the associated data ad, if tag is its tag: out gets the message.
 * Status: 1, 2, 3, 4, 5, 6 (out_len is not text_len), 7, 8, 0.
 * After 0, out is written whole. After 8, every byte of out is 0. After every other status out is unchanged.
 */
SNOEKELDRAF_CHECKED SNOEKELDRAF_READS(2, 3) SNOEKELDRAF_READS(4, 5) SNOEKELDRAF_READS(6, 7) SNOEKELDRAF_READS(8, 9)
SNOEKELDRAF_READS(10, 11) SNOEKELDRAF_WRITES(12, 13)
uint32_t comet_open(uint8_t suite,
                    const uint8_t *key, uint64_t key_len,
                    const uint8_t *nonce, uint64_t nonce_len,
                    const uint8_t *ad, uint64_t ad_len,
                    const uint8_t *text, uint64_t text_len,
                    const uint8_t *tag, uint64_t tag_len,
                    uint8_t *SNOEKELDRAF_ALONE out, uint64_t out_len);

/* Seals text in place: comet_seal with text as message and output.
 * Status: 1, 10, 2, 3, 4, 5, 7, 0.
 * After 0, text is the ciphertext and tag is written whole. After every other status both are unchanged: text is still the
 * plaintext, and must not be sent.
 */
SNOEKELDRAF_CHECKED SNOEKELDRAF_READS(2, 3) SNOEKELDRAF_READS(4, 5) SNOEKELDRAF_READS(6, 7) SNOEKELDRAF_CHANGES(8, 9)
SNOEKELDRAF_WRITES(10, 11)
uint32_t comet_seal_in_place(uint8_t suite,
                             const uint8_t *key, uint64_t key_len,
                             const uint8_t *nonce, uint64_t nonce_len,
                             const uint8_t *ad, uint64_t ad_len,
                             uint8_t *SNOEKELDRAF_ALONE text, uint64_t text_len,
                             uint8_t *SNOEKELDRAF_ALONE tag, uint64_t tag_len);

/* Opens text in place, if tag is its tag: comet_open with text as ciphertext and output.
 * Status: 1, 2, 3, 4, 5, 7, 8, 0.
 * After 0, text is the message. After 8, every byte of text is 0. After every other status text is unchanged.
 */
SNOEKELDRAF_CHECKED SNOEKELDRAF_READS(2, 3) SNOEKELDRAF_READS(4, 5) SNOEKELDRAF_READS(6, 7) SNOEKELDRAF_CHANGES(8, 9)
SNOEKELDRAF_READS(10, 11)
uint32_t comet_open_in_place(uint8_t suite,
                             const uint8_t *key, uint64_t key_len,
                             const uint8_t *nonce, uint64_t nonce_len,
                             const uint8_t *ad, uint64_t ad_len,
                             uint8_t *SNOEKELDRAF_ALONE text, uint64_t text_len,
                             const uint8_t *tag, uint64_t tag_len);

/* Checks the tag of the ciphertext text and writes no message: the status of comet_open with an output of text_len bytes.
 * Status: 1, 2, 3, 4, 5, 7, 8, 0.
 */
SNOEKELDRAF_CHECKED SNOEKELDRAF_READS(2, 3) SNOEKELDRAF_READS(4, 5) SNOEKELDRAF_READS(6, 7) SNOEKELDRAF_READS(8, 9)
SNOEKELDRAF_READS(10, 11)
uint32_t comet_verify(uint8_t suite,
                      const uint8_t *key, uint64_t key_len,
                      const uint8_t *nonce, uint64_t nonce_len,
                      const uint8_t *ad, uint64_t ad_len,
                      const uint8_t *text, uint64_t text_len,
                      const uint8_t *tag, uint64_t tag_len);

/* comet_seal and comet_open that also count block cipher calls. *calls is always written. With a and m the numbers of
 * blocks of associated data and text (the last may be short; 0 bytes are 0 blocks) it is a + m + 2 after 0 and 8, and 0
 * after 1 to 7 and 10.
 */
SNOEKELDRAF_CHECKED SNOEKELDRAF_READS(2, 3) SNOEKELDRAF_READS(4, 5) SNOEKELDRAF_READS(6, 7) SNOEKELDRAF_READS(8, 9)
SNOEKELDRAF_WRITES(10, 11) SNOEKELDRAF_WRITES(12, 13) SNOEKELDRAF_SETS(14)
uint32_t comet_seal_counted(uint8_t suite,
                            const uint8_t *key, uint64_t key_len,
                            const uint8_t *nonce, uint64_t nonce_len,
                            const uint8_t *ad, uint64_t ad_len,
                            const uint8_t *msg, uint64_t msg_len,
                            uint8_t *SNOEKELDRAF_ALONE out, uint64_t out_len,
                            uint8_t *SNOEKELDRAF_ALONE tag, uint64_t tag_len,
                            uint64_t *calls);

SNOEKELDRAF_CHECKED SNOEKELDRAF_READS(2, 3) SNOEKELDRAF_READS(4, 5) SNOEKELDRAF_READS(6, 7) SNOEKELDRAF_READS(8, 9)
SNOEKELDRAF_READS(10, 11) SNOEKELDRAF_WRITES(12, 13) SNOEKELDRAF_SETS(14)
uint32_t comet_open_counted(uint8_t suite,
                            const uint8_t *key, uint64_t key_len,
                            const uint8_t *nonce, uint64_t nonce_len,
                            const uint8_t *ad, uint64_t ad_len,
                            const uint8_t *text, uint64_t text_len,
                            const uint8_t *tag, uint64_t tag_len,
                            uint8_t *SNOEKELDRAF_ALONE out, uint64_t out_len,
                            uint64_t *calls);

/* ---- Sessions: sealing a record in parts, while its message is still being measured. comet_open opens it. ---- */

/* The caller owns the session and passes a pointer to it. Each call replaces its words by those of the next session. They
 * hold key material: keep them as secret as the key, and call comet_session_wipe on a session that is abandoned. Never
 * copy a session: two copies continued with different messages are two records with one key and one nonce.
 * Any nine words are accepted. Those that are no session in progress get status 9: nine zeros, a first word that is no
 * suite that seals (not 1 to 6, or 4), or a total over 65,536. All other words are taken as what they say.
 */
typedef struct {
    uint64_t word[9]; /* 0 suite; 1, 2 Y; 3, 4 Z; 5, 6 bytes of an incomplete block; 7, 8 totals of ad and message */
} comet_session;
SNOEKELDRAF_SIZE(comet_session, 72);

/* Of the next four functions: after every status but 0, out and tag are unchanged; so is the session, and the call may be
 * repeated, but a refused start leaves nine zeros. *count is always written: the number of bytes written at the start of
 * out, 0 after every status but 0. Bytes of out after them are unchanged.
 */

/* Starts a session. What it held before does not matter. Status: 1, 10, 2, 3, 0. */
SNOEKELDRAF_CHECKED SNOEKELDRAF_SETS(1) SNOEKELDRAF_READS(3, 4) SNOEKELDRAF_READS(5, 6)
uint32_t comet_session_start(comet_session *session,
                             uint8_t suite,
                             const uint8_t *key, uint64_t key_len,
                             const uint8_t *nonce, uint64_t nonce_len);

/* Absorbs a part of the associated data, of any length, before the first message byte.
 * Status: 9, 4 (the total is over 65,536), 0.
 */
SNOEKELDRAF_CHECKED SNOEKELDRAF_UPDATES(1) SNOEKELDRAF_READS(2, 3)
uint32_t comet_session_data(comet_session *session, const uint8_t *ad, uint64_t ad_len);

/* Seals a part of the message, of any length: out gets the ciphertext of the blocks that this part completes.
 * Status: 9, 5 (the total is over 65,536), 6 (out_len is below COMET_PART_ROOM(suite, msg_len)), 0.
 * An empty part changes nothing and does not begin the message.
 */
SNOEKELDRAF_CHECKED SNOEKELDRAF_UPDATES(1) SNOEKELDRAF_READS(2, 3) SNOEKELDRAF_WRITES(4, 5) SNOEKELDRAF_SETS(6)
uint32_t comet_session_part(comet_session *session,
                            const uint8_t *msg, uint64_t msg_len,
                            uint8_t *SNOEKELDRAF_ALONE out, uint64_t out_len,
                            uint32_t *count);

/* Ends the session: out gets the rest of the ciphertext (less than a block), tag the tag.
 * Status: 9, 6 (out_len is below COMET_END_ROOM(suite)), 7, 0.
 * After 0, tag is written whole and the session is nine zeros. The ciphertext of all calls, joined, and the tag are those
 * of comet_seal for the joined associated data and the joined message.
 */
SNOEKELDRAF_CHECKED SNOEKELDRAF_UPDATES(1) SNOEKELDRAF_WRITES(2, 3) SNOEKELDRAF_WRITES(4, 5) SNOEKELDRAF_SETS(6)
uint32_t comet_session_end(comet_session *session,
                           uint8_t *SNOEKELDRAF_ALONE out, uint64_t out_len,
                           uint8_t *SNOEKELDRAF_ALONE tag, uint64_t tag_len,
                           uint32_t *count);

/* Overwrites a session with nine zeros. */
SNOEKELDRAF_SETS(1)
void comet_session_wipe(comet_session *session);

/* ---- Shift files: reading ----
 *
 * "The full check" is 20, 21, 22, 23, 24; then for each row from row 0: 25, 26, 27, 28, 34, 29, 30; then 31. Status 21 says
 * that the edition is not 1 or 2, unless a function says otherwise.
 * *row is always written. It is the row at fault after 25 to 30 and 34; after every other status it is 0 or what the
 * function says. Offsets count bytes from the start of the file.
 */

/* The full check of a file. Status: the full check, 0. *row: above. */
SNOEKELDRAF_CHECKED SNOEKELDRAF_READS(1, 2) SNOEKELDRAF_SETS(3)
uint32_t shift_check(const uint8_t *file, uint64_t file_len, uint32_t *row);

/* Finds the row that has the job. Status: the full check, 32, 0. After 0, *row is the row. */
SNOEKELDRAF_CHECKED SNOEKELDRAF_READS(1, 2) SNOEKELDRAF_SETS(4)
uint32_t shift_lookup(const uint8_t *file, uint64_t file_len, uint32_t job, uint32_t *row);

/* Verified: the associated data of a job whose tag was compared with the ring's key. No message is written.
 * Status: the full check, 32, 2, 8, 0: that of shift_open_job with an output of the message's length. *row is shift_open_job's.
 * After 0 the associated data is *len bytes at offset *at. *at and *len are always written, 0 after every other status.
 * This is the function to read a unit by: byte SHIFT_UNIT_AT of the associated data.
 */
SNOEKELDRAF_CHECKED SNOEKELDRAF_READS(1, 2) SNOEKELDRAF_READS(3, 4)
SNOEKELDRAF_SETS(6) SNOEKELDRAF_SETS(7) SNOEKELDRAF_SETS(8)
uint32_t shift_verified(const uint8_t *file, uint64_t file_len,
                        const uint8_t *ring, uint64_t ring_len,
                        uint32_t job,
                        uint32_t *row, uint32_t *at, uint32_t *len);

/* Opens a job: out gets the message. out_len has to be the message's length, *text_len of shift_entry.
 * Status: the full check, 32, 2, 6, 8, 0. *row is 0 after 0.
 * After 0, out is written whole. After 8, every byte of out is 0. After every other status out is unchanged.
 */
SNOEKELDRAF_CHECKED SNOEKELDRAF_READS(1, 2) SNOEKELDRAF_READS(3, 4) SNOEKELDRAF_WRITES(6, 7) SNOEKELDRAF_SETS(8)
uint32_t shift_open_job(const uint8_t *file, uint64_t file_len,
                        const uint8_t *ring, uint64_t ring_len,
                        uint32_t job,
                        uint8_t *SNOEKELDRAF_ALONE out, uint64_t out_len,
                        uint32_t *row);

/* Not verified: where a job's associated data lies. shift_verified gives the same offset once the tag was compared.
 * Status: the full check, 32, 0.
 * After 0 the associated data is *len bytes at offset *at. *at and *len are always written, 0 after every other status.
 */
SNOEKELDRAF_CHECKED SNOEKELDRAF_READS(1, 2) SNOEKELDRAF_SETS(4) SNOEKELDRAF_SETS(5)
uint32_t shift_associated(const uint8_t *file, uint64_t file_len, uint32_t job, uint32_t *at, uint32_t *len);

/* Not verified: where a job's associated data and ciphertext lie.
 * Status: the full check, 32, 0. After 0, *row is the row.
 * After 0 the associated data is *ad_len bytes at offset *ad_at, the ciphertext, as long as the message, *text_len bytes at
 * offset *text_at. All four are always written, 0 after every other status.
 */
SNOEKELDRAF_CHECKED SNOEKELDRAF_READS(1, 2) SNOEKELDRAF_SETS(4)
SNOEKELDRAF_SETS(5) SNOEKELDRAF_SETS(6) SNOEKELDRAF_SETS(7) SNOEKELDRAF_SETS(8)
uint32_t shift_entry(const uint8_t *file, uint64_t file_len, uint32_t job, uint32_t *row,
                     uint32_t *ad_at, uint32_t *ad_len, uint32_t *text_at, uint32_t *text_len);

/* Finds a job by binary search, without the full check and without reading a body.
 * Status: 20 to 24, 32, 0. After 0, *row is the row, after every other status 0.
 * From c rows at row s it looks at row s + c/2, stops if that has the job, and continues with the rows after it if its job
 * is lower, else with those before it; 32 when no row is left. On a file that passes shift_check, status and *row are those
 * of shift_lookup; on another they are whatever the search reaches.
 * *looked is always written: the number of rows looked at, at most 10, and 0 after 20 to 24.
 */
SNOEKELDRAF_CHECKED SNOEKELDRAF_READS(1, 2) SNOEKELDRAF_SETS(4) SNOEKELDRAF_SETS(5)
uint32_t shift_search(const uint8_t *file, uint64_t file_len, uint32_t job, uint32_t *row, uint32_t *looked);

/* The edition and the number of rows. Status: 20 to 24, 0.
 * *edition and *count are always written, 0 after every status but 0. No row is read.
 */
SNOEKELDRAF_CHECKED SNOEKELDRAF_READS(1, 2) SNOEKELDRAF_SETS(3) SNOEKELDRAF_SETS(4)
uint32_t shift_rows(const uint8_t *file, uint64_t file_len, uint32_t *edition, uint32_t *count);

/* One row of the table of contents: its numbers, and the offsets of its parts. The key is COMET_KEY_BYTES at
 * ring + COMET_KEY_BYTES * key_number; the tag, COMET_TAG_BYTES(suite), follows the text.
 */
typedef struct {
    uint32_t job;
    uint32_t station;    /* 0 in edition 1 */
    uint32_t suite;
    uint32_t key_number;
    uint32_t nonce_at;   /* 16 bytes, of which the suite reads the first COMET_NONCE_BYTES(suite) */
    uint32_t ad_at;
    uint32_t ad_len;
    uint32_t text_at;    /* the ciphertext, as long as the message */
    uint32_t text_len;
} shift_fields;
SNOEKELDRAF_SIZE(shift_fields, 36);

/* Not verified: a row's fields as the file has them, by the row's index. Status: 20 to 24, 32 (the file has no such row), 0.
 * All nine fields are always written, 0 after every status but 0.
 * Only 20 to 24 are checked. On a file that passes shift_check the offsets and lengths lie in the file; on another they may
 * be anything, and text_at is ad_at + ad_len modulo 2^32.
 */
SNOEKELDRAF_CHECKED SNOEKELDRAF_READS(1, 2) SNOEKELDRAF_SETS(4)
uint32_t shift_row(const uint8_t *file, uint64_t file_len, uint32_t row, shift_fields *fields);

/* ---- Shift files: writing ----
 *
 * *row is always written: the row after 25 to 30, 34, 33, 10, 35 and 8, and 0 after every other status, 0 too.
 */

/* Seals a draft: a shift file of edition 0 with plaintexts where the ciphertexts go, and zero tags.
 * Status: the full check (21: the edition is not 0), 33, 10, 2, 6 (out_len is not draft_len), 0. 33 and 10 give the first
 * such row, and 33 of any row comes before 10.
 * After 0, out is the sealed file: edition 1, ciphertexts and tags, every other byte the draft's. After every other status
 * out is unchanged.
 */
SNOEKELDRAF_CHECKED SNOEKELDRAF_READS(1, 2) SNOEKELDRAF_READS(3, 4) SNOEKELDRAF_WRITES(5, 6) SNOEKELDRAF_SETS(7)
uint32_t shift_seal_file(const uint8_t *draft, uint64_t draft_len,
                         const uint8_t *ring, uint64_t ring_len,
                         uint8_t *SNOEKELDRAF_ALONE out, uint64_t out_len,
                         uint32_t *row);

/* Turns a sealed file back into its draft.
 * Status: the full check (21: the edition is not 1), 2, 6 (out_len is not file_len), 8 (the first row whose tag differs), 0.
 * After 0, out is the draft; if no row has suite 4, shift_seal_file with the same ring gives the file again. After 8, every
 * byte of out is 0. After every other status out is unchanged.
 */
SNOEKELDRAF_CHECKED SNOEKELDRAF_READS(1, 2) SNOEKELDRAF_READS(3, 4) SNOEKELDRAF_WRITES(5, 6) SNOEKELDRAF_SETS(7)
uint32_t shift_unseal_file(const uint8_t *file, uint64_t file_len,
                           const uint8_t *ring, uint64_t ring_len,
                           uint8_t *SNOEKELDRAF_ALONE out, uint64_t out_len,
                           uint32_t *row);

/* Reseals the suite 4 rows of a file as suite 3, with the same key number, nonce, associated data and message. Only these
 * rows are opened. All other rows are copied with their tags, and these tags are not compared.
 * Status: the full check (21: the edition is not 1), 29 (the lowest row that would repeat the suite, key number and nonce of
 * an earlier one), 2, 6 (out_len is not file_len), 8 (the first suite 4 row whose tag differs), 0.
 * After 0, out is written whole, passes shift_check and has no suite 4 row; it differs from the file in the suite bytes,
 * ciphertexts and tags of the resealed rows alone. After 8, every byte of out is 0. After every other status out is
 * unchanged.
 */
SNOEKELDRAF_CHECKED SNOEKELDRAF_READS(1, 2) SNOEKELDRAF_READS(3, 4) SNOEKELDRAF_WRITES(5, 6) SNOEKELDRAF_SETS(7)
uint32_t shift_reseal(const uint8_t *file, uint64_t file_len,
                      const uint8_t *ring, uint64_t ring_len,
                      uint8_t *SNOEKELDRAF_ALONE out, uint64_t out_len,
                      uint32_t *row);

/* The length of a file once it is moved to the other edition (1 to 2, or 2 to 1): the out_len of its move. 0 if one of 20 to
 * 24 applies; the move then fails for every out_len. Rows are not read. A file of edition 1 whose move would exceed
 * SHIFT_FILE_BYTES_MAX gets that larger length here, while shift_to_edition2 returns 20.
 */
SNOEKELDRAF_READS(1, 2)
uint64_t shift_moved_length(const uint8_t *file, uint64_t file_len);

/* Moves a file from edition 1 to 2: a station of 0 in every row, 4 bytes more a row, the bodies kept byte for byte.
 * Status: the full check (21: the edition is not 1), 20 (the moved file would be longer than SHIFT_FILE_BYTES_MAX),
 * 6 (out_len is not shift_moved_length), 0.
 * After 0, out is written whole: shift_check, shift_lookup, shift_search and opening give of it what they give of the file.
 * After every other status out is unchanged.
 */
SNOEKELDRAF_CHECKED SNOEKELDRAF_READS(1, 2) SNOEKELDRAF_WRITES(3, 4) SNOEKELDRAF_SETS(5)
uint32_t shift_to_edition2(const uint8_t *file, uint64_t file_len,
                           uint8_t *SNOEKELDRAF_ALONE out, uint64_t out_len,
                           uint32_t *row);

/* Moves a file from edition 2 to 1. After shift_to_edition2 it gives the old file.
 * Status: the full check (21: the edition is not 2), 35 (the first row whose station is not 0),
 * 6 (out_len is not shift_moved_length), 0.
 * After 0, out is written whole. After every other status out is unchanged.
 */
SNOEKELDRAF_CHECKED SNOEKELDRAF_READS(1, 2) SNOEKELDRAF_WRITES(3, 4) SNOEKELDRAF_SETS(5)
uint32_t shift_to_edition1(const uint8_t *file, uint64_t file_len,
                           uint8_t *SNOEKELDRAF_ALONE out, uint64_t out_len,
                           uint32_t *row);

/* ---- Two files, and files of suppliers ---- */

/* Not verified: the current entry of a job, which is the amendment's if it has the job, else the day's.
 * Status: the full check of the amendment (*file is 1), the full check of the day's file (*file is 2; also if the amendment
 * has the job), 32 (*file is 0; neither has the job), 0.
 * After 0, *file is the file that holds the entry (1 the amendment, 2 the day's), *row its row there, and its associated
 * data is *len bytes at offset *at of that file. All four are always written: *row is the row at fault after 25 to 30 and
 * 34, and 0 after every other status but 0; *at and *len are 0 after every status but 0.
 */
SNOEKELDRAF_CHECKED SNOEKELDRAF_READS(1, 2) SNOEKELDRAF_READS(3, 4)
SNOEKELDRAF_SETS(6) SNOEKELDRAF_SETS(7) SNOEKELDRAF_SETS(8) SNOEKELDRAF_SETS(9)
uint32_t shift_amended(const uint8_t *amendment, uint64_t amendment_len,
                       const uint8_t *day, uint64_t day_len,
                       uint32_t job,
                       uint32_t *file, uint32_t *row, uint32_t *at, uint32_t *len);

/* Opens the current entry of a job: out gets the message.
 * Status: those of shift_amended, with *file and *row, then 2, 6 and 8 of shift_open_job on the file that holds the entry, 0.
 * After 0, 2, 6 and 8, *file is that file and *row is 0.
 * After 0, out is written whole. After 8, every byte of out is 0. After every other status out is unchanged.
 */
SNOEKELDRAF_CHECKED SNOEKELDRAF_READS(1, 2) SNOEKELDRAF_READS(3, 4) SNOEKELDRAF_READS(5, 6) SNOEKELDRAF_WRITES(8, 9)
SNOEKELDRAF_SETS(10) SNOEKELDRAF_SETS(11)
uint32_t shift_open_amended(const uint8_t *amendment, uint64_t amendment_len,
                            const uint8_t *day, uint64_t day_len,
                            const uint8_t *ring, uint64_t ring_len,
                            uint32_t job,
                            uint8_t *SNOEKELDRAF_ALONE out, uint64_t out_len,
                            uint32_t *file, uint32_t *row);

/* Compares two files. Three lists get job numbers in rising order: only_first those only in the first file, only_second
 * those only in the second, differ those in both with another suite, key number, associated data length, nonce, body or
 * station (0 in edition 1). Offsets are not compared.
 * Status: the full check of the first file (*file is 1), the full check of the second (*file is 2), 36, 0. A list of
 * SHIFT_ROWS_MAX elements never gives 36.
 * After 0, the three counts are the lengths of the lists; elements after a count are unchanged. After every other status the
 * counts are 0 and the lists are unchanged. *file and *row are always written: after 36 and 0 both are 0, and *row is 0 but
 * after 25 to 30 and 34.
 */
SNOEKELDRAF_CHECKED SNOEKELDRAF_READS(1, 2) SNOEKELDRAF_READS(3, 4)
SNOEKELDRAF_WRITES(5, 6) SNOEKELDRAF_WRITES(7, 8) SNOEKELDRAF_WRITES(9, 10)
SNOEKELDRAF_SETS(11) SNOEKELDRAF_SETS(12) SNOEKELDRAF_SETS(13) SNOEKELDRAF_SETS(14) SNOEKELDRAF_SETS(15)
uint32_t shift_compare(const uint8_t *first, uint64_t first_len,
                       const uint8_t *second, uint64_t second_len,
                       uint32_t *SNOEKELDRAF_ALONE only_first, uint64_t only_first_len,
                       uint32_t *SNOEKELDRAF_ALONE only_second, uint64_t only_second_len,
                       uint32_t *SNOEKELDRAF_ALONE differ, uint64_t differ_len,
                       uint32_t *first_count, uint32_t *second_count, uint32_t *differ_count,
                       uint32_t *file, uint32_t *row);

/* Compares every tag of a supplier's file of at most SHIFT_REPORT_BYTES_MAX bytes. For each row, in the file's order, jobs
 * gets the job number, and numbers gets 0 if the tag is right under the ring, 8 if it differs. No message is written.
 * Status: 20 (longer than SHIFT_REPORT_BYTES_MAX), the full check, 2, 6 (a list has fewer elements than the file rows), 0.
 * After 0, *count is the number of rows, also if tags differ; elements after it are unchanged. After every other status
 * *count is 0 and the lists are unchanged. *row is always written: the row after 25 to 30 and 34, else 0.
 */
SNOEKELDRAF_CHECKED SNOEKELDRAF_READS(1, 2) SNOEKELDRAF_READS(3, 4) SNOEKELDRAF_WRITES(5, 6) SNOEKELDRAF_WRITES(7, 8)
SNOEKELDRAF_SETS(9) SNOEKELDRAF_SETS(10)
uint32_t shift_report(const uint8_t *file, uint64_t file_len,
                      const uint8_t *ring, uint64_t ring_len,
                      uint32_t *SNOEKELDRAF_ALONE jobs, uint64_t jobs_len,
                      uint8_t *SNOEKELDRAF_ALONE numbers, uint64_t numbers_len,
                      uint32_t *count, uint32_t *row);

#ifdef __cplusplus
}
#endif

#undef SNOEKELDRAF_CHECKED
#undef SNOEKELDRAF_NEEDED
#undef SNOEKELDRAF_ALONE
#undef SNOEKELDRAF_ACCESS
#undef SNOEKELDRAF_READS
#undef SNOEKELDRAF_WRITES
#undef SNOEKELDRAF_CHANGES
#undef SNOEKELDRAF_SETS
#undef SNOEKELDRAF_UPDATES
#undef SNOEKELDRAF_SIZE

#endif
