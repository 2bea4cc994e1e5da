/* Answers the cases of the conformance vectors with the proved library: reads one case per line from the standard input and
 * writes one answer per line to the standard output (vectors/README.md). Link it with the archive of tools/library:
 *
 *     cc -Iinclude vectors/adapters/archive.c target/aarch64/libsnoekeldraf.a -o target/adapter
 *
 * It is also an example for a supplier: a case is a flat JSON object without escapes, so no JSON library is needed.
 */
#include <inttypes.h>
#include <stdio.h>
#include <stdlib.h>
#include <string.h>

#include "snoekeldraf.h"

#define BEFORE 0xa5 /* every byte of an output before a call */
#define BUFFERS_MAX 16

typedef struct {
    uint8_t *at;
    uint64_t len;
} bytes;

static char *line;
static void *buffers[BUFFERS_MAX];
static int buffer_count;

static void fail(const char *words, const char *name)
{
    fprintf(stderr, "archive: %s: %s\n", words, name);
    exit(1);
}

/* A buffer that is freed once the case is answered. Its length is exact, so that a memory checker sees every overrun. */
static void *allocate(size_t size)
{
    void *buffer = malloc(size + (size == 0));
    if (buffer == NULL || buffer_count == BUFFERS_MAX) fail("no memory", "allocate");
    buffers[buffer_count++] = buffer;
    return buffer;
}

static void free_all(void)
{
    while (buffer_count > 0) free(buffers[--buffer_count]);
}

/* ---- reading a case ---- */

static const char *after_spaces(const char *at)
{
    return at + strspn(at, " \t");
}

/* The text after a value, which is a string or a number. */
static const char *after_value(const char *at)
{
    if (*at == '"') {
        at = strchr(at + 1, '"');
        if (at == NULL) fail("a string does not end", line);
        return at + 1;
    }
    return at + strcspn(at, ",}");
}

/* The text of a field's value in the case; ends the program if there is no such field. */
static const char *value_of(const char *name)
{
    const char *at = strchr(line, '{');
    size_t len = strlen(name);
    while (at != NULL && *at != '}' && *at != 0) {
        const char *key = strchr(at, '"'), *end = key == NULL ? NULL : strchr(key + 1, '"');
        if (end == NULL) break;
        at = after_spaces(after_spaces(end + 1) + 1);
        if ((size_t)(end - key - 1) == len && memcmp(key + 1, name, len) == 0) return at;
        at = after_spaces(after_value(at));
    }
    fail("the case has no field", name);
    return NULL;
}

static uint64_t number_of(const char *name)
{
    return strtoull(value_of(name), NULL, 10);
}

static unsigned digit_of(char c)
{
    return (unsigned)(c <= '9' ? c - '0' : c - 'a' + 10);
}

static bytes bytes_of(const char *name)
{
    const char *text = value_of(name) + 1;
    bytes result = {NULL, (uint64_t)(strchr(text, '"') - text) / 2};
    result.at = allocate(result.len);
    for (uint64_t i = 0; i < result.len; i++) result.at[i] = (uint8_t)(digit_of(text[2 * i]) << 4 | digit_of(text[2 * i + 1]));
    return result;
}

static bytes output(uint64_t len)
{
    bytes result = {allocate(len), len};
    memset(result.at, BEFORE, len);
    return result;
}

/* ---- writing an answer ---- */

static void put_number(const char *name, uint64_t number)
{
    printf(", \"%s\": %" PRIu64, name, number);
}

static void put_hex(const char *name, const uint8_t *at, uint64_t len)
{
    printf(", \"%s\": \"", name);
    for (uint64_t i = 0; i < len; i++) printf("%02x", at[i]);
    printf("\"");
}

static void put_list(const char *name, const uint32_t *list, uint32_t count)
{
    printf(", \"%s\": \"", name);
    for (uint32_t i = 0; i < count; i++) printf(i == 0 ? "%" PRIu32 : " %" PRIu32, list[i]);
    printf("\"");
}

/* ---- records ---- */

static void seal(void)
{
    bytes key = bytes_of("key"), nonce = bytes_of("nonce"), ad = bytes_of("ad"), msg = bytes_of("msg");
    bytes out = output(number_of("out_len")), tag = output(number_of("tag_len"));
    put_number("status", comet_seal((uint8_t)number_of("suite"), key.at, key.len, nonce.at, nonce.len, ad.at, ad.len, msg.at,
                                    msg.len, out.at, out.len, tag.at, tag.len));
    put_hex("out", out.at, out.len);
    put_hex("tag", tag.at, tag.len);
}

static void open_record(void)
{
    bytes key = bytes_of("key"), nonce = bytes_of("nonce"), ad = bytes_of("ad"), text = bytes_of("text");
    bytes tag = bytes_of("tag"), out = output(number_of("out_len"));
    put_number("status", comet_open((uint8_t)number_of("suite"), key.at, key.len, nonce.at, nonce.len, ad.at, ad.len, text.at,
                                    text.len, tag.at, tag.len, out.at, out.len));
    put_hex("out", out.at, out.len);
}

/* The results of a session's calls so far. */
static struct {
    comet_session session;
    bytes ad, msg, out, tag;
    uint64_t ad_at, msg_at;
    uint32_t statuses[256], counts[256];
    int calls;
} run;

static void note(uint32_t status, uint32_t count)
{
    if (run.calls == 256) fail("more than 256 calls", line);
    run.statuses[run.calls] = status;
    run.counts[run.calls++] = count;
}

/* Appends the ciphertext that a call output. */
static void keep(const bytes *out, uint32_t count)
{
    memcpy(run.out.at + run.out.len, out->at, count);
    run.out.len += count;
}

/* Makes the call of one word of `steps`: aLEN, mLEN:OUT_LEN or eOUT_LEN:TAG_LEN. Returns the text after the word. */
static char *step(char *word)
{
    uint32_t status, count = 0;
    char *end;
    uint64_t first = strtoull(word + 1, &end, 10), second = *end == ':' ? strtoull(end + 1, &end, 10) : 0;
    bytes out = {(uint8_t *)malloc((size_t)(*word == 'm' ? second : first) + 1), *word == 'm' ? second : first};
    if (out.at == NULL) fail("no memory", "step");
    memset(out.at, BEFORE, out.len);
    if (*word == 'a') {
        status = comet_session_data(&run.session, run.ad.at + run.ad_at, first);
        run.ad_at += status == 0 ? first : 0;
    } else if (*word == 'm') {
        status = comet_session_part(&run.session, run.msg.at + run.msg_at, first, out.at, out.len, &count);
        run.msg_at += status == 0 ? first : 0;
    } else {
        run.tag = output(second);
        status = comet_session_end(&run.session, out.at, out.len, run.tag.at, run.tag.len, &count);
    }
    keep(&out, count);
    free(out.at);
    note(status, count);
    return end;
}

static void session(void)
{
    bytes key = bytes_of("key"), nonce = bytes_of("nonce");
    char *at = (char *)value_of("steps") + 1;
    memset(&run, 0, sizeof run);
    run.ad = bytes_of("ad");
    run.msg = bytes_of("msg");
    run.out.at = allocate(run.msg.len + COMET_TAG_BYTES_MAX);
    note(comet_session_start(&run.session, (uint8_t)number_of("suite"), key.at, key.len, nonce.at, nonce.len), 0);
    while (*at != '"') {
        at = step(at);
        if (*at == ' ') at++;
    }
    put_list("statuses", run.statuses, (uint32_t)run.calls);
    put_list("counts", run.counts, (uint32_t)run.calls);
    put_hex("out", run.out.at, run.out.len);
    put_hex("tag", run.tag.at, run.tag.len);
}

/* ---- shift files ---- */

static void put_answer(uint32_t status, uint32_t row)
{
    put_number("status", status);
    put_number("row", row);
}

static void check(void)
{
    uint32_t row, status;
    bytes file = bytes_of("file");
    status = shift_check(file.at, file.len, &row);
    put_answer(status, row);
}

static void lookup(void)
{
    uint32_t row, status, at, len;
    bytes file = bytes_of("file");
    status = shift_lookup(file.at, file.len, (uint32_t)number_of("job"), &row);
    if (shift_associated(file.at, file.len, (uint32_t)number_of("job"), &at, &len) != status) fail("two statuses", "lookup");
    put_answer(status, row);
    put_number("at", at);
    put_number("len", len);
}

static void search(void)
{
    uint32_t row, status, looked;
    bytes file = bytes_of("file");
    status = shift_search(file.at, file.len, (uint32_t)number_of("job"), &row, &looked);
    put_answer(status, row);
    put_number("looked", looked);
}

static void open_job(void)
{
    uint32_t row, status;
    bytes file = bytes_of("file"), ring = bytes_of("ring"), out = output(number_of("out_len"));
    status = shift_open_job(file.at, file.len, ring.at, ring.len, (uint32_t)number_of("job"), out.at, out.len, &row);
    put_answer(status, row);
    put_hex("out", out.at, out.len);
}

static void verified(void)
{
    uint32_t row, status, at, len;
    bytes file = bytes_of("file"), ring = bytes_of("ring");
    status = shift_verified(file.at, file.len, ring.at, ring.len, (uint32_t)number_of("job"), &row, &at, &len);
    put_answer(status, row);
    put_number("at", at);
    put_number("len", len);
}

typedef uint32_t writes(const uint8_t *, uint64_t, const uint8_t *, uint64_t, uint8_t *, uint64_t, uint32_t *);

static void write_by(writes *function)
{
    uint32_t row, status;
    bytes file = bytes_of("file"), ring = bytes_of("ring"), out = output(number_of("out_len"));
    status = function(file.at, file.len, ring.at, ring.len, out.at, out.len, &row);
    put_answer(status, row);
    put_hex("out", out.at, out.len);
}

static void seal_file(void) { write_by(shift_seal_file); }
static void unseal_file(void) { write_by(shift_unseal_file); }
static void reseal(void) { write_by(shift_reseal); }

typedef uint32_t moves(const uint8_t *, uint64_t, uint8_t *, uint64_t, uint32_t *);

static void move_by(moves *function)
{
    uint32_t row, status;
    bytes file = bytes_of("file"), out = output(number_of("out_len"));
    status = function(file.at, file.len, out.at, out.len, &row);
    put_answer(status, row);
    put_hex("out", out.at, out.len);
}

static void to_edition2(void) { move_by(shift_to_edition2); }
static void to_edition1(void) { move_by(shift_to_edition1); }

static void put_found(uint32_t status, uint32_t file, uint32_t row)
{
    put_number("status", status);
    put_number("file", file);
    put_number("row", row);
}

static void amended(void)
{
    uint32_t status, file, row, at, len;
    bytes amendment = bytes_of("amendment"), day = bytes_of("day");
    status = shift_amended(amendment.at, amendment.len, day.at, day.len, (uint32_t)number_of("job"), &file, &row, &at, &len);
    put_found(status, file, row);
    put_number("at", at);
    put_number("len", len);
}

static void open_amended(void)
{
    uint32_t status, file, row;
    bytes amendment = bytes_of("amendment"), day = bytes_of("day"), ring = bytes_of("ring");
    bytes out = output(number_of("out_len"));
    status = shift_open_amended(amendment.at, amendment.len, day.at, day.len, ring.at, ring.len, (uint32_t)number_of("job"),
                                out.at, out.len, &file, &row);
    put_found(status, file, row);
    put_hex("out", out.at, out.len);
}

static uint32_t *list_of(uint64_t len)
{
    return allocate(len * sizeof(uint32_t));
}

static void compare(void)
{
    uint32_t status, file, row, counts[3];
    bytes first = bytes_of("first"), second = bytes_of("second");
    uint64_t lens[3] = {number_of("first_len"), number_of("second_len"), number_of("differ_len")};
    uint32_t *lists[3] = {list_of(lens[0]), list_of(lens[1]), list_of(lens[2])};
    status = shift_compare(first.at, first.len, second.at, second.len, lists[0], lens[0], lists[1], lens[1], lists[2], lens[2],
                           &counts[0], &counts[1], &counts[2], &file, &row);
    put_found(status, file, row);
    put_list("first", lists[0], counts[0]);
    put_list("second", lists[1], counts[1]);
    put_list("differ", lists[2], counts[2]);
}

static void report(void)
{
    uint32_t status, row, count;
    bytes file = bytes_of("file"), ring = bytes_of("ring"), numbers = output(number_of("numbers_len"));
    uint64_t jobs_len = number_of("jobs_len");
    uint32_t *jobs = list_of(jobs_len), *wide = list_of(numbers.len);
    status = shift_report(file.at, file.len, ring.at, ring.len, jobs, jobs_len, numbers.at, numbers.len, &count, &row);
    for (uint32_t i = 0; i < count; i++) wide[i] = numbers.at[i];
    put_answer(status, row);
    put_list("jobs", jobs, count);
    put_list("numbers", wide, count);
}

static const struct {
    const char *name;
    void (*answer)(void);
} calls[] = {
    {"seal", seal}, {"open", open_record}, {"session", session}, {"check", check}, {"lookup", lookup}, {"search", search},
    {"open_job", open_job}, {"verified", verified}, {"seal_file", seal_file}, {"unseal_file", unseal_file},
    {"reseal", reseal}, {"to_edition2", to_edition2}, {"to_edition1", to_edition1}, {"amended", amended},
    {"open_amended", open_amended}, {"compare", compare}, {"report", report},
};

/* Answers the case in `line`. The library has no function for one block of a cipher: such a case is skipped. */
static void answer(void)
{
    const char *name = value_of("call") + 1;
    size_t len = (size_t)(strchr(name, '"') - name), i, count = sizeof calls / sizeof *calls;
    printf("{\"id\": %" PRIu64, number_of("id"));
    for (i = 0; i < count && !(strlen(calls[i].name) == len && memcmp(calls[i].name, name, len) == 0); i++) {}
    if (i < count) calls[i].answer();
    else put_number("skipped", 1);
    printf("}\n");
    free_all();
}

int main(void)
{
    size_t room = 0;
    while (getline(&line, &room, stdin) > 0) answer();
    free(line);
    return 0;
}
