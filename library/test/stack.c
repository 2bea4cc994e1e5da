/* What a call leaves on the stack, with and without snoekeldraf_forget and comet_forget, and how much stack it takes.
 * Run it from the root of the repository: it reads samples/.
 *
 * Every call runs on a stack of its own that is filled with a pattern first. Afterwards the stack is searched for every
 * piece (PIECE bytes, at any offset, at most one of them zero) of the key, the message and the chaining values Y and Z,
 * which a session with the same inputs gives. A line for each call: stack bytes, pieces of key, message and state found
 * without snoekeldraf_forget, the same with it, and how many bytes that the call wrote are then still not zero.
 * Exit status 0: nothing is found with snoekeldraf_forget, nor after a call on a record with comet_forget; something is found
 * without them over all calls together; and no call comes within MARGIN bytes of SNOEKELDRAF_STACK_BYTES, or in suites 2, 3
 * and 6 on a record of COMET_STACK_BYTES. Runs on x86-64, AArch64, Cortex-M and RISC-V.
 */
#include <stdio.h>
#include <string.h>

#include "snoekeldraf.h"

enum { STACK = 24576, PATTERN = 0xa5, PIECE = sizeof(uintptr_t), MARGIN = 1024, LEFT_MAX = 32 };
enum { AD = 21, MESSAGE = 203, JOB_SUITE_1 = 4101, JOB_SUITE_3 = 4103, FILE_MAX = 4096 };
enum { KEYS, MESSAGES, STATES, KINDS };

static uint8_t stack[STACK] __attribute__((aligned(16)));

/* Runs call on the stack that is filled with the pattern. */
static void on_stack(void (*call)(void))
{
    uint8_t *top = stack + STACK;
#if defined(__x86_64__)
    __asm__ volatile("movq %%rsp, %%rbx\n\tmovq %0, %%rsp\n\tcall *%1\n\tmovq %%rbx, %%rsp" : "+r"(top) : "r"(call)
                     : "rax", "rbx", "rcx", "rdx", "rsi", "rdi", "r8", "r9", "r10", "r11", "xmm0", "xmm1", "xmm2", "xmm3",
                       "xmm4", "xmm5", "xmm6", "xmm7", "xmm8", "xmm9", "xmm10", "xmm11", "xmm12", "xmm13", "xmm14", "xmm15",
                       "cc", "memory");
#elif defined(__aarch64__)
    __asm__ volatile("mov x19, sp\n\tmov sp, %0\n\tblr %1\n\tmov sp, x19" : "+r"(top) : "r"(call)
                     : "x0", "x1", "x2", "x3", "x4", "x5", "x6", "x7", "x8", "x9", "x10", "x11", "x12", "x13", "x14", "x15",
                       "x16", "x17", "x18", "x19", "x30", "v0", "v1", "v2", "v3", "v4", "v5", "v6", "v7", "v8", "v9", "v10",
                       "v11", "v12", "v13", "v14", "v15", "v16", "v17", "v18", "v19", "v20", "v21", "v22", "v23", "v24",
                       "v25", "v26", "v27", "v28", "v29", "v30", "v31", "cc", "memory");
#elif defined(__arm__)
    __asm__ volatile("mov r4, sp\n\tmov sp, %0\n\tblx %1\n\tmov sp, r4" : "+r"(top) : "r"(call)
                     : "r0", "r1", "r2", "r3", "r4", "r12", "lr", "cc", "memory");
#elif defined(__riscv)
    __asm__ volatile("mv s1, sp\n\tmv sp, %0\n\tjalr %1\n\tmv sp, s1" : "+r"(top) : "r"(call)
                     : "s1", "ra", "t0", "t1", "t2", "t3", "t4", "t5", "t6", "a0", "a1", "a2", "a3", "a4", "a5", "a6", "a7",
                       "memory");
#else
#error "no way to change the stack is known for this processor"
#endif
}

/* The inputs. Their bytes are pseudorandom, so that a piece of them can be recognised. */
static uint8_t suite, key[16], nonce[16], ad[AD], message[MESSAGE], sealed[MESSAGE], tag[16], output[MESSAGE + 16];
static uint8_t day[FILE_MAX], draft[FILE_MAX], ring[SHIFT_RING_BYTES], made[FILE_MAX];
static uint64_t day_len, draft_len;
static uint32_t job, status, words[4], jobs[SHIFT_ROWS_MAX];
static uint8_t numbers[SHIFT_ROWS_MAX];
static comet_session session;

static void random_bytes(uint8_t *bytes, size_t len, uint64_t seed)
{
    for (size_t i = 0; i < len; i++) {
        seed = seed * 6364136223846793005u + 1442695040888963407u;
        bytes[i] = (uint8_t)(seed >> 56);
    }
}

/* The stack pointer of the calling function: the stack below it does not belong to that function. */
static uint8_t *here;
#if defined(__x86_64__)
#define NOTE_HERE __asm__ volatile("movq %%rsp, %0" : "=r"(here))
#elif defined(__riscv)
#define NOTE_HERE __asm__ volatile("mv %0, sp" : "=r"(here))
#else
#define NOTE_HERE __asm__ volatile("mov %0, sp" : "=r"(here))
#endif

/* The calls, each in a function of its own, as in a program. */
#define KEYED suite, key, sizeof key, nonce, COMET_NONCE_BYTES(suite), ad, sizeof ad
#define TAGGED tag, COMET_TAG_BYTES(suite)
#define CALL(name, call) static void name(void) { status = call; } \
                         static void name##_forget(void) { status = call; snoekeldraf_forget(); NOTE_HERE; }
#define RECORD(name, call) CALL(name, call) static void name##_suite(void) { status = call; comet_forget(suite); NOTE_HERE; }
RECORD(seal, comet_seal(KEYED, message, MESSAGE, output, MESSAGE, TAGGED))
RECORD(open, comet_open(KEYED, sealed, MESSAGE, TAGGED, output, MESSAGE))
RECORD(seal_in_place, comet_seal_in_place(KEYED, output, MESSAGE, TAGGED))
RECORD(open_in_place, comet_open_in_place(KEYED, output, MESSAGE, TAGGED))
RECORD(verify, comet_verify(KEYED, sealed, MESSAGE, TAGGED))
CALL(start, comet_session_start(&session, suite, key, sizeof key, nonce, COMET_NONCE_BYTES(suite)))
CALL(data, comet_session_data(&session, ad, sizeof ad))
CALL(part, comet_session_part(&session, message, MESSAGE, output, sizeof output, words))
CALL(end, comet_session_end(&session, output, sizeof output, TAGGED, words))
CALL(check, shift_check(day, day_len, words))
CALL(entry, shift_entry(day, day_len, job, words, words + 1, words + 2, words + 3, jobs))
CALL(search, shift_search(day, day_len, job, words, words + 1))
CALL(verified, shift_verified(day, day_len, ring, sizeof ring, job, words, words + 1, words + 2))
CALL(open_job, shift_open_job(day, day_len, ring, sizeof ring, job, output, words[3], words))
CALL(open_amended, shift_open_amended(day, day_len, day, day_len, ring, sizeof ring, job, output, words[3], words, words + 1))
CALL(amended, shift_amended(day, day_len, day, day_len, job, words, words + 1, words + 2, words + 3))
CALL(reseal, shift_reseal(day, day_len, ring, sizeof ring, made, day_len, words))
CALL(seal_file, shift_seal_file(draft, draft_len, ring, sizeof ring, made, draft_len, words))
CALL(unseal_file, shift_unseal_file(day, day_len, ring, sizeof ring, made, day_len, words))
CALL(report, shift_report(day, day_len, ring, sizeof ring, jobs, SHIFT_ROWS_MAX, numbers, SHIFT_ROWS_MAX, words, words + 1))
CALL(to_edition2, shift_to_edition2(day, day_len, made, shift_moved_length(day, day_len), words))
CALL(compare, shift_compare(day, day_len, day, day_len, jobs, 100, jobs + 100, 100, jobs + 200, 100,
                            words, words + 1, words + 2, words + 3, jobs + 400))

/* The secrets to search for: copies of key, message and states. */
static struct secret { uint8_t bytes[512]; size_t len; } secrets[KINDS];

static void add_secret(int kind, const void *bytes, size_t len)
{
    struct secret *s = &secrets[kind];
    if (s->len + len <= sizeof s->bytes) {
        memcpy(s->bytes + s->len, bytes, len);
        s->len += len;
    }
}

static size_t depth(void)
{
    size_t untouched = 0;
    while (untouched < STACK && stack[untouched] == PATTERN) untouched++;
    return STACK - untouched;
}

/* How many times a piece occurs on the stack. */
static unsigned found_piece(const uint8_t *piece)
{
    unsigned times = 0;
    for (const uint8_t *at = stack + STACK - depth(); at + PIECE <= stack + STACK; at++) {
        times += *at == *piece && memcmp(at, piece, PIECE) == 0;
    }
    return times;
}

/* Whether at most one byte of a piece is zero. A session has zeros beside the halves of Y and Z that an 8-byte block leaves
 * unused, and a piece of zeros and one byte is found in any return address. */
static int is_telling(const uint8_t *piece)
{
    unsigned zeros = 0;
    for (size_t i = 0; i < PIECE; i++) zeros += piece[i] == 0;
    return zeros <= 1;
}

/* How many pieces of a secret stand on the stack. */
static unsigned found(int kind)
{
    const struct secret *s = &secrets[kind];
    unsigned pieces = 0;
    for (size_t i = 0; i + PIECE <= s->len; i++) {
        if (is_telling(s->bytes + i)) pieces += found_piece(s->bytes + i);
    }
    return pieces;
}

/* Records Y and Z of a session with the same inputs as secrets: after the start, the associated data and the message. */
static void learn_states(const uint8_t *msg, size_t len)
{
    secrets[STATES].len = 0;
    start();
    add_secret(STATES, session.word + 1, 32);
    data();
    add_secret(STATES, session.word + 1, 32);
    status = comet_session_part(&session, msg, len, output, sizeof output, words);
    add_secret(STATES, session.word + 1, 32);
}

static int failures;
static size_t deepest, deepest_plain;
static unsigned without_forget[KINDS];

static void run(void (*call)(void), void (*prepare)(void), unsigned count[KINDS])
{
    if (prepare) prepare();
    memset(stack, PATTERN, STACK);
    status = 99;
    on_stack(call);
    for (int kind = 0; kind < KINDS; kind++) count[kind] = found(kind);
}

/* Counts what is left of a call that took so many bytes, and was forgotten. */
static unsigned forgotten(size_t taken, void (*forgetting)(void), void (*prepare)(void), unsigned count[KINDS])
{
    unsigned left = 0;
    run(forgetting, prepare, count);
    for (size_t i = STACK - taken; stack + i < here; i++) left += stack[i] != 0;
    failures += count[KEYS] + count[MESSAGES] + count[STATES] != 0 || left > LEFT_MAX;
    return left;
}

/* Tests one call without and with snoekeldraf_forget; returns how much stack it took. */
static size_t try_call(const char *name, void (*call)(void), void (*forgetting)(void), void (*prepare)(void))
{
    unsigned before[KINDS], after[KINDS];
    run(call, prepare, before);
    size_t taken = depth();
    if (status != 0) { printf("%s: status %u\n", name, (unsigned)status); failures++; }
    unsigned left = forgotten(taken, forgetting, prepare, after);
    printf("%-14s suite %u: %5u bytes; key %u, message %u, state %u; forgotten: key %u, message %u, state %u, left %u\n",
           name, (unsigned)suite, (unsigned)taken, before[KEYS], before[MESSAGES], before[STATES], after[KEYS],
           after[MESSAGES], after[STATES], left);
    for (int kind = 0; kind < KINDS; kind++) without_forget[kind] += before[kind];
    if (taken > deepest) deepest = taken;
    return taken;
}

/* Tests one call on a record also with comet_forget. */
static void try_record(const char *name, void (*call)(void), void (*forgetting)(void), void (*suite_forgetting)(void),
                       void (*prepare)(void))
{
    unsigned after[KINDS];
    size_t taken = try_call(name, call, forgetting, prepare);
    unsigned left = forgotten(taken, suite_forgetting, prepare, after);
    printf("%-14s suite %u: comet_forget: key %u, message %u, state %u, left %u\n", name, (unsigned)suite, after[KEYS],
           after[MESSAGES], after[STATES], left);
    int plain = suite == COMET_CHAM128 || suite == COMET_SPECK64 || suite == COMET2_SPECK64;
    if (plain && taken > deepest_plain) deepest_plain = taken;
}

static void put_message(void) { memcpy(output, message, MESSAGE); }
static void put_sealed(void) { seal(); memcpy(output, sealed, MESSAGE); }
static void to_data(void) { start(); }
static void to_part(void) { start(); data(); }
static void to_end(void) { to_part(); part(); }
static void job_length(void) { uint32_t x[4]; status = shift_entry(day, day_len, job, x, x + 1, x + 2, x + 3, words + 3); }

static void try_records(uint8_t which)
{
    suite = which;
    learn_states(message, MESSAGE);
    seal();
    memcpy(sealed, output, MESSAGE);
    try_record("seal", seal, seal_forget, seal_suite, NULL);
    try_record("open", open, open_forget, open_suite, seal);
    try_record("seal_in_place", seal_in_place, seal_in_place_forget, seal_in_place_suite, put_message);
    try_record("open_in_place", open_in_place, open_in_place_forget, open_in_place_suite, put_sealed);
    try_record("verify", verify, verify_forget, verify_suite, seal);
    try_call("session_start", start, start_forget, NULL);
    try_call("session_data", data, data_forget, to_data);
    try_call("session_part", part, part_forget, to_part);
    try_call("session_end", end, end_forget, to_end);
}

/* Tests calls on a job of the sample file. The secrets are its key in the ring, its message, and the states of a session. */
static void try_job(uint32_t which)
{
    uint32_t at[5];
    job = which;
    job_length();
    open_job();
    memcpy(message, output, words[3]);
    status = shift_entry(day, day_len, job, at, at + 1, at + 2, at + 3, at + 4);
    const uint8_t *row = day + 8 + 32 * at[0];
    suite = row[4];
    memcpy(key, ring + 16 * row[5], 16);
    memcpy(nonce, row + 16, 16);
    memcpy(ad, day + at[1], sizeof ad);
    secrets[KEYS].len = secrets[MESSAGES].len = 0;
    add_secret(KEYS, key, 16);
    add_secret(MESSAGES, message, words[3]);
    learn_states(message, words[3]);
    try_call("open_job", open_job, open_job_forget, job_length);
    try_call("verified", verified, verified_forget, NULL);
    try_call("open_amended", open_amended, open_amended_forget, job_length);
}

/* Tests calls on whole files. The secrets are the keys of the ring; messages are not searched for. */
static void try_file(void)
{
    secrets[KEYS].len = secrets[MESSAGES].len = secrets[STATES].len = 0;
    add_secret(KEYS, ring, sizeof ring);
    suite = 0;
    try_call("seal_file", seal_file, seal_file_forget, NULL);
    try_call("unseal_file", unseal_file, unseal_file_forget, NULL);
    try_call("report", report, report_forget, NULL);
    try_call("reseal", reseal, reseal_forget, NULL);
    try_call("check", check, check_forget, NULL);
    try_call("entry", entry, entry_forget, NULL);
    try_call("search", search, search_forget, NULL);
    try_call("amended", amended, amended_forget, NULL);
    try_call("compare", compare, compare_forget, NULL);
    try_call("to_edition2", to_edition2, to_edition2_forget, NULL);
}

static uint64_t read_file(const char *path, uint8_t *bytes, size_t room)
{
    FILE *from = fopen(path, "rb");
    if (from == NULL) return 0;
    size_t len = fread(bytes, 1, room, from);
    fclose(from);
    return len;
}

int main(void)
{
    day_len = read_file("samples/day.shift", day, sizeof day);
    draft_len = read_file("samples/day.draft", draft, sizeof draft);
    if (day_len == 0 || draft_len == 0 || read_file("samples/ring.keys", ring, sizeof ring) != sizeof ring) {
        printf("samples/ cannot be read\n");
        return 2;
    }
    random_bytes(key, sizeof key, 1);
    random_bytes(nonce, sizeof nonce, 2);
    random_bytes(ad, sizeof ad, 3);
    random_bytes(message, sizeof message, 4);
    add_secret(KEYS, key, sizeof key);
    add_secret(MESSAGES, message, sizeof message);
    for (uint8_t which = 1; which <= 6; which++) {
        if (which != COMET_CHAM64) try_records(which);
    }
    try_job(JOB_SUITE_1);
    try_job(JOB_SUITE_3);
    try_file();
    printf("deepest call: %u bytes; SNOEKELDRAF_STACK_BYTES is %u\n", (unsigned)deepest, (unsigned)SNOEKELDRAF_STACK_BYTES);
    printf("found without snoekeldraf_forget: key %u, message %u, state %u\n", without_forget[KEYS],
           without_forget[MESSAGES], without_forget[STATES]);
    printf("deepest call on a record in suites 2, 3 and 6: %u bytes; COMET_STACK_BYTES is %u\n", (unsigned)deepest_plain,
           (unsigned)COMET_STACK_BYTES);
    failures += deepest + MARGIN > SNOEKELDRAF_STACK_BYTES || deepest_plain + MARGIN > COMET_STACK_BYTES;
    failures += without_forget[KEYS] == 0 || without_forget[MESSAGES] == 0 || without_forget[STATES] == 0;
    printf("%d failures\n", failures);
    return failures != 0;
}
