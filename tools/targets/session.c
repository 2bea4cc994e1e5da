/* Runs the calls of test_session, on one session. With -DSUITE=n, calls are skipped from the start or forging of a session of
 * another suite that seals to the next start of suite n. */
#include "library.h"

static comet_session session;

static int same_words(const comet_session *a, const comet_session *b) {
    for (int i = 0; i < 9; i++)
        if (a->word[i] != b->word[i]) return 0;
    return 1;
}

static const comet_session over;

/* Checks that a refusal left the session unchanged; after a refused start and after an end, that it is nine zeros. */
static void check_session(const comet_session *before, uint32_t status, int zeros) {
    if (zeros && !same_words(&session, &over)) fault("the session is not nine zeros");
    if (!zeros && status != 0 && !same_words(&session, before)) fault("a refusal changed the session");
    comet_session copy = session;
    WIPE(&copy);
    if (!same_words(&copy, &over)) fault("a wiped session is not nine zeros");
}

static int foreign; /* whether the current session is of a suite that is not built */

static int is_foreign(uint8_t suite) {
#ifdef SUITE
    return suite != SUITE;
#else
    return (void)suite, 0;
#endif
}

static int skipped(void) {
    if (!foreign) return 0;
    word("skipped");
    end_line();
    return 1;
}

static void run_start(const call *c) {
    bytes key = input(c->n[0]), nonce = input(c->n[1]);
    uint32_t sum = sum_of_inputs(), status;
    for (int i = 0; i < 9; i++) session.word[i] = 0xa5a5a5a5a5a5a5a5u;
    foreign = is_foreign(c->suite);
    if (skipped()) return;
    status = START(&session, c->suite, SLICE(key), SLICE(nonce));
    number(status);
    and_number(0);
    end_line();
    check_guards(sum);
    check_session(&over, status, status != 0);
}

static void run_data(const call *c) {
    bytes ad = input(c->n[0]);
    comet_session before = session;
    uint32_t sum = sum_of_inputs(), status;
    if (skipped()) return;
    status = DATA(&session, SLICE(ad));
    number(status);
    and_number(0);
    end_line();
    check_guards(sum);
    check_session(&before, status, 0);
}

static void run_part(const call *c) {
    bytes msg = input(c->n[0]), out = output(c->n[1]);
    comet_session before = session;
    uint32_t sum = sum_of_inputs(), count = 0xa5a5a5a5u, status;
    if (skipped()) return;
    status = PART(&session, SLICE(msg), SLICE(out), &count);
    number(status);
    and_number(count);
    and_bytes(out);
    end_line();
    check_guards(sum);
    check_session(&before, status, 0);
}

static void run_end(const call *c) {
    bytes out = output(c->n[1]), tag = output(c->n[2]);
    comet_session before = session;
    uint32_t sum = sum_of_inputs(), count = 0xa5a5a5a5u, status;
    if (skipped()) return;
    status = END(&session, SLICE(out), SLICE(tag), &count);
    number(status);
    and_number(count);
    and_bytes(out);
    and_bytes(tag);
    end_line();
    check_guards(sum);
    check_session(&before, status, status == 0);
}

void run_session(const call *c) {
    switch (c->op) {
    case 0: run_start(c); break;
    case 1: run_data(c); break;
    case 2: run_part(c); break;
    case 3: run_end(c); break;
    case 4: /* a session that a caller forged */
        foreign |= is_foreign(c->suite) && c->suite >= 1 && c->suite <= 6 && c->suite != 4;
        session.word[0] = c->suite;
        session.word[7] = c->n[1];
        session.word[8] = c->n[2];
        break;
    default: stop("test_session has an op that is unknown here");
    }
}
