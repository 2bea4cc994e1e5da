/* Runs the calls of test_comet. */
#include "library.h"

#ifdef SUITE
static int others(const call *c) { return c->suite != SUITE; }
#else
static int others(const call *c) { return (void)c, 0; }
#endif

static void skipped(void) {
    word("skipped");
    end_line();
}

/* The number of cipher calls; the counted functions always write it. */
static uint64_t calls_made;

static uint32_t sealed(const call *c, bytes key, bytes nonce, bytes ad, bytes text, bytes out, bytes tag) {
    if (c->op == 2)
        return SEAL_COUNTED(c->suite, SLICE(key), SLICE(nonce), SLICE(ad), SLICE(text), SLICE(out), SLICE(tag),
                            &calls_made);
    return SEAL(c->suite, SLICE(key), SLICE(nonce), SLICE(ad), SLICE(text), SLICE(out), SLICE(tag));
}

static uint32_t opened(const call *c, bytes key, bytes nonce, bytes ad, bytes text, bytes tag, bytes out) {
    if (c->op == 3)
        return OPEN_COUNTED(c->suite, SLICE(key), SLICE(nonce), SLICE(ad), SLICE(text), SLICE(tag), SLICE(out),
                            &calls_made);
    return OPEN(c->suite, SLICE(key), SLICE(nonce), SLICE(ad), SLICE(text), SLICE(tag), SLICE(out));
}

static void status_of(const call *c, uint32_t status) {
    number(status);
    if (c->op == 2 || c->op == 3) and_number(calls_made);
}

static void run_seal(const call *c, bytes key, bytes nonce, bytes ad, bytes text) {
    bytes out = output(c->n[4]), tag = output(c->n[5]);
    uint32_t sum = sum_of_inputs();
    if (others(c)) return skipped();
    status_of(c, sealed(c, key, nonce, ad, text, out, tag));
    and_bytes(out);
    and_bytes(tag);
    end_line();
    check_guards(sum);
}

static void run_open(const call *c, bytes key, bytes nonce, bytes ad, bytes text) {
    bytes tag = input(c->n[5]), out = output(c->n[4]);
    uint32_t sum = sum_of_inputs();
    if (others(c)) return skipped();
    status_of(c, opened(c, key, nonce, ad, text, tag, out));
    and_bytes(out);
    end_line();
    check_guards(sum);
}

/* An output buffer with the next len bytes of the input: the text of the functions that work in place. */
static bytes input_output(uint32_t len) {
    bytes b = output(len);
    if (take(b.at, len) != len) stop("input ends early");
    return b;
}

static void run_in_place(const call *c, bytes key, bytes nonce, bytes ad) {
    bytes text = input_output(c->n[3]), tag = c->op == 4 ? output(c->n[5]) : input(c->n[5]);
    uint32_t sum = sum_of_inputs(), status;
    if (others(c)) return skipped();
    if (c->op == 4)
        status = SEAL_IN_PLACE(c->suite, SLICE(key), SLICE(nonce), SLICE(ad), SLICE(text), SLICE(tag));
    else
        status = OPEN_IN_PLACE(c->suite, SLICE(key), SLICE(nonce), SLICE(ad), SLICE(text), SLICE(tag));
    number(status);
    and_bytes(text);
    if (c->op == 4) and_bytes(tag);
    end_line();
    check_guards(sum);
}

static void run_verify(const call *c, bytes key, bytes nonce, bytes ad) {
    bytes text = input(c->n[3]), tag = input(c->n[5]);
    uint32_t sum = sum_of_inputs();
    if (others(c)) return skipped();
    number(VERIFY(c->suite, SLICE(key), SLICE(nonce), SLICE(ad), SLICE(text), SLICE(tag)));
    end_line();
    check_guards(sum);
}

void run_record(const call *c) {
    bytes key = input(c->n[0]), nonce = input(c->n[1]), ad = input(c->n[2]);
    calls_made = 0xa5a5a5a5a5a5a5a5u;
    switch (c->op) {
    case 0: case 2: run_seal(c, key, nonce, ad, input(c->n[3])); break;
    case 1: case 3: run_open(c, key, nonce, ad, input(c->n[3])); break;
    case 4: case 5: run_in_place(c, key, nonce, ad); break;
    case 6: run_verify(c, key, nonce, ad); break;
    default: stop("test_comet has an op that is unknown here");
    }
}
