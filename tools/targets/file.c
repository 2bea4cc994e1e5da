/* Runs the calls of test_shift and test_writer: every C function that takes a shift file. */
#include "driver.h"

enum { UNWRITTEN = 0xa5a5a5a5 };

/* Checks that shift_verified returns status and row of shift_open_job with an output of the message's length, and offset and
 * length only with status 0. */
static void check_verified(bytes file, bytes ring, uint32_t job, uint32_t text_len) {
    uint32_t row = UNWRITTEN, at = UNWRITTEN, len = UNWRITTEN, row_opened, ad_at, ad_len;
    uint32_t status = shift_verified(SLICE(file), SLICE(ring), job, &row, &at, &len);
    bytes out = output(text_len);
    if (status != shift_open_job(SLICE(file), SLICE(ring), job, SLICE(out), &row_opened)) fault("shift_verified: status");
    if (row != row_opened) fault("shift_verified: row");
    if (shift_associated(SLICE(file), job, &ad_at, &ad_len) != 0) ad_at = ad_len = 0;
    if (at != (status == 0 ? ad_at : 0) || len != (status == 0 ? ad_len : 0)) fault("shift_verified: offset and length");
}

/* Checks that shift_associated and shift_lookup return what shift_entry returns. */
static void check_entry(bytes file, uint32_t job, uint32_t status, uint32_t row, uint32_t at, uint32_t len) {
    uint32_t row_found = UNWRITTEN, ad_at = UNWRITTEN, ad_len = UNWRITTEN;
    if (shift_lookup(SLICE(file), job, &row_found) != status || row_found != row) fault("shift_lookup");
    if (shift_associated(SLICE(file), job, &ad_at, &ad_len) != status) fault("shift_associated: status");
    if (ad_at != at || ad_len != len) fault("shift_associated: offset and length");
}

static void run_opening(const call *c) {
    bytes file = input(c->n[0]), ring = input(c->n[1]), out = output(c->n[2]);
    uint32_t row = UNWRITTEN, at = UNWRITTEN, len = UNWRITTEN, text_at = UNWRITTEN, text_len = UNWRITTEN;
    uint32_t sum = sum_of_inputs(), status = shift_check(SLICE(file), &row);
    number(status);
    and_number(row);
    status = shift_entry(SLICE(file), c->job, &row, &at, &len, &text_at, &text_len);
    and_number(status);
    and_number(row);
    and_number(at);
    and_number(len);
    and_bytes((bytes){file.at + at, len});
    check_entry(file, c->job, status, row, at, len);
    if (text_at != (status == 0 ? at + len : 0)) fault("shift_entry: offset of the text");
    row = UNWRITTEN;
    and_number(shift_open_job(SLICE(file), SLICE(ring), c->job, SLICE(out), &row));
    and_number(row);
    and_bytes(out);
    end_line();
    check_verified(file, ring, c->job, text_len);
    check_guards(sum);
}

/* The fold continued with the results of check, lookup and opening. */
static uint32_t folded_answers(uint32_t fold, bytes file, bytes ring, uint32_t job, bytes out) {
    uint32_t row = UNWRITTEN;
    fold = folded(fold, (uint8_t)shift_check(SLICE(file), &row));
    fold = folded(fold, (uint8_t)row);
    fold = folded(fold, (uint8_t)shift_lookup(SLICE(file), job, &row));
    fold = folded(fold, (uint8_t)row);
    for (uint32_t i = 0; i < out.len; i++) out.at[i] = 0xa5;
    fold = folded(fold, (uint8_t)shift_open_job(SLICE(file), SLICE(ring), job, SLICE(out), &row));
    return folded_bytes(fold, out);
}

/* Changes every byte of the file to each of its 255 other values, and writes the fold of the results for each byte. */
static void run_damage(const call *c) {
    bytes file = input(c->n[0]), ring = input(c->n[1]), out = output(c->n[2]);
    uint32_t sum = sum_of_inputs();
    for (uint32_t p = 0; p < file.len; p++) {
        uint8_t old = file.at[p];
        uint32_t fold = 0;
        for (uint32_t x = 1; x < 256; x++) {
            file.at[p] = old ^ (uint8_t)x;
            fold = folded_answers(fold, file, ring, c->job, out);
        }
        file.at[p] = old;
        hex_digits(fold, 8);
        end_line();
    }
    check_guards(sum);
}

static void run_search(const call *c) {
    bytes file = input(c->n[0]);
    uint32_t sum = sum_of_inputs(), left = c->n[1];
    for (uint32_t job = c->job; left-- > 0; job++) {
        uint32_t row = UNWRITTEN, looked = UNWRITTEN;
        number(shift_search(SLICE(file), job, &row, &looked));
        and_number(row);
        and_number(looked);
        end_line();
        if (job == UINT32_MAX) break;
    }
    check_guards(sum);
}

static void run_amended(const call *c) {
    bytes amendment = input(c->n[0]), day = input(c->n[1]), ring = input(c->n[2]), out = output(c->n[3]);
    uint32_t which = UNWRITTEN, row = UNWRITTEN, at = UNWRITTEN, len = UNWRITTEN, sum = sum_of_inputs();
    number(shift_amended(SLICE(amendment), SLICE(day), c->job, &which, &row, &at, &len));
    and_number(which);
    and_number(row);
    and_number(at);
    and_number(len);
    and_bytes((bytes){(which == 1 ? amendment.at : day.at) + at, len});
    which = row = UNWRITTEN;
    and_number(shift_open_amended(SLICE(amendment), SLICE(day), SLICE(ring), c->job, SLICE(out), &which, &row));
    and_number(which);
    and_number(row);
    and_bytes(out);
    end_line();
    check_guards(sum);
}

static void run_compare(const call *c) {
    bytes first = input(c->n[0]), second = input(c->n[1]);
    list l[3];
    uint32_t counts[3] = {UNWRITTEN, UNWRITTEN, UNWRITTEN}, which = UNWRITTEN, row = UNWRITTEN, sum = sum_of_inputs();
    for (int i = 0; i < 3; i++) l[i] = output_list(i, c->n[2 + i]);
    number(shift_compare(SLICE(first), SLICE(second), SLICE(l[0]), SLICE(l[1]), SLICE(l[2]), &counts[0], &counts[1],
                         &counts[2], &which, &row));
    and_number(which);
    and_number(row);
    for (int i = 0; i < 3; i++) and_number(counts[i]);
    for (int i = 0; i < 3; i++) and_list(l[i]);
    end_line();
    for (int i = 0; i < 3; i++) check_list(i, l[i]);
    check_guards(sum);
}

static void run_report(const call *c) {
    bytes file = input(c->n[0]), ring = input(c->n[1]), numbers = output(c->n[3]);
    list jobs = output_list(0, c->n[2]);
    uint32_t count = UNWRITTEN, row = UNWRITTEN, sum = sum_of_inputs();
    number(shift_report(SLICE(file), SLICE(ring), SLICE(jobs), SLICE(numbers), &count, &row));
    and_number(row);
    and_number(count);
    and_list(jobs);
    and_bytes(numbers);
    end_line();
    check_list(0, jobs);
    check_guards(sum);
}

/* Writes one row of the table of contents; shift_row always writes all nine fields. */
static void show_row(bytes file, uint32_t row) {
    shift_fields f;
    uint8_t *at = (uint8_t *)&f;
    for (size_t i = 0; i < sizeof f; i++) at[i] = 0xa5;
    number(shift_row(SLICE(file), row, &f));
    const uint32_t shown[] = {f.job, f.station, f.suite, f.key_number, f.nonce_at, f.ad_at, f.ad_len, f.text_at, f.text_len};
    for (size_t i = 0; i < sizeof shown / sizeof *shown; i++) and_number(shown[i]);
    end_line();
}

static void run_contents(const call *c) {
    bytes file = input(c->n[0]);
    uint32_t edition = UNWRITTEN, count = UNWRITTEN, sum = sum_of_inputs(), left = c->n[1];
    number(shift_rows(SLICE(file), &edition, &count));
    and_number(edition);
    and_number(count);
    end_line();
    for (uint32_t row = c->job; left-- > 0; row++) {
        show_row(file, row);
        if (row == UINT32_MAX) break;
    }
    check_guards(sum);
}

/* Skips a call whose lines are what the plant's programs print. */
static void pass_over(const call *c) {
    input(c->n[0]);
    input(c->n[1]);
    if (c->op == 7) input(c->n[2]);
}

void run_file(const call *c) {
    switch (c->op) {
    case 0: run_opening(c); break;
    case 1: run_damage(c); break;
    case 2: run_search(c); break;
    case 3: run_amended(c); break;
    case 4: run_compare(c); break;
    case 5: run_report(c); break;
    case 6: case 7: case 8: case 9: pass_over(c); break;
    case 10: run_contents(c); break;
    default: stop("test_shift has an op that is unknown here");
    }
}

/* The length of the moved file as the header defines it; 0 if the check returns 20 to 24. */
static uint64_t moved_length(bytes file) {
    uint32_t row, status = shift_check(SLICE(file), &row);
    uint32_t rows = file.len < 4 ? 0 : file.at[2] | (uint32_t)file.at[3] << 8;
    if (status >= 20 && status <= 24) return 0;
    return file.at[0] == 1 ? (uint64_t)file.len + 4 * rows : (uint64_t)file.len - 4 * rows;
}

void run_writer(const call *c) {
    bytes file = input(c->n[0]), ring = input(c->n[1]), out = output(c->n[2]);
    uint32_t row = UNWRITTEN, sum = sum_of_inputs();
    switch (c->op) {
    case 0: number(shift_seal_file(SLICE(file), SLICE(ring), SLICE(out), &row)); break;
    case 1: number(shift_unseal_file(SLICE(file), SLICE(ring), SLICE(out), &row)); break;
    case 2: number(shift_reseal(SLICE(file), SLICE(ring), SLICE(out), &row)); break;
    case 3: number(shift_to_edition2(SLICE(file), SLICE(out), &row)); break;
    case 4: number(shift_to_edition1(SLICE(file), SLICE(out), &row)); break;
    default: stop("test_writer has an op that is unknown here");
    }
    and_number(row);
    and_bytes(out);
    end_line();
    if (shift_moved_length(SLICE(file)) != moved_length(file)) fault("shift_moved_length");
    check_guards(sum);
}
