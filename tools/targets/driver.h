/* The declarations that the parts of the test driver share; driver.c says what it does. */
#ifndef DRIVER_H
#define DRIVER_H

#include "snoekeldraf.h"
#include <stddef.h>

typedef struct {
    uint8_t *at;
    uint32_t len;
} bytes;

typedef struct {
    uint32_t *at;
    uint32_t len;
} list;

/* A call of the test data; n are its six integers. */
typedef struct {
    uint8_t op, suite;
    uint32_t job, n[6];
} call;

/* A byte string or a list as two arguments: pointer and length. */
#define SLICE(b) (b).at, (b).len

/* Functions of the host: read up to len bytes of the input, write output, and end the program. */
size_t take(void *to, size_t len);
void put(const void *from, size_t len);
void leave(int status);

/* The next len bytes of the input; output buffers, in which every byte is 0xa5. */
bytes input(uint32_t len);
bytes output(uint32_t len);
list output_list(int which, uint32_t len);

/* Report a fault if bytes next to the outputs, or the inputs, were written; sum is sum_of_inputs() from before the call. */
uint32_t sum_of_inputs(void);
void check_guards(uint32_t sum);
void check_list(int which, list l);

/* Write parts of a line; and_ writes a space first. */
void letter(char c);
void word(const char *s);
void number(uint64_t n);
void and_number(uint64_t n);
void hex_digits(uint32_t n, int digits);
void and_bytes(bytes b);
void and_list(list l);
void end_line(void);
uint32_t folded(uint32_t fold, uint8_t byte);
uint32_t folded_bytes(uint32_t fold, bytes b);

/* Write a fault as a line that no expectation contains; stop then ends the program. */
void fault(const char *what);
void stop(const char *what);

void run(void);
void run_record(const call *c);
void run_session(const call *c);
void run_file(const call *c);
void run_writer(const call *c);

#endif
