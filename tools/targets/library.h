/* One set of names for the functions under test: those of the archive or, with -DSUITE=n, those of a small build of suite n,
 * which take no suite. */
#ifndef LIBRARY_H
#define LIBRARY_H

#include "driver.h"

#ifdef SUITE
#include "small.h"
#define SEAL(suite, ...) small_seal(__VA_ARGS__)
#define OPEN(suite, ...) small_open(__VA_ARGS__)
#define SEAL_COUNTED(suite, ...) small_seal_counted(__VA_ARGS__)
#define OPEN_COUNTED(suite, ...) small_open_counted(__VA_ARGS__)
#define SEAL_IN_PLACE(suite, ...) small_seal_in_place(__VA_ARGS__)
#define OPEN_IN_PLACE(suite, ...) small_open_in_place(__VA_ARGS__)
#define VERIFY(suite, ...) small_verify(__VA_ARGS__)
#define START(session, suite, ...) small_session_start(session, __VA_ARGS__)
#define DATA small_session_data
#define PART small_session_part
#define END small_session_end
#define WIPE small_session_wipe
#else
#define SEAL comet_seal
#define OPEN comet_open
#define SEAL_COUNTED comet_seal_counted
#define OPEN_COUNTED comet_open_counted
#define SEAL_IN_PLACE comet_seal_in_place
#define OPEN_IN_PLACE comet_open_in_place
#define VERIFY comet_verify
#define START comet_session_start
#define DATA comet_session_data
#define PART comet_session_part
#define END comet_session_end
#define WIPE comet_session_wipe
#endif

#endif
