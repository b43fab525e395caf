/* second_test.h - what the files of tests share. */
#ifndef SECOND_TEST_H
#define SECOND_TEST_H

#include <stdbool.h>
#include <stddef.h>
#include <stdint.h>

/* Counts one check, and shows it if it is not good. */
void check_at(const char *file, int line, bool good, const char *what);
#define CHECK(condition) check_at(__FILE__, __LINE__, (condition), #condition)

/* Texts of records and answers, and document 01's whole case and K11 behind it. */
#define RECORD(k, a, b, c) "kind=" #k "\na=" #a "\nb=" #b "\nc=" #c "\n"
#define ANSWER(code, reply, alert, therm) \
    "code=" #code "\nreply=" #reply "\nalert=" #alert "\ntherm=" #therm "\n"

#define WHOLE_CASE RECORD(6, 0, 0, 0) RECORD(7, 20, 341, 0) RECORD(3, 76, 2, 0)
#define WHOLE_ANSWERS ANSWER(0, 0, 1, 1) ANSWER(0, 0, 0, 0) ANSWER(0, 18, 0, 0)
#define K11 RECORD(3, 76, 2, 0) RECORD(6, 0, 0, 0) RECORD(7, 20, 300, 0) RECORD(3, 76, 2, 0) \
    RECORD(3, 76, 2, 0) RECORD(5, 0, 0, 0) RECORD(5, 0, 0, 0)
#define K11_ANSWERS ANSWER(0, 18, 0, 0) ANSWER(0, 0, 0, 0) ANSWER(0, 0, 0, 1) ANSWER(0, 16, 0, 1) \
    ANSWER(0, 0, 0, 1) ANSWER(0, 153, 1, 1) ANSWER(3, 0, 1, 1)

/*
 * Traces for the tests of document 02's Item 5, made in second_test.c. Behind a conversion of 0 and
 * 0, which finds low faults, each alert response is answered with 3 digits and clears nothing: the
 * shortest records there are, all but the first two with the longest answer there is.
 */
#define LOW_FAULTS RECORD(6, 0, 0, 0) RECORD(7, 0, 0, 0)
#define LOW_FAULTS_ANSWERS ANSWER(0, 0, 1, 1) ANSWER(0, 0, 0, 1)
#define RESPONDED RECORD(5, 0, 0, 0)
#define RESPONDED_ANSWER ANSWER(0, 153, 0, 1)

/* Fills `len` bytes with them, the last one cut where the bytes end. */
void fill_with_responses(uint8_t *trace, size_t len);

/* How long the answers of `records` of them are together. */
size_t responses_length(size_t records);

/* Makes a trace of less than `most` bytes, at least 64, by chance and gives its length: events of
   all kinds, shortest and longest records, longest answers; often damaged, or cut anywhere. */
size_t chance_trace(uint8_t *trace, size_t most);

/* second_history_test.c */
void test_history(void);

/* second_session_test.c */
void test_session(void);

#endif
