/* The exported calls of the proved library, libbozhtagul.a, for C. What they do is fixed by docs/01-scope.md, "document 01", and by
 * the requests of docs/02-change-requests.md that have come.
 *
 * A slice is a pointer and then its length in bytes. A pointer whose length is 0 is not followed, and may be null. What a call writes to, a
 * work area or an output, may share no byte with anything else that it is lent. Nothing else is required of any argument: each call takes
 * any bytes and any numbers, ends, takes no memory from the heap, and keeps nothing.
 *
 * A result's number is that of the row of document 01's table that turned the call away, or of a request's, with the row's byte position, or 0.
 * Fields that do not apply are 0. After a refusal the output is as it was, and so is the memory of a recorder. The work area is all zero after every
 * call.
 *
 * Measured, the calls on a log take at most 276 KiB of stack, a recorder's take 80 KiB, the others 14 KiB. */

#ifndef BOZHTAGUL_H
#define BOZHTAGUL_H

#include <stddef.h>
#include <stdint.h>

/* A question's direction: of the last version at or before its time, of the first one at or after it, and of all versions from its time until a
 * later one, both included. Any other number is row 11. */
#define BOZHTAGUL_VERSION_ONLY 0
#define BOZHTAGUL_BACKWARD 1
#define BOZHTAGUL_FORWARD 2
#define BOZHTAGUL_VERSION_ONLY_AFTER 3
#define BOZHTAGUL_BACKWARD_AFTER 4
#define BOZHTAGUL_FORWARD_AFTER 5
#define BOZHTAGUL_BETWEEN 6

/* A verdict; 0 where the check refuses. */
#define BOZHTAGUL_NO_ENTITY 1
#define BOZHTAGUL_NOT_YET 2
#define BOZHTAGUL_FOUND 3
#define BOZHTAGUL_NONE_SO_LATE 4
#define BOZHTAGUL_LISTED 5

/* Bytes of a digest and of a commitment; bytes of work area for a record; bytes of a version in a list, its entity in 4 and its time in 8, both
 * big-endian; the most records of a log and of a trace. */
#define BOZHTAGUL_DIGEST 32
#define BOZHTAGUL_WORK 128
#define BOZHTAGUL_VERSION 12
#define BOZHTAGUL_MOST_RECORDS 65535

/* Bytes of memory for a recorder of so many records, and the smallest part of it: one goes before the first record. */
#define BOZHTAGUL_UNIT 512
#define BOZHTAGUL_RECORDER_MEMORY(records) (BOZHTAGUL_UNIT + BOZHTAGUL_UNIT * (size_t)(records))

/* No listing has more bytes, and no answer about a log of so many records: in directions 0 to 5, and in direction 6. */
#define BOZHTAGUL_MOST_LISTING 65536
#define BOZHTAGUL_MOST_ANSWER(records) (3211 + 22 * (size_t)(records))
#define BOZHTAGUL_MOST_SPAN_ANSWER(records) (122 + 174 * (size_t)(records))

/* No answer of so many bytes has a list of more: an opened leaf has 77. */
#define BOZHTAGUL_MOST_LIST(answer_len) (BOZHTAGUL_VERSION * ((size_t)(answer_len) / 77))

struct bozhtagul_outcome {
    uint64_t number;
    uint64_t position;
};

/* The length is that of the bytes written, or of the log in records. */
struct bozhtagul_written {
    uint64_t number;
    uint64_t position;
    uint64_t length;
};

/* A found version has its time, and its trace the count of records, 0 without a trace. With not yet the time is that of the entity's first
 * version, and with none so late that of its last. With listed the count is that of the versions in the list. */
struct bozhtagul_checked {
    uint64_t number;
    uint64_t position;
    uint64_t verdict;
    uint64_t time;
    uint64_t count;
};

/* A part of the answer. */
struct bozhtagul_part {
    uint64_t start;
    uint64_t length;
};

_Static_assert(sizeof(size_t) == 8, "the library is built for 64 bits");
_Static_assert(sizeof(struct bozhtagul_outcome) == 16, "two numbers of 8 bytes");
_Static_assert(sizeof(struct bozhtagul_written) == 24, "three numbers of 8 bytes");
_Static_assert(sizeof(struct bozhtagul_checked) == 40, "five numbers of 8 bytes");
_Static_assert(sizeof(struct bozhtagul_part) == 16, "two numbers of 8 bytes");

/* Writes the SHA-256 of a message to the first 32 bytes of the output. */
struct bozhtagul_outcome bozhtagul_hash(
    const uint8_t *message, size_t message_len,
    uint8_t *out, size_t out_len);

/* Reads a log; its length is its number of records. */
struct bozhtagul_written bozhtagul_log(
    const uint8_t *log, size_t log_len);

/* Writes what the listing program prints for an input to the first bytes of the output. */
struct bozhtagul_written bozhtagul_listing(
    const uint8_t *input, size_t input_len,
    uint8_t *out, size_t out_len);

/* Writes a log's commitment to the first 32 bytes of the output. The work area takes 128 bytes a record. */
struct bozhtagul_outcome bozhtagul_commitment(
    const uint8_t *log, size_t log_len,
    uint8_t *work, size_t work_len,
    uint8_t *out, size_t out_len);

/* Writes the answer to a question to the first bytes of the output. The work area takes 128 bytes a record. In direction 6 the question is for all
 * versions from time until another, and a time above that one is row 25; in the others until has no effect. */
struct bozhtagul_written bozhtagul_answer(
    uint8_t direction, uint32_t entity, uint64_t time, uint64_t until,
    const uint8_t *log, size_t log_len,
    uint8_t *work, size_t work_len,
    uint8_t *out, size_t out_len);

/* Checks an answer against a commitment. The work area takes 128 bytes for each record of the answer's trace. In direction 6 there is none, and the
 * list of versions is written to the first bytes of the output, 12 bytes each; too short an output is row 13. In the others until and the output
 * have no effect: the output stays as it was, and may be null. */
struct bozhtagul_checked bozhtagul_check(
    uint8_t direction, uint32_t entity, uint64_t time, uint64_t until,
    const uint8_t *commitment, size_t commitment_len,
    const uint8_t *answer, size_t answer_len,
    uint8_t *work, size_t work_len,
    uint8_t *out, size_t out_len);

/* Where the checked records of an answer stand, without the trace header: 0 and 0 if there are none or the check refuses. A list has none. */
struct bozhtagul_part bozhtagul_records(
    uint8_t direction, uint32_t entity, uint64_t time, uint64_t until,
    const uint8_t *commitment, size_t commitment_len,
    const uint8_t *answer, size_t answer_len,
    uint8_t *work, size_t work_len);

/* A running recorder keeps all that it knows in memory that each call is lent anew, as the call before left it, with the same length. Nothing is
 * promised of memory in another state but that the call ends and touches nothing else. docs/RECORDER.md says what stands where.
 *
 * Makes the memory that of a fresh recorder, whatever it held. It has a place for each whole 512 bytes after its first 512; below 512 bytes it is
 * row 26. */
struct bozhtagul_outcome bozhtagul_recorder_start(
    uint8_t *memory, size_t memory_len);

/* Takes one record, the bytes of a BIRTH or FLOW and no others; positions count in it. An empty one is row 4, one with bytes after it 18, one that no
 * place is left for 26; else it meets the row that it would as the next record of the log. */
struct bozhtagul_outcome bozhtagul_recorder_take(
    const uint8_t *record, size_t record_len,
    uint8_t *memory, size_t memory_len);

/* Writes the commitment of the log made of the records taken to the first 32 bytes of the output. Row 1 while none is taken. */
struct bozhtagul_outcome bozhtagul_recorder_commitment(
    const uint8_t *memory, size_t memory_len,
    uint8_t *out, size_t out_len);

#endif
