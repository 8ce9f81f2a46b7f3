/* From a log to a checked history, and to a checked list of versions; then the same log taken by a running recorder, record by record. At the repository's root, after `./staticlib`:
 *
 *     cc -Iinclude include/example.c -Ltarget/staticlib -lbozhtagul -o target/example && target/example */

#include <inttypes.h>
#include <stdio.h>
#include <stdlib.h>
#include <string.h>

#include "bozhtagul.h"

/* Log K of document 01: births of 1 at 10 and of 2 at 20, a flow from 1 to 2 of kind 7 at 30, a flow from 2 to 1 of kind 8 at 40. */
static const uint8_t log_k[] = {
    1, 0, 0, 0, 1, 0, 0, 0, 0, 0, 0, 0, 10,
    1, 0, 0, 0, 2, 0, 0, 0, 0, 0, 0, 0, 20,
    2, 0, 0, 0, 1, 0, 0, 0, 2, 7, 0, 0, 0, 0, 0, 0, 0, 30,
    2, 0, 0, 0, 2, 0, 0, 0, 1, 8, 0, 0, 0, 0, 0, 0, 0, 40,
};

struct question {
    const char *words;
    uint8_t direction;
    uint32_t entity;
    uint64_t time;
    /* in direction 6 alone */
    uint64_t until;
};

static const struct question questions[] = {
    {"what led to the version of 2 that stood at 35", BOZHTAGUL_BACKWARD, 2, 35, 0},
    {"what came of the first version of 2 at or after 31", BOZHTAGUL_FORWARD_AFTER, 2, 31, 0},
    {"which versions of 1 are from 10 to 40", BOZHTAGUL_BETWEEN, 1, 10, 40},
};

/* Ends the program if a call was turned away. */
static void accept(const char *call, uint64_t number, uint64_t position) {
    if (number != 0) {
        fprintf(stderr, "%s: refused %" PRIu64 " at %" PRIu64 "\n", call, number, position);
        exit(1);
    }
}

static uint8_t *memory_of(size_t length) {
    uint8_t *bytes = malloc(length);
    if (bytes == NULL) {
        fprintf(stderr, "no memory\n");
        exit(1);
    }
    return bytes;
}

/* A big-endian number. */
static uint64_t number(const uint8_t *bytes, size_t width) {
    uint64_t value = 0;
    for (size_t place = 0; place < width; place++) {
        value = value << 8 | bytes[place];
    }
    return value;
}

/* Prints a record, and gives its width: letter, entity and time, then the kind in D and V, then the positions in T, D and V. */
static size_t show(const uint8_t *record) {
    size_t width = 13;
    printf("%c %" PRIu64 " at %" PRIu64, record[0], number(record + 1, 4), number(record + 5, 8));
    if (record[0] == 'D' || record[0] == 'V') {
        printf(", kind %d", record[width]);
        width += 1;
    }
    size_t positions = record[0] == 'V' ? 2 : record[0] == 'T' || record[0] == 'D';
    for (; positions > 0; positions--) {
        printf(", from record %" PRIu64, number(record + width, 4));
        width += 4;
    }
    printf("\n");
    return width;
}

/* Prints a verdict. */
static void tell(struct bozhtagul_checked checked) {
    switch (checked.verdict) {
    case BOZHTAGUL_NO_ENTITY:
        printf("no entity\n");
        break;
    case BOZHTAGUL_NOT_YET:
        printf("not yet: the first version is at %" PRIu64 "\n", checked.time);
        break;
    case BOZHTAGUL_NONE_SO_LATE:
        printf("none so late: the last version is at %" PRIu64 "\n", checked.time);
        break;
    case BOZHTAGUL_LISTED:
        printf("listed, %" PRIu64 " versions\n", checked.count);
        break;
    default:
        printf("found at %" PRIu64 ", %" PRIu64 " records\n", checked.time, checked.count);
    }
}

/* Prints the versions of a list. */
static void show_list(const uint8_t *list, uint64_t count) {
    for (; count > 0; count--, list += BOZHTAGUL_VERSION) {
        printf("%" PRIu64 " at %" PRIu64 "\n", number(list, 4), number(list + 4, 8));
    }
}

/* The viewer, which has the commitment and the answer, and no log. */
static void view(const struct question *asked, const uint8_t *commitment, const uint8_t *answer, size_t length) {
    /* no answer of this length has more records: the shortest has 13 bytes */
    size_t work_len = BOZHTAGUL_WORK * (length / 13), list_len = BOZHTAGUL_MOST_LIST(length);
    uint8_t *work = memory_of(work_len), *list = memory_of(list_len);
    struct bozhtagul_checked checked =
        bozhtagul_check(asked->direction, asked->entity, asked->time, asked->until, commitment, BOZHTAGUL_DIGEST, answer,
                        length, work, work_len, list, list_len);
    accept("check", checked.number, checked.position);
    tell(checked);
    if (checked.verdict == BOZHTAGUL_LISTED) {
        show_list(list, checked.count);
    }
    struct bozhtagul_part part = bozhtagul_records(asked->direction, asked->entity, asked->time, asked->until, commitment,
                                                   BOZHTAGUL_DIGEST, answer, length, work, work_len);
    for (size_t place = part.start; place < part.start + part.length;) {
        place += show(answer + place);
    }
    free(list);
    free(work);
}

/* Output enough for any answer about a log of so many records. */
static size_t most_answer(size_t records) {
    size_t one = BOZHTAGUL_MOST_ANSWER(records), all = BOZHTAGUL_MOST_SPAN_ANSWER(records);
    return one > all ? one : all;
}

/* A running recorder takes the log's records one by one, and has the log's commitment after the last. */
static void record(size_t records, const uint8_t *commitment) {
    size_t memory_len = BOZHTAGUL_RECORDER_MEMORY(records);
    uint8_t *memory = memory_of(memory_len), taken[BOZHTAGUL_DIGEST];
    struct bozhtagul_outcome started = bozhtagul_recorder_start(memory, memory_len);
    accept("recorder_start", started.number, started.position);
    for (size_t place = 0; place < sizeof log_k;) {
        size_t width = log_k[place] == 1 ? 13 : 18;
        struct bozhtagul_outcome took = bozhtagul_recorder_take(log_k + place, width, memory, memory_len);
        accept("recorder_take", took.number, took.position);
        place += width;
    }
    struct bozhtagul_outcome again = bozhtagul_recorder_take(log_k, 13, memory, memory_len);
    printf("the first record once more: refused %" PRIu64 " at %" PRIu64 "\n", again.number, again.position);
    struct bozhtagul_outcome asked = bozhtagul_recorder_commitment(memory, memory_len, taken, sizeof taken);
    accept("recorder_commitment", asked.number, asked.position);
    printf("the recorder has %s commitment\n", memcmp(taken, commitment, sizeof taken) == 0 ? "the log's" : "another");
    free(memory);
}

int main(void) {
    /* the recorder commits to the log */
    struct bozhtagul_written read = bozhtagul_log(log_k, sizeof log_k);
    accept("log", read.number, read.position);
    size_t work_len = BOZHTAGUL_WORK * read.length;
    uint8_t *work = memory_of(work_len), commitment[BOZHTAGUL_DIGEST];
    struct bozhtagul_outcome committed =
        bozhtagul_commitment(log_k, sizeof log_k, work, work_len, commitment, sizeof commitment);
    accept("commitment", committed.number, committed.position);

    /* the host answers */
    size_t most = most_answer(read.length);
    uint8_t *answer = memory_of(most);
    for (size_t place = 0; place < sizeof questions / sizeof questions[0]; place++) {
        const struct question *asked = &questions[place];
        struct bozhtagul_written answered =
            bozhtagul_answer(asked->direction, asked->entity, asked->time, asked->until, log_k, sizeof log_k, work,
                             work_len, answer, most);
        accept("answer", answered.number, answered.position);
        printf("%s? answer of %" PRIu64 " bytes\n", asked->words, answered.length);
        view(asked, commitment, answer, answered.length);
    }
    free(answer);
    free(work);

    /* the recorder, as it runs */
    record(read.length, commitment);
    return 0;
}
