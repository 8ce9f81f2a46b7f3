/* Each call with null for slices of length 0: a line a call, with the result's fields. */

#include <inttypes.h>
#include <stdio.h>

#include "bozhtagul.h"

static void fields(const char *call, size_t count, const uint64_t *values) {
    printf("%s", call);
    for (size_t place = 0; place < count; place++) {
        printf(" %" PRIu64, values[place]);
    }
    printf("\n");
}

/* A result's fields, which are all numbers of 8 bytes. */
#define SHOW(call, result) fields(call, sizeof(result) / 8, (const uint64_t *)&(result))

int main(void) {
    uint8_t out[32] = {0};
    struct bozhtagul_outcome hash = bozhtagul_hash(NULL, 0, out, sizeof out);
    SHOW("hash", hash);
    for (size_t place = 0; place < sizeof out; place++) {
        printf("%02x", out[place]);
    }
    printf("\n");
    struct bozhtagul_outcome no_room = bozhtagul_hash(NULL, 0, NULL, 0);
    SHOW("hash", no_room);
    struct bozhtagul_written log = bozhtagul_log(NULL, 0);
    SHOW("log", log);
    struct bozhtagul_written listing = bozhtagul_listing(NULL, 0, NULL, 0);
    SHOW("listing", listing);
    struct bozhtagul_outcome commitment = bozhtagul_commitment(NULL, 0, NULL, 0, NULL, 0);
    SHOW("commitment", commitment);
    struct bozhtagul_written answer = bozhtagul_answer(1, 2, 35, 0, NULL, 0, NULL, 0, NULL, 0);
    SHOW("answer", answer);
    struct bozhtagul_checked check = bozhtagul_check(1, 2, 35, 0, NULL, 0, NULL, 0, NULL, 0, NULL, 0);
    SHOW("check", check);
    struct bozhtagul_checked empty = bozhtagul_check(1, 2, 35, 0, out, sizeof out, NULL, 0, NULL, 0, NULL, 0);
    SHOW("check", empty);
    struct bozhtagul_part records = bozhtagul_records(1, 2, 35, 0, out, sizeof out, NULL, 0, NULL, 0);
    SHOW("records", records);
    struct bozhtagul_written crossed_answer = bozhtagul_answer(BOZHTAGUL_BETWEEN, 2, 35, 34, NULL, 0, NULL, 0, NULL, 0);
    SHOW("answer", crossed_answer);
    struct bozhtagul_checked crossed = bozhtagul_check(BOZHTAGUL_BETWEEN, 2, 35, 34, NULL, 0, NULL, 0, NULL, 0, NULL, 0);
    SHOW("check", crossed);
    struct bozhtagul_checked span = bozhtagul_check(BOZHTAGUL_BETWEEN, 2, 35, 35, out, sizeof out, NULL, 0, NULL, 0, NULL, 0);
    SHOW("check", span);
    struct bozhtagul_outcome start = bozhtagul_recorder_start(NULL, 0);
    SHOW("recorder_start", start);
    struct bozhtagul_outcome none = bozhtagul_recorder_take(NULL, 0, NULL, 0);
    SHOW("recorder_take", none);
    struct bozhtagul_outcome take = bozhtagul_recorder_take(out, sizeof out, NULL, 0);
    SHOW("recorder_take", take);
    struct bozhtagul_outcome asked = bozhtagul_recorder_commitment(NULL, 0, NULL, 0);
    SHOW("recorder_commitment", asked);
    return 0;
}
