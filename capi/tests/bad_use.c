/* Each code that bad use or the end of a row can bring about, and what it leaves. One thread. */
#include "check.h"
#include <string.h>

static struct mooringakee_pass queue[2], set[2], split;

static bool is_empty(const struct mooringakee_pass *pass) {
    return pass->at == NULL && !pass->live;
}

static bool inserts(struct mooringakee_pass *pass, uint64_t key) {
    bool absent = false;
    ANSWERS(OK, mooringakee_insert(pass, key, &absent));
    return absent;
}

static bool removes(struct mooringakee_pass *pass, uint64_t key) {
    bool present = false;
    ANSWERS(OK, mooringakee_remove(pass, key, &present));
    return present;
}

static bool has(struct mooringakee_pass *pass, uint64_t key) {
    bool present = false;
    ANSWERS(OK, mooringakee_contains(pass, key, &present));
    return present;
}

static void makes_out_of_range(void) {
    struct mooringakee_pass passes[MOORINGAKEE_MOST_AGENTS + 1] = {{0}};
    ANSWERS(SHAPE, mooringakee_queue_make(1, 64, passes, 2));
    ANSWERS(SHAPE, mooringakee_queue_make(65536, 64, passes, 2));
    ANSWERS(SHAPE, mooringakee_queue_make(UINT32_MAX, 64, passes, 2));
    ANSWERS(SHAPE, mooringakee_queue_make(64, 0, passes, 2));
    ANSWERS(SHAPE, mooringakee_queue_make(64, 64, passes, 0));
    ANSWERS(SHAPE, mooringakee_queue_make(64, 64, passes, 17));
    ANSWERS(SHAPE, mooringakee_queue_make(64, 64, passes, SIZE_MAX));
    ANSWERS(NULL, mooringakee_queue_make(64, 64, NULL, 2));
    ANSWERS(SHAPE, mooringakee_set_make(1, 4, 64, passes, 2));
    ANSWERS(SHAPE, mooringakee_set_make(65536, 4, 64, passes, 2));
    ANSWERS(SHAPE, mooringakee_set_make(64, 0, 64, passes, 2));
    ANSWERS(SHAPE, mooringakee_set_make(64, 258, 64, passes, 2));
    ANSWERS(SHAPE, mooringakee_set_make(64, 4, 0, passes, 2));
    ANSWERS(SHAPE, mooringakee_set_make(64, 4, 64, passes, 0));
    ANSWERS(SHAPE, mooringakee_set_make(64, 4, 64, passes, 17));
    ANSWERS(NULL, mooringakee_set_make(64, 4, 64, NULL, 2));
    ANSWERS(SHAPE, mooringakee_split_set_make(1, 4, 64, passes, 2));
    ANSWERS(SHAPE, mooringakee_split_set_make(65536, 4, 64, passes, 2));
    ANSWERS(SHAPE, mooringakee_split_set_make(64, 0, 64, passes, 2));
    ANSWERS(SHAPE, mooringakee_split_set_make(64, 3, 64, passes, 2));
    ANSWERS(SHAPE, mooringakee_split_set_make(64, 255, 64, passes, 2));
    ANSWERS(SHAPE, mooringakee_split_set_make(64, 512, 64, passes, 2));
    ANSWERS(SHAPE, mooringakee_split_set_make(64, UINT32_MAX, 64, passes, 2));
    ANSWERS(SHAPE, mooringakee_split_set_make(64, 4, 0, passes, 2));
    ANSWERS(SHAPE, mooringakee_split_set_make(64, 4, 64, passes, 0));
    ANSWERS(SHAPE, mooringakee_split_set_make(64, 4, 64, passes, 17));
    ANSWERS(NULL, mooringakee_split_set_make(64, 4, 64, NULL, 2));
    for (size_t i = 0; i <= MOORINGAKEE_MOST_AGENTS; i++) CHECK(is_empty(&passes[i]));
}

/* The ends of the ranges are taken. */
static void makes_in_range(void) {
    struct mooringakee_pass passes[MOORINGAKEE_MOST_AGENTS] = {{0}};
    ANSWERS(OK, mooringakee_queue_make(2, 1, passes, 1));
    ANSWERS(OK, mooringakee_drop(&passes[0]));
    ANSWERS(OK, mooringakee_queue_make(65535, UINT64_MAX, passes, 16));
    for (size_t i = 0; i < 16; i++) ANSWERS(OK, mooringakee_queue_drop(&passes[i]));
    ANSWERS(OK, mooringakee_set_make(2, 1, 1, passes, 1));
    ANSWERS(OK, mooringakee_drop(&passes[0]));
    ANSWERS(OK, mooringakee_set_make(65535, 257, UINT64_MAX, passes, 16));
    for (size_t i = 0; i < 16; i++) ANSWERS(OK, mooringakee_drop(&passes[i]));
    for (uint32_t buckets = 1; buckets <= MOORINGAKEE_MOST_SPLIT_BUCKETS; buckets *= 2) {
        ANSWERS(OK, mooringakee_split_set_make(2, buckets, 1, passes, 1));
        ANSWERS(OK, mooringakee_drop(&passes[0]));
    }
    ANSWERS(OK, mooringakee_split_set_make(65535, 256, UINT64_MAX, passes, 16));
    for (size_t i = 0; i < 16; i++) ANSWERS(OK, mooringakee_drop(&passes[i]));
    for (size_t i = 0; i < 16; i++) CHECK(is_empty(&passes[i]));
}

static void null_pointers(void) {
    uint64_t value = 7;
    uint32_t rows = 7;
    bool answer = true;
    ANSWERS(NULL, mooringakee_enqueue(NULL, 1));
    ANSWERS(NULL, mooringakee_dequeue(NULL, &value));
    ANSWERS(NULL, mooringakee_dequeue(&queue[0], NULL));
    ANSWERS(NULL, mooringakee_insert(NULL, 1, &answer));
    ANSWERS(NULL, mooringakee_insert(&set[0], 1, NULL));
    ANSWERS(NULL, mooringakee_remove(NULL, 1, &answer));
    ANSWERS(NULL, mooringakee_remove(&set[0], 1, NULL));
    ANSWERS(NULL, mooringakee_contains(NULL, 1, &answer));
    ANSWERS(NULL, mooringakee_contains(&set[0], 1, NULL));
    ANSWERS(NULL, mooringakee_buckets(NULL, &rows));
    ANSWERS(NULL, mooringakee_buckets(&split, NULL));
    ANSWERS(NULL, mooringakee_settle(NULL));
    ANSWERS(NULL, mooringakee_backlog(NULL, &rows));
    ANSWERS(NULL, mooringakee_backlog(&queue[0], NULL));
    ANSWERS(NULL, mooringakee_drop(NULL));
    ANSWERS(NULL, mooringakee_queue_drop(NULL));
    struct mooringakee_counts counts = {7, 7, 7};
    ANSWERS(NULL, mooringakee_close(NULL, &counts));
    ANSWERS(NULL, mooringakee_close(&queue[0], NULL));
    CHECK(answer && value == 7 && rows == 7 && counts.given == 7 && queue[0].live);
}

/* Every call with an empty pass. */
static void answers_no_pass(struct mooringakee_pass *pass) {
    uint64_t value = 7;
    uint32_t rows = 7;
    bool answer = true;
    ANSWERS(NO_PASS, mooringakee_enqueue(pass, 1));
    ANSWERS(NO_PASS, mooringakee_dequeue(pass, &value));
    ANSWERS(NO_PASS, mooringakee_insert(pass, 1, &answer));
    ANSWERS(NO_PASS, mooringakee_remove(pass, 1, &answer));
    ANSWERS(NO_PASS, mooringakee_contains(pass, 1, &answer));
    ANSWERS(NO_PASS, mooringakee_buckets(pass, &rows));
    ANSWERS(NO_PASS, mooringakee_settle(pass));
    ANSWERS(NO_PASS, mooringakee_backlog(pass, &rows));
    ANSWERS(NO_PASS, mooringakee_drop(pass));
    struct mooringakee_counts counts = {7, 7, 7};
    ANSWERS(NO_PASS, mooringakee_close(pass, &counts));
    CHECK(answer && value == 7 && rows == 7 && counts.given == 7 && is_empty(pass));
}

static void passes_of_another_kind(void) {
    uint64_t value = 7;
    uint32_t buckets = 7;
    bool answer = true;
    ANSWERS(KIND, mooringakee_enqueue(&split, 1));
    ANSWERS(KIND, mooringakee_dequeue(&split, &value));
    ANSWERS(KIND, mooringakee_buckets(&queue[0], &buckets));
    ANSWERS(KIND, mooringakee_buckets(&set[0], &buckets));
    CHECK(buckets == 7);
    ANSWERS(OK, mooringakee_buckets(&split, &buckets));
    CHECK(buckets == 1 && !has(&split, 1));
    ANSWERS(KIND, mooringakee_enqueue(&set[0], 1));
    ANSWERS(KIND, mooringakee_dequeue(&set[0], &value));
    ANSWERS(KIND, mooringakee_insert(&queue[0], 1, &answer));
    ANSWERS(KIND, mooringakee_remove(&queue[0], 1, &answer));
    ANSWERS(KIND, mooringakee_contains(&queue[0], 1, &answer));
    CHECK(answer && value == 7);
    ANSWERS(EMPTY, mooringakee_dequeue(&queue[1], &value));
    CHECK(!has(&set[1], 1));
}

/* A make into a live pass leaves it, and the empty one beside it. */
static void second_makes(void) {
    struct mooringakee_pass passes[3] = {{0}};
    ANSWERS(OK, mooringakee_queue_make(8, 64, &passes[1], 1));
    void *at = passes[1].at;
    ANSWERS(LIVE, mooringakee_queue_make(8, 64, passes, 3));
    ANSWERS(LIVE, mooringakee_set_make(8, 1, 64, passes, 3));
    ANSWERS(LIVE, mooringakee_split_set_make(8, 1, 64, passes, 3));
    CHECK(is_empty(&passes[0]) && passes[1].at == at && passes[1].live && is_empty(&passes[2]));
    ANSWERS(OK, mooringakee_enqueue(&passes[1], 5));
    ANSWERS(OK, mooringakee_drop(&passes[1]));
    answers_no_pass(&passes[1]);
    ANSWERS(OK, mooringakee_queue_make(8, 64, passes, 3));
    for (size_t i = 0; i < 3; i++) ANSWERS(OK, mooringakee_drop(&passes[i]));
}

/* All numbers of 64 bits are values and keys, and a queue is full when its rows are used. */
static void values_and_rows(void) {
    uint64_t value = 0;
    bool answer = true;
    ANSWERS(OK, mooringakee_enqueue(&queue[0], UINT64_MAX));
    ANSWERS(OK, mooringakee_enqueue(&queue[1], 0));
    ANSWERS(OK, mooringakee_enqueue(&queue[0], UINT64_C(1) << 63));
    ANSWERS(FULL, mooringakee_enqueue(&queue[0], 4));
    ANSWERS(FULL, mooringakee_enqueue(&queue[1], 4));
    ANSWERS(OK, mooringakee_dequeue(&queue[1], &value));
    CHECK(value == UINT64_MAX);
    ANSWERS(OK, mooringakee_dequeue(&queue[0], &value));
    CHECK(value == 0);
    ANSWERS(OK, mooringakee_dequeue(&queue[1], &value));
    CHECK(value == UINT64_C(1) << 63);
    ANSWERS(EMPTY, mooringakee_dequeue(&queue[0], &value));
    CHECK(value == UINT64_C(1) << 63);
    CHECK(inserts(&set[0], UINT64_MAX));
    CHECK(!inserts(&set[1], UINT64_MAX));
    CHECK(inserts(&set[1], 0));
    CHECK(inserts(&set[1], 1));
    CHECK(inserts(&set[1], 2));
    ANSWERS(FULL, mooringakee_insert(&set[0], 3, &answer));
    CHECK(answer);
    CHECK(has(&set[0], 0));
    CHECK(!has(&set[0], 3));
    CHECK(removes(&set[0], 0));
    CHECK(!removes(&set[1], 0));
    CHECK(inserts(&set[0], 3));
    for (int i = 0; i < 2; i++) {
        uint32_t rows = 7;
        ANSWERS(OK, mooringakee_settle(&queue[i]));
        ANSWERS(OK, mooringakee_backlog(&queue[i], &rows));
        CHECK(rows == 0);
        rows = 7;
        ANSWERS(OK, mooringakee_settle(&set[i]));
        ANSWERS(OK, mooringakee_backlog(&set[i], &rows));
        CHECK(rows == 0);
    }
}

/* A pass may be moved, and a drop leaves the others. */
static void moves_and_drops(void) {
    struct mooringakee_pass moved = queue[0];
    queue[0] = (struct mooringakee_pass){0};
    answers_no_pass(&queue[0]);
    ANSWERS(OK, mooringakee_enqueue(&moved, 5));
    ANSWERS(OK, mooringakee_drop(&moved));
    answers_no_pass(&moved);
    uint64_t value = 0;
    ANSWERS(OK, mooringakee_dequeue(&queue[1], &value));
    CHECK(value == 5);
    ANSWERS(OK, mooringakee_queue_drop(&queue[1]));
    for (int i = 0; i < 2; i++) ANSWERS(OK, mooringakee_drop(&set[i]));
    ANSWERS(OK, mooringakee_drop(&split));
    answers_no_pass(&split);
    for (int i = 0; i < 2; i++) {
        answers_no_pass(&queue[i]);
        answers_no_pass(&set[i]);
    }
}

static void names(void) {
    for (int32_t code = MOORINGAKEE_OK; code <= MOORINGAKEE_KEPT; code++)
        CHECK(strcmp(mooringakee_code_name(code), "UNKNOWN") != 0);
    CHECK(strcmp(mooringakee_code_name(MOORINGAKEE_AGAIN), "AGAIN") == 0);
    CHECK(strcmp(mooringakee_code_name(-1), "UNKNOWN") == 0);
    CHECK(strcmp(mooringakee_code_name(MOORINGAKEE_KEPT + 1), "UNKNOWN") == 0);
}

int main(void) {
    names();
    makes_out_of_range();
    makes_in_range();
    answers_no_pass(&queue[0]);
    ANSWERS(OK, mooringakee_queue_make(4, 64, queue, 2));
    ANSWERS(OK, mooringakee_set_make(4, 2, 64, set, 2));
    ANSWERS(OK, mooringakee_split_set_make(4, 2, 64, &split, 1));
    null_pointers();
    passes_of_another_kind();
    second_makes();
    values_and_rows();
    moves_and_drops();
    puts("bad_use: each call answered its code");
}
