/* A make to which memory is refused, each time at another place: it answers so, leaves the passes empty, and gives back
 * what it had. This program has the three functions of memory.c itself. */
#include "check.h"

struct tried {
    bool is_block;
    void *block;
};

static uint64_t asked, refused_at, blocks;

static struct tried answer(void *block) {
    static char none;
    struct tried tried = {block != NULL, block != NULL ? block : &none};
    return tried;
}

struct tried rattle_alloc(size_t size, size_t align) {
    if (asked++ == refused_at) return answer(NULL);
    blocks++;
    return answer(malloc(size != 0 ? size : align));
}

struct tried rattle_realloc(void *block, size_t kept, size_t size, size_t align) {
    (void)kept;
    if (asked++ == refused_at) return answer(NULL);
    return answer(realloc(block, size != 0 ? size : align));
}

void rattle_dealloc(void *block) {
    blocks--;
    free(block);
}

static int32_t make_queue(struct mooringakee_pass *passes) {
    return mooringakee_queue_make(64, MOORINGAKEE_TURNS, passes, 3);
}

static int32_t make_set(struct mooringakee_pass *passes) {
    return mooringakee_set_make(64, 4, MOORINGAKEE_TURNS, passes, 3);
}

static int32_t make_split_set(struct mooringakee_pass *passes) {
    return mooringakee_split_set_make(64, 4, MOORINGAKEE_TURNS, passes, 3);
}

/* How often memory could be refused. */
static uint64_t refusals(int32_t (*make)(struct mooringakee_pass *)) {
    struct mooringakee_pass passes[3] = {{0}};
    uint64_t count = 0;
    for (;; count++) {
        asked = 0;
        refused_at = count;
        int32_t code = make(passes);
        if (asked <= count) break;
        /* a make may do with less than it asked for first */
        if (code == MOORINGAKEE_OK)
            for (int i = 0; i < 3; i++) ANSWERS(OK, mooringakee_drop(&passes[i]));
        else
            CHECK(code == MOORINGAKEE_NO_MEMORY);
        CHECK(blocks == 0);
        for (int i = 0; i < 3; i++) CHECK(passes[i].at == NULL && !passes[i].live);
    }
    CHECK(asked == count && passes[0].live && passes[1].live && passes[2].live);
    /* nothing but make takes memory */
    for (int i = 0; i < 3; i++) {
        bool is_new;
        uint64_t value;
        if (make == make_queue) {
            ANSWERS(OK, mooringakee_enqueue(&passes[i], i));
            ANSWERS(OK, mooringakee_dequeue(&passes[i], &value));
        } else {
            ANSWERS(OK, mooringakee_insert(&passes[i], i, &is_new));
            ANSWERS(OK, mooringakee_remove(&passes[i], i, &is_new));
        }
        ANSWERS(OK, mooringakee_settle(&passes[i]));
    }
    CHECK(asked == count);
    for (int i = 0; i < 2; i++) ANSWERS(OK, mooringakee_drop(&passes[i]));
    CHECK(asked == count);
    /* but the close of the last pass, which frees all the same */
    struct mooringakee_counts counts = {7, 7, 7};
    refused_at = asked;
    ANSWERS(NO_MEMORY, mooringakee_close(&passes[2], &counts));
    CHECK(blocks == 0 && !passes[2].live && counts.given == 7);
    return count;
}

int main(void) {
    uint64_t queue = refusals(make_queue), set = refusals(make_set), split = refusals(make_split_set);
    printf("no_memory: refused at each of %llu, %llu and %llu places\n", (unsigned long long)queue, (unsigned long long)set,
           (unsigned long long)split);
}
