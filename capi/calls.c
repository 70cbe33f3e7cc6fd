/* The functions of mooringakee.h over the proved ones, which take no null pointer. */
#include "mooringakee.h"

/* ThreadSanitizer sees no step of the archive, which it has not compiled. So it is told here what these steps order: all
 * that a thread did before it put a value or changed a key comes before what another does after it took that value or
 * found that change, and all that threads did before they gave their passes up before what the last one does afterwards.
 * Values that have the same remainder are not told apart, nor are containers. The passes themselves, which the archive
 * copies by memcpy, it is told not to look at. */
#if defined(__has_feature)
#if __has_feature(thread_sanitizer)
#define MOORINGAKEE_TOLD
#endif
#endif
#if defined(MOORINGAKEE_TOLD) || defined(__SANITIZE_THREAD__)
void __tsan_release(void *place);
void __tsan_acquire(void *place);
void __tsan_ignore_thread_begin(void);
void __tsan_ignore_thread_end(void);

static char places[65521], ends;

static void is_put(uint64_t number) {
    __tsan_release(&places[number % sizeof places]);
}

static void is_found(uint64_t number) {
    __tsan_acquire(&places[number % sizeof places]);
}

static void begins_end(void) {
    __tsan_release(&ends);
    __tsan_ignore_thread_begin();
}

static void has_ended(void) {
    __tsan_ignore_thread_end();
    __tsan_acquire(&ends);
}
#else
static void is_put(uint64_t number) {
    (void)number;
}

static void is_found(uint64_t number) {
    (void)number;
}

static void begins_end(void) {}

static void has_ended(void) {}
#endif

int32_t mooringakee_proved_queue_make(uint32_t rows, uint64_t turns, struct mooringakee_pass *passes, size_t agents);
int32_t mooringakee_proved_set_make(uint32_t rows, uint32_t buckets, uint64_t turns, struct mooringakee_pass *passes,
                                    size_t agents);
int32_t mooringakee_proved_split_set_make(uint32_t rows, uint32_t buckets, uint64_t turns, struct mooringakee_pass *passes,
                                          size_t agents);
int32_t mooringakee_proved_enqueue(struct mooringakee_pass *pass, uint64_t value);
int32_t mooringakee_proved_dequeue(struct mooringakee_pass *pass, uint64_t *value);
int32_t mooringakee_proved_insert(struct mooringakee_pass *pass, uint64_t key, bool *absent);
int32_t mooringakee_proved_remove(struct mooringakee_pass *pass, uint64_t key, bool *present);
int32_t mooringakee_proved_contains(struct mooringakee_pass *pass, uint64_t key, bool *present);
int32_t mooringakee_proved_buckets(struct mooringakee_pass *pass, uint32_t *buckets);
int32_t mooringakee_proved_settle(struct mooringakee_pass *pass);
int32_t mooringakee_proved_backlog(struct mooringakee_pass *pass, uint32_t *rows);
int32_t mooringakee_proved_drop(struct mooringakee_pass *pass);
int32_t mooringakee_proved_close(struct mooringakee_pass *pass, struct mooringakee_counts *counts);

_Static_assert(sizeof(struct mooringakee_pass) == 16, "a pass is 16 bytes");
_Static_assert(sizeof(struct mooringakee_counts) == 24, "counts are 24 bytes");

/* Whether so many passes can be a container's. Else no pass is looked at, since fewer may be there. */
static bool are_agents(size_t agents) {
    return 1 <= agents && agents <= MOORINGAKEE_MOST_AGENTS;
}

const char *mooringakee_code_name(int32_t code) {
    switch (code) {
    case MOORINGAKEE_OK: return "OK";
    case MOORINGAKEE_AGAIN: return "AGAIN";
    case MOORINGAKEE_FULL: return "FULL";
    case MOORINGAKEE_POSITIONS: return "POSITIONS";
    case MOORINGAKEE_EMPTY: return "EMPTY";
    case MOORINGAKEE_SHAPE: return "SHAPE";
    case MOORINGAKEE_NO_MEMORY: return "NO_MEMORY";
    case MOORINGAKEE_NO_PASS: return "NO_PASS";
    case MOORINGAKEE_LIVE: return "LIVE";
    case MOORINGAKEE_NULL: return "NULL";
    case MOORINGAKEE_KIND: return "KIND";
    case MOORINGAKEE_SPENT: return "SPENT";
    case MOORINGAKEE_OTHERS: return "OTHERS";
    case MOORINGAKEE_KEPT: return "KEPT";
    default: return "UNKNOWN";
    }
}

int32_t mooringakee_queue_make(uint32_t rows, uint64_t turns, struct mooringakee_pass *passes, size_t agents) {
    if (passes == NULL) return MOORINGAKEE_NULL;
    if (!are_agents(agents)) return MOORINGAKEE_SHAPE;
    return mooringakee_proved_queue_make(rows, turns, passes, agents);
}

int32_t mooringakee_set_make(uint32_t rows, uint32_t buckets, uint64_t turns, struct mooringakee_pass *passes,
                             size_t agents) {
    if (passes == NULL) return MOORINGAKEE_NULL;
    if (!are_agents(agents)) return MOORINGAKEE_SHAPE;
    return mooringakee_proved_set_make(rows, buckets, turns, passes, agents);
}

int32_t mooringakee_split_set_make(uint32_t rows, uint32_t buckets, uint64_t turns, struct mooringakee_pass *passes,
                                   size_t agents) {
    if (passes == NULL) return MOORINGAKEE_NULL;
    if (!are_agents(agents)) return MOORINGAKEE_SHAPE;
    return mooringakee_proved_split_set_make(rows, buckets, turns, passes, agents);
}

int32_t mooringakee_enqueue(struct mooringakee_pass *pass, uint64_t value) {
    if (pass == NULL) return MOORINGAKEE_NULL;
    is_put(value);
    return mooringakee_proved_enqueue(pass, value);
}

int32_t mooringakee_dequeue(struct mooringakee_pass *pass, uint64_t *value) {
    if (pass == NULL || value == NULL) return MOORINGAKEE_NULL;
    int32_t code = mooringakee_proved_dequeue(pass, value);
    if (code == MOORINGAKEE_OK) is_found(*value);
    return code;
}

int32_t mooringakee_insert(struct mooringakee_pass *pass, uint64_t key, bool *absent) {
    if (pass == NULL || absent == NULL) return MOORINGAKEE_NULL;
    is_put(key);
    int32_t code = mooringakee_proved_insert(pass, key, absent);
    is_found(key);
    return code;
}

int32_t mooringakee_remove(struct mooringakee_pass *pass, uint64_t key, bool *present) {
    if (pass == NULL || present == NULL) return MOORINGAKEE_NULL;
    is_put(key);
    int32_t code = mooringakee_proved_remove(pass, key, present);
    is_found(key);
    return code;
}

int32_t mooringakee_contains(struct mooringakee_pass *pass, uint64_t key, bool *present) {
    if (pass == NULL || present == NULL) return MOORINGAKEE_NULL;
    int32_t code = mooringakee_proved_contains(pass, key, present);
    is_found(key);
    return code;
}

int32_t mooringakee_buckets(struct mooringakee_pass *pass, uint32_t *buckets) {
    return pass == NULL || buckets == NULL ? MOORINGAKEE_NULL : mooringakee_proved_buckets(pass, buckets);
}

int32_t mooringakee_settle(struct mooringakee_pass *pass) {
    return pass == NULL ? MOORINGAKEE_NULL : mooringakee_proved_settle(pass);
}

int32_t mooringakee_backlog(struct mooringakee_pass *pass, uint32_t *rows) {
    return pass == NULL || rows == NULL ? MOORINGAKEE_NULL : mooringakee_proved_backlog(pass, rows);
}

int32_t mooringakee_drop(struct mooringakee_pass *pass) {
    if (pass == NULL) return MOORINGAKEE_NULL;
    begins_end();
    int32_t code = mooringakee_proved_drop(pass);
    has_ended();
    return code;
}

int32_t mooringakee_close(struct mooringakee_pass *pass, struct mooringakee_counts *counts) {
    if (pass == NULL || counts == NULL) return MOORINGAKEE_NULL;
    begins_end();
    int32_t code = mooringakee_proved_close(pass, counts);
    has_ended();
    return code;
}

int32_t mooringakee_queue_drop(struct mooringakee_pass *pass) {
    return mooringakee_drop(pass);
}
