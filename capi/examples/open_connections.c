/* A set of the connections that are open: two threads open and close connections, a third one asks before it writes.
 *
 * The set holds the numbers of the connections. Whoever changes it or asks needs no lock, and waits for no one. Nobody knows
 * beforehand how many will be open at a time, so the set is one that begins with one bucket and doubles them as keys come. */
#include <mooringakee.h>
#include <pthread.h>
#include <sched.h>
#include <stdio.h>
#include <stdlib.h>

enum { SERVERS = 2, CONNECTIONS = 2000, KEPT = 50 };

struct server {
    struct mooringakee_pass *pass;
    uint64_t first; /* this server's connections have numbers from here on */
};

typedef int32_t call_on_set(struct mooringakee_pass *pass, uint64_t key, bool *answer);

/* The answer of a call that is made again where others came in between, or no row was free. */
static bool answer_of(call_on_set *call, struct mooringakee_pass *pass, uint64_t connection) {
    bool answer;
    for (;;) {
        int32_t code = call(pass, connection, &answer);
        if (code == MOORINGAKEE_OK) return answer;
        if (code != MOORINGAKEE_AGAIN && code != MOORINGAKEE_FULL) abort();
        sched_yield();
    }
}

/* Opens its connections one after another, and closes all but the last few again. */
static void *serve(void *of) {
    struct server *server = of;
    for (uint64_t i = 0; i < CONNECTIONS; i++) {
        if (!answer_of(mooringakee_insert, server->pass, server->first + i)) abort();
        if (i < KEPT) continue;
        if (!answer_of(mooringakee_remove, server->pass, server->first + i - KEPT)) abort();
    }
    return NULL;
}

/* Writes to each connection that is open. */
static void *write_to_open(void *pass) {
    static uint64_t written;
    for (uint64_t connection = 0; connection < SERVERS * CONNECTIONS; connection++)
        written += answer_of(mooringakee_contains, pass, connection);
    return &written;
}

int main(void) {
    struct mooringakee_pass passes[SERVERS + 1] = {{0}};
    int32_t code = mooringakee_split_set_make(512, 64, MOORINGAKEE_TURNS, passes, SERVERS + 1);
    if (code != MOORINGAKEE_OK) {
        fprintf(stderr, "no set: %s\n", mooringakee_code_name(code));
        return 1;
    }
    struct server servers[SERVERS];
    pthread_t threads[SERVERS], writer;
    for (int i = 0; i < SERVERS; i++) {
        servers[i] = (struct server){&passes[i], (uint64_t)i * CONNECTIONS};
        if (pthread_create(&threads[i], NULL, serve, &servers[i]) != 0) return 1;
    }
    if (pthread_create(&writer, NULL, write_to_open, &passes[SERVERS]) != 0) return 1;
    for (int i = 0; i < SERVERS; i++) pthread_join(threads[i], NULL);
    pthread_join(writer, NULL);

    int open = 0;
    for (uint64_t connection = 0; connection < SERVERS * CONNECTIONS; connection++)
        open += answer_of(mooringakee_contains, &passes[0], connection);
    uint32_t buckets = 0;
    if (mooringakee_buckets(&passes[0], &buckets) != MOORINGAKEE_OK) return 1;
    printf("%d of %d connections are open, in %u buckets\n", open, SERVERS * CONNECTIONS, buckets);
    for (int i = 0; i <= SERVERS; i++) mooringakee_drop(&passes[i]);
    return open == SERVERS * KEPT ? 0 : 1;
}
