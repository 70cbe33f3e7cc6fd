/* Two threads over a queue: one reads orders, the other packs them.
 *
 * A value is a number of 64 bits, so it may be a pointer. Who takes it owns what it points to, and frees it. */
#include <mooringakee.h>
#include <pthread.h>
#include <sched.h>
#include <stdio.h>
#include <stdlib.h>

enum { ORDERS = 1000 };

struct order {
    int number, items;
};

static void *read_orders(void *pass) {
    for (int number = 1; number <= ORDERS; number++) {
        struct order *order = malloc(sizeof *order);
        if (order == NULL) abort();
        order->number = number;
        order->items = number % 7;
        /* FULL and AGAIN leave the order with us: let the other thread go on, and try again */
        while (mooringakee_enqueue(pass, (uint64_t)(uintptr_t)order) != MOORINGAKEE_OK) sched_yield();
    }
    return NULL;
}

static void *pack_orders(void *pass) {
    static int items;
    for (int packed = 0; packed < ORDERS;) {
        uint64_t value;
        if (mooringakee_dequeue(pass, &value) != MOORINGAKEE_OK) {
            sched_yield();
            continue;
        }
        struct order *order = (struct order *)(uintptr_t)value;
        packed++;
        if (order->number != packed) abort(); /* first in, first out */
        items += order->items;
        free(order);
    }
    return &items;
}

int main(void) {
    struct mooringakee_pass passes[2] = {{0}};
    int32_t code = mooringakee_queue_make(64, MOORINGAKEE_TURNS, passes, 2);
    if (code != MOORINGAKEE_OK) {
        fprintf(stderr, "no queue: %s\n", mooringakee_code_name(code));
        return 1;
    }
    pthread_t reader, packer;
    if (pthread_create(&reader, NULL, read_orders, &passes[0]) != 0) return 1;
    if (pthread_create(&packer, NULL, pack_orders, &passes[1]) != 0) return 1;
    void *items;
    pthread_join(reader, NULL);
    pthread_join(packer, &items);
    printf("%d orders with %d items\n", ORDERS, *(int *)items);

    /* the last pass is told of the rows: of an empty queue one is linked, its own */
    struct mooringakee_counts rows;
    mooringakee_drop(&passes[0]);
    if (mooringakee_close(&passes[1], &rows) != MOORINGAKEE_OK) return 1;
    printf("64 rows were given %llu times, and freed %llu times\n", (unsigned long long)rows.given, (unsigned long long)rows.reused);
    return rows.linked == 1 ? 0 : 1;
}
