// Four harts add to three counters: under a lock, under a ticket lock, and by atomic additions. The last one that is ready
// writes the counters as hexadecimal numbers, one a line.
#include "../../bench/programs/report.h"

enum { ROUNDS = 200 };

static unsigned lock, tickets, serving, ready;
static volatile unsigned locked, ticketed;
static unsigned added;

__attribute__((noinline)) void under_lock(void) {
    while (__atomic_exchange_n(&lock, 1, __ATOMIC_ACQUIRE)) {
    }
    locked = locked + 1;
    __atomic_store_n(&lock, 0, __ATOMIC_RELEASE);
}

__attribute__((noinline)) void under_ticket(void) {
    unsigned ticket = __atomic_fetch_add(&tickets, 1, __ATOMIC_RELAXED);
    while (__atomic_load_n(&serving, __ATOMIC_ACQUIRE) != ticket) {
    }
    ticketed = ticketed + 1;
    __atomic_store_n(&serving, ticket + 1, __ATOMIC_RELEASE);
}

int main(unsigned hart, unsigned harts) {
    for (unsigned k = 0; k < ROUNDS; k++) {
        under_lock();
        under_ticket();
        __atomic_fetch_add(&added, hart + 1, __ATOMIC_RELAXED);
    }
    if (__atomic_fetch_add(&ready, 1, __ATOMIC_ACQ_REL) + 1 == harts) {
        report(locked);
        report(ticketed);
        report(added);
    }
    return 0;
}
