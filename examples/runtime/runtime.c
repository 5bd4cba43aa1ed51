/* The functions of runtime.h over the machine's calls and its atomic memory operations. */
#include "runtime.h"

enum { WRITE = 64, EXIT_GROUP = 94 };

/* A compiler takes a loop that copies for a call of memcpy, which would be this loop: here it may not. */
#define AS_IT_STANDS __asm__ volatile("")

void *memcpy(void *to, const void *from, size_t size) {
    unsigned char *out = to;
    const unsigned char *in = from;
    for (; size != 0; size--) {
        *out++ = *in++;
        AS_IT_STANDS;
    }
    return to;
}

void *memmove(void *to, const void *from, size_t size) {
    unsigned char *out = to;
    const unsigned char *in = from;
    if (out <= in)
        return memcpy(to, from, size);
    /* What would be overwritten is copied first. */
    while (size-- != 0) {
        out[size] = in[size];
        AS_IT_STANDS;
    }
    return to;
}

void *memset(void *to, int value, size_t size) {
    unsigned char *out = to;
    for (; size != 0; size--) {
        *out++ = (unsigned char)value;
        AS_IT_STANDS;
    }
    return to;
}

int memcmp(const void *left, const void *right, size_t size) {
    const unsigned char *one = left, *other = right;
    for (; size != 0; size--, one++, other++)
        if (*one != *other)
            return *one - *other;
    return 0;
}

static long call(long number, long first, long second, long third) {
    register long a0 __asm__("a0") = first;
    register long a1 __asm__("a1") = second;
    register long a2 __asm__("a2") = third;
    register long a7 __asm__("a7") = number;
    __asm__ volatile("ecall" : "+r"(a0) : "r"(a1), "r"(a2), "r"(a7) : "memory");
    return a0;
}

long write(int descriptor, const void *bytes, size_t size) {
    return call(WRITE, descriptor, (long)bytes, (long)size);
}

void exit_all(int code) {
    for (;;)
        call(EXIT_GROUP, code, 0, 0);
}

void print(const char *text) {
    size_t size = 0;
    while (text[size] != 0)
        size++;
    write(1, text, size);
}

void print_number(int number) {
    char text[11];
    size_t at = sizeof text;
    unsigned rest = number < 0 ? 0u - (unsigned)number : (unsigned)number;
    do {
        text[--at] = (char)('0' + rest % 10);
        rest /= 10;
    } while (rest != 0);
    if (number < 0)
        text[--at] = '-';
    write(1, text + at, sizeof text - at);
}

void acquire(struct lock *lock) {
    while (__atomic_exchange_n(&lock->is_taken, 1, __ATOMIC_ACQUIRE) != 0) {
    }
}

void release(struct lock *lock) {
    __atomic_store_n(&lock->is_taken, 0, __ATOMIC_RELEASE);
}

void wait_for_all(struct barrier *barrier, unsigned harts) {
    unsigned round = __atomic_load_n(&barrier->round, __ATOMIC_ACQUIRE);
    if (__atomic_add_fetch(&barrier->come, 1, __ATOMIC_ACQ_REL) == harts) {
        /* The last one lets the others go, and makes the barrier as new before. */
        __atomic_store_n(&barrier->come, 0, __ATOMIC_RELAXED);
        __atomic_add_fetch(&barrier->round, 1, __ATOMIC_RELEASE);
        return;
    }
    while (__atomic_load_n(&barrier->round, __ATOMIC_ACQUIRE) == round) {
    }
}
