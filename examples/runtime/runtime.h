/* What a program for several harts needs and no C library brings here: output, a lock and a barrier. */
#ifndef RUNTIME_H
#define RUNTIME_H

#include <stddef.h>

/* Compilers call these four by themselves, for arrays and structs. */
void *memcpy(void *to, const void *from, size_t size);
void *memmove(void *to, const void *from, size_t size);
void *memset(void *to, int value, size_t size);
int memcmp(const void *left, const void *right, size_t size);

/* Writes so many bytes, to descriptor 1 or 2, and gives their number. */
long write(int descriptor, const void *bytes, size_t size);

/* Writes a text that ends with a zero byte; a number in decimal. */
void print(const char *text);
void print_number(int number);

/* One hart at a time holds a lock; the others spin. Zero is free. */
struct lock {
    unsigned is_taken;
};
void acquire(struct lock *lock);
void release(struct lock *lock);

/* A hart that comes to a barrier spins until as many have come as it says. Zero is a barrier that nobody came to; it can be used again. */
struct barrier {
    unsigned come, round;
};
void wait_for_all(struct barrier *barrier, unsigned harts);

/* Exits all harts with this code; one hart exits by the return of main. */
void exit_all(int code) __attribute__((noreturn));

#endif
