/* Four harts add to one sum under a lock. The last one that is ready writes the sum. */

enum { WRITE = 64, OUTPUT = 1, ROUNDS = 10 };

static unsigned lock, ready;
static volatile unsigned sum;

static void acquire(void) {
    while (__atomic_exchange_n(&lock, 1, __ATOMIC_ACQUIRE) != 0) {
    }
}

static void release(void) {
    __atomic_store_n(&lock, 0, __ATOMIC_RELEASE);
}

static void add(unsigned number) {
    acquire();
    sum = sum + number;
    release();
}

static void write_number(unsigned number) {
    char text[11];
    unsigned at = sizeof text;
    text[--at] = '\n';
    do {
        text[--at] = (char)('0' + number % 10);
        number /= 10;
    } while (number != 0);
    register unsigned a0 __asm__("a0") = OUTPUT;
    register const char *a1 __asm__("a1") = text + at;
    register unsigned a2 __asm__("a2") = sizeof text - at;
    register unsigned a7 __asm__("a7") = WRITE;
    __asm__ volatile("ecall" : "+r"(a0) : "r"(a1), "r"(a2), "r"(a7) : "memory");
}

int main(unsigned hart, unsigned harts) {
    for (unsigned round = 0; round < ROUNDS; round++)
        add(hart + 1);
    if (__atomic_add_fetch(&ready, 1, __ATOMIC_SEQ_CST) == harts)
        write_number(sum);
    return 0;
}
