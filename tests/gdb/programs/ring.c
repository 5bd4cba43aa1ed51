/* A ring of messages: half of the harts put them in, the others take them out. Tickets are drawn by atomic additions. */
typedef unsigned int u32;
typedef unsigned char u8;

#define CELLS 8u
#define ITEMS 10u

struct message {
    u32 id;
    short priority;
    u8 from;
    char tag;
};
struct cell {
    volatile u32 turn;
    struct message message;
};
struct ring {
    volatile u32 head, tail;
    struct cell cells[CELLS];
};

static struct ring ring;
static volatile u32 ready, produced, consumed;
static volatile u32 totals[2];

static u32 add(volatile u32 *counter, u32 number) {
    return __atomic_fetch_add(counter, number, __ATOMIC_SEQ_CST);
}

static __attribute__((noinline)) void put(struct ring *to, struct message message) {
    u32 ticket = add(&to->tail, 1);
    struct cell *cell = &to->cells[ticket % CELLS];
    while (cell->turn != 2 * (ticket / CELLS))
        ;
    cell->message = message;
    __atomic_exchange_n(&cell->turn, 2 * (ticket / CELLS) + 1, __ATOMIC_SEQ_CST);
}

static __attribute__((noinline)) struct message get(struct ring *from) {
    u32 ticket = add(&from->head, 1);
    struct cell *cell = &from->cells[ticket % CELLS];
    while (cell->turn != 2 * (ticket / CELLS) + 1)
        ;
    struct message message = cell->message;
    __atomic_exchange_n(&cell->turn, 2 * (ticket / CELLS) + 2, __ATOMIC_SEQ_CST);
    return message;
}

static __attribute__((noinline)) u32 produce(u32 hart) {
    u32 sum = 0;
    for (u32 k = 0; k < ITEMS; k++) {
        struct message message = {hart * 1000 + k, (short)-(int)k, (u8)hart, 'p'};
        put(&ring, message);
        add(&produced, 1);
        sum += message.id;
    }
    return sum;
}

static __attribute__((noinline)) u32 consume(u32 hart) {
    u32 sum = 0;
    for (u32 k = 0; k < ITEMS; k++) {
        struct message message = get(&ring);
        add(&consumed, 1);
        sum += message.id;
    }
    add(&totals[hart & 1], sum);
    return sum;
}

static long write(const void *from, u32 count) {
    register long a0 __asm__("a0") = 1;
    register const void *a1 __asm__("a1") = from;
    register u32 a2 __asm__("a2") = count;
    register long a7 __asm__("a7") = 64;
    __asm__ volatile("ecall" : "+r"(a0) : "r"(a1), "r"(a2), "r"(a7) : "memory");
    return a0;
}

int main(u32 hart, u32 harts) {
    add(&ready, 1);
    while (ready < harts) {}
    if (hart < harts / 2)
        produce(hart);
    else
        consume(hart);
    add(&ready, 1);
    while (ready < 2 * harts) {}
    if (hart == 0 && totals[0] + totals[1] == 10090)
        write("all messages came\n", 18);
    return 0;
}
