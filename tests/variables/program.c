typedef const volatile unsigned char byte;
typedef unsigned int word;
struct pair {
    int first;
    int second;
};

int total;
static unsigned short step = 3;
int *pointer = &total;
long long wide;

__attribute__((noinline)) int twice(int a, byte b) {
    volatile int sum = a;
    for (word i = 0; i < 2; i++) {
        volatile short sum = b;
        {
            volatile signed char inner = sum;
            total += inner;
        }
        total += sum;
    }
    return sum + total;
}

__attribute__((noinline)) _Bool is_above(const struct pair *p, char c, struct pair q) {
    static int calls;
    volatile _Bool above = p->first > p->second;
    calls += c + q.first;
    return above;
}

void _start(void) {
    struct pair p = {1, 2};
    wide = twice(step, 200) + is_above(&p, 'x', p);
    for (;;) {
    }
}
