/* Variables of many kinds, places and scopes, for the comparison with GDB. The stack is the program's own and every register has a
   value before the first call, so that each debugger finds the same. */
__asm__(".pushsection .text\n"
        ".globl _start\n"
        "_start:\n"
        "    la sp, stack + 4096\n"
        "    li a0, 0\n"
        "    li a1, 0\n"
        "    call run\n"
        "    li a7, 93\n"
        "    ecall\n"
        ".popsection\n");

#define APART __attribute__((noinline, noclone))
#ifdef __clang__
#undef APART
#define APART __attribute__((noinline))
#endif

typedef const volatile unsigned char byte;
typedef unsigned int word;
enum colour { RED, GREEN = 5, BLUE };
struct pair {
    int first;
    int second;
};

char stack[4096] __attribute__((aligned(16)));
volatile int total;
static volatile unsigned short steps = 3;
volatile signed char low = -5;
struct pair pairs[3] = {{1, -2}, {30, 40}, {-500, 600}};
const char text[] = "hart";

/* Names that hide each other, in blocks that stand in blocks. */
APART int shadows(int a, byte b) {
    volatile int sum = a;
    for (word i = 0; i < 2; i++) {
        volatile short sum = b - 300;
        {
            volatile signed char sum = low;
            total += sum;
        }
        total += sum;
    }
    total += sum;
    return sum + total;
}

/* Each width and sign, in registers or on the stack. */
APART unsigned widths(unsigned short u, short s, char c, signed char d, _Bool flag, unsigned w) {
    unsigned left = u + (unsigned)s;
    short right = (short)(c - d);
    _Bool both = flag && left > w;
    if (both)
        left ^= 0x80000000u;
    steps += (unsigned short)right;
    return left + steps;
}

/* A recursion: the same names in each frame. */
APART int depth(int n) {
    int below = 1;
    if (n > 1) {
        int next = n - 1;
        below = n * depth(next);
    }
    total = below;
    return below;
}

/* Pointers, a static variable, and an array, which isn't read. */
APART int walk(const struct pair *p, int count) {
    static int calls;
    int seen[2] = {0, 0};
    const char *letter = text;
    calls++;
    for (int i = 0; i < count; i++, p++) {
        int first = p->first, second = p->second;
        seen[i & 1] += first - second;
        total += *letter++;
    }
    return seen[0] * calls + seen[1];
}

/* What isn't read: an enumeration, a structure, 64 bits. */
APART long long kinds(enum colour c, struct pair q, long long wide) {
    enum colour next = (enum colour)(c + 1);
    struct pair turned = {q.second, q.first};
    wide += (int)next + turned.first;
    total = turned.second;
    return wide;
}

static inline int square(int x) {
    int y = x * x;
    total += y;
    return y;
}

/* A function that is put in place of its call where the compiler likes. */
APART int inlined(int k) {
    int once = square(k);
    int again = square(once + 1);
    return once - again;
}

int run(void) {
    int result = shadows(7, 200);
    word mixed = widths(60000, -3, 'x', -100, 1, 5);
    result += depth(5);
    result += walk(pairs, 3) + walk(pairs + 1, 2);
    struct pair own = {11, 22};
    result += (int)kinds(GREEN, own, 1LL << 40);
    result += inlined(9);
    return (int)(mixed + (word)result) & 63;
}
