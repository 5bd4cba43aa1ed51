/* Greatest common divisors by Euclid's algorithm, each with the number of its divisions, and then the divisions of
   all harts so far. Each hart runs this, with a line of its own. */

enum { WRITE = 64, OUTPUT = 1 };

struct pair {
    unsigned a;
    unsigned b;
};

struct line {
    char text[80];
    unsigned length;
};

static const struct pair pairs[] = {{1071, 462}, {48, 18}, {17, 5}, {5, 17}, {0, 9}};

/* The divisions of all harts. */
static unsigned divisions;

static void put_text(struct line *line, const char *text) {
    while (*text != '\0')
        line->text[line->length++] = *text++;
}

static void put_number(struct line *line, unsigned number) {
    if (number >= 10)
        put_number(line, number / 10);
    line->text[line->length++] = (char)('0' + number % 10);
}

/* The write call, as on Linux. */
static void write_line(struct line *line) {
    put_text(line, "\n");
    register unsigned a0 __asm__("a0") = OUTPUT;
    register const char *a1 __asm__("a1") = line->text;
    register unsigned a2 __asm__("a2") = line->length;
    register unsigned a7 __asm__("a7") = WRITE;
    __asm__ volatile("ecall" : "+r"(a0) : "r"(a1), "r"(a2), "r"(a7) : "memory");
    line->length = 0;
}

static unsigned gcd(unsigned a, unsigned b, unsigned *count) {
    while (b != 0) {
        unsigned rest = a % b;
        a = b;
        b = rest;
        ++*count;
    }
    return a;
}

static void write_gcd(struct line *line, const struct pair *p) {
    unsigned count = 0;
    unsigned divisor = gcd(p->a, p->b, &count);
    put_text(line, "gcd(");
    put_number(line, p->a);
    put_text(line, ", ");
    put_number(line, p->b);
    put_text(line, ") = ");
    put_number(line, divisor);
    put_text(line, ", divisions: ");
    put_number(line, count);
    write_line(line);
    __atomic_fetch_add(&divisions, count, __ATOMIC_SEQ_CST);
}

int main(void) {
    struct line line;
    line.length = 0;
    for (unsigned i = 0; i < sizeof pairs / sizeof pairs[0]; i++)
        write_gcd(&line, &pairs[i]);
    put_text(&line, "divisions in all: ");
    put_number(&line, __atomic_load_n(&divisions, __ATOMIC_SEQ_CST));
    write_line(&line);
    return 0;
}
