/* Two harts count to ten each, without an atomic instruction: counts get lost. */
enum { ROUNDS = 10 };

static volatile unsigned count;

static void count_one(void) {
    unsigned seen = count;
    count = seen + 1;
}

int main(void) {
    for (unsigned round = 0; round < ROUNDS; round++)
        count_one();
    return 0;
}
