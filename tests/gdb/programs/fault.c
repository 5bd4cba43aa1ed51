/* The second hart divides by zero, which is no fault on RISC-V; the first one reads by a null pointer, which is. */
struct pair {
    int first, second;
};

static int second_of(const struct pair *pair) {
    return pair->second;
}

int main(int hart) {
    volatile int none = 0;
    const struct pair *pair = 0;
    if (hart == 1)
        return 300 / none;
    return second_of(pair);
}
