/* A local without a place, in a function that is optimized, hides a global of its name. */
int total = 1000;
volatile int sink;

static __attribute__((noinline)) int work(int n) {
    sink = n;
    return n + 1;
}

int main(int hart) {
    int total = hart + 7;
    int r = work(total);
    sink = r;
    r = work(r * 2);
    return r;
}
