/* Each hart works on what is its own, so that what it does hangs on no other one: loops, recursion, jumps by a table and by a pointer. */
static int rows[16][8];

static __attribute__((noinline)) int factorial(int n) {
    return n <= 1 ? 1 : n * factorial(n - 1);
}

static __attribute__((noinline)) int mixed(int kind, int value) {
    switch (kind) {
    case 0:
        return value + 7;
    case 1:
        return factorial(value & 7);
    case 2:
        return value << 3;
    case 3:
        return value / 3;
    case 4:
        return -value;
    default:
        return value ^ kind;
    }
}

static __attribute__((noinline)) void sort(int *cells, int count) {
    for (int k = 1; k < count; k++)
        for (int m = k; m > 0 && cells[m - 1] > cells[m]; m--) {
            int kept = cells[m];
            cells[m] = cells[m - 1];
            cells[m - 1] = kept;
        }
}

static int (*const works[])(int, int) = {mixed, mixed};

int main(int hart) {
    int *row = rows[hart], sum = 0;
    for (int turn = 0; turn < 6; turn++) {
        for (int k = 0; k < 8; k++)
            row[k] = works[k & 1]((k + turn + hart) % 6, 31 * k + 5 * hart - turn);
        sort(row, 8);
        sum += row[turn];
    }
    return sum & 0x7f;
}
