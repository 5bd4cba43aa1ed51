/* Each hart adds its number and 1 to a sum, three times. */
static volatile int sum;

static void add(int number) {
    sum += number;
}

int main(int hart) {
    for (int i = 0; i < 3; i++)
        add(hart + 1);
    return 0;
}
