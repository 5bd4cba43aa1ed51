/* What an editor is shown: outer frames, globals of each size, names that hide others, and traps. */
enum shape { ROUND, SQUARE = 5 };
struct pair { int first, second; };

unsigned char small = 200;
short level = -3;
int total = 1000;
unsigned int high = 0x90000000u;
long long big = 0x1122334455667788;
char text[8] = "hello";
enum shape form = SQUARE;
struct pair ring = { 2, 3 };
int turns;

static int factorial(int n) {
    int below;
    if (n <= 1)
        return 1;
    below = factorial(n - 1);
    return n * below;
}

static int turn(int rounds) {
    int count = 0;
    for (int i = 0; i < rounds; i++) {
        turns += 1;
        count += turns & 1;
    }
    return count;
}

static int reserve(int *place) {
    int found;
    __asm__ volatile("lr.w %0, (%1)" : "=r"(found) : "r"(place));
    return found;
}

static int second_of(struct pair *it) {
    return it->second;
}

int main(int hart) {
    int total = 77;
    if (hart == 1)
        return second_of(0);
    if (hart == 2)
        return reserve(&turns);
    level = small + 4;
    total += factorial(6);
    total += turn(200);
    return (total + form + text[0]) & 0x7f;
}
