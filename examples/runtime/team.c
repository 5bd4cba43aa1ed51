/* Harts that square numbers, each its part, and wait for each other. Then one of them adds up what all have made. */
#include "runtime.h"

enum { NUMBERS = 64 };

struct part {
    unsigned from, to;
    char name[8];
};

static int squares[NUMBERS];
static struct barrier barrier;
static struct lock output;

static void square(struct part part) {
    for (unsigned k = part.from; k < part.to; k++)
        squares[k] = (int)(k * k);
    acquire(&output);
    print(part.name);
    print(" is done\n");
    release(&output);
}

static int sum(void) {
    int copy[NUMBERS] = {0}, all = 0;
    memcpy(copy, squares, sizeof copy);
    for (unsigned k = 0; k < NUMBERS; k++)
        all += copy[k];
    return all;
}

int main(unsigned hart, unsigned harts) {
    struct part part = {NUMBERS * hart / harts, NUMBERS * (hart + 1) / harts, "hart ?"};
    part.name[5] = (char)('0' + hart % 10);
    square(part);
    wait_for_all(&barrier, harts);
    if (hart == 0) {
        print_number(sum());
        print("\n");
    }
    return 0;
}
