// The primes below 200,000 by the sieve of Eratosthenes, 6 times: byte stores, loads and branches.
#include "report.h"

static unsigned char composite[200000];

int main(void) {
    unsigned count = 0;
    for (int round = 0; round < 6; round++) {
        for (int k = 0; k < 200000; k++)
            composite[k] = 0;
        for (int k = 2; k < 200000; k++) {
            if (composite[k])
                continue;
            count++;
            for (int m = k + k; m < 200000; m += k)
                composite[m] = 1;
        }
    }
    report(count);
    return 0;
}
