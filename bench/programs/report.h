// Writes a number as eight hexadecimal digits and a line feed to standard output.
static void report(unsigned value) {
    char line[9];
    for (int k = 0; k < 8; k++) {
        unsigned digit = (value >> (28 - 4 * k)) & 15;
        line[k] = (char)(digit < 10 ? '0' + digit : 'a' + digit - 10);
    }
    line[8] = '\n';
    register long a0 __asm__("a0") = 1;
    register long a1 __asm__("a1") = (long)line;
    register long a2 __asm__("a2") = 9;
    register long a7 __asm__("a7") = 64;
    __asm__ volatile("ecall" : "+r"(a0) : "r"(a1), "r"(a2), "r"(a7) : "memory");
}
