/* The other of two files of this name. */
int util_b(int n) {
    int thrice = 3 * n;
    return thrice + 2;
}
