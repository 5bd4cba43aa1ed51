/* One of two files of this name. */
int util_a(int n) {
    int twice = 2 * n;
    return twice + 1;
}
