/* Calls the functions of two files of one name. */
int util_a(int), util_b(int);

int main(int hart) {
    return util_a(hart) + util_b(hart + 1);
}
