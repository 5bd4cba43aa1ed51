/* What a user of GDB looks at: a tree of structures, recursion, an enumeration, arrays, texts and pointers to functions. */
struct node {
    int key;
    struct node *left, *right;
    unsigned char colour : 1;
    int count : 7;
};
enum shape { ROUND, SQUARE = 5 };

static struct node pool[32];
static int used;
static enum shape form = SQUARE;
static int matrix[3][3] = {{1, 2, 3}, {4, 5, 6}, {7, 8, 9}};
static const char *names[] = {"zero", "one", "two"};
static volatile long long wide = 0x1122334455667788;

static __attribute__((noinline)) struct node *insert(struct node *tree, int key) {
    if (!tree) {
        struct node *made = &pool[used++];
        made->key = key;
        made->count = 1;
        return made;
    }
    if (key < tree->key)
        tree->left = insert(tree->left, key);
    else if (key > tree->key)
        tree->right = insert(tree->right, key);
    else
        tree->count++;
    return tree;
}

static __attribute__((noinline)) int depth(const struct node *tree) {
    if (!tree)
        return 0;
    int left = depth(tree->left);
    int right = depth(tree->right);
    return 1 + (left > right ? left : right);
}

static __attribute__((noinline)) int factorial(int n) {
    int below;
    if (n <= 1)
        return 1;
    below = factorial(n - 1);
    return n * below;
}

static __attribute__((noinline)) int twice(int (*function)(int), int argument) {
    return function(argument) + function(argument);
}

static __attribute__((noinline)) void sort(int *cells, int low, int high) {
    if (low >= high)
        return;
    int pivot = cells[high], place = low;
    for (int k = low; k < high; k++)
        if (cells[k] < pivot) {
            int kept = cells[place];
            cells[place] = cells[k];
            cells[k] = kept;
            place++;
        }
    cells[high] = cells[place];
    cells[place] = pivot;
    sort(cells, low, place - 1);
    sort(cells, place + 1, high);
}

int main(int hart) {
    static const int keys[] = {50, 20, 70, 10, 30, 60, 80, 20};
    int cells[8];
    struct node *root = 0;
    for (int k = 0; k < 8; k++) {
        root = insert(root, keys[k]);
        cells[k] = keys[k];
    }
    sort(cells, 0, 7);
    int levels = depth(root);
    int product = factorial(6);
    int sum = twice(factorial, 4);
    wide += product;
    return (levels + product + sum + matrix[1][1] + form + names[2][0] + cells[7] + hart) & 0x7f;
}
