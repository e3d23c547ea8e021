/* where a number stands in the first places of a sorted table, or -1 */
int search(int wanted, int size) {
    int table[1000];
    assume(0 <= size && size <= 1000);
    int low = 0, high = size;
    while (low < high) {
        int middle = (low + high) / 2;
        int value = table[middle];
        if (value == wanted) return middle;
        if (value < wanted) low = middle + 1; else high = middle;
    }
    return -1;
}
