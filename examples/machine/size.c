/* how far a number is from 0: the least one has no opposite */
int size(int x) {
    return x < 0 ? -x : x;
}

/* the same of every number, one less where it is below 0 */
int folded(int x) {
    int y = x < 0 ? -(x + 1) : x;
    assert(y >= 0);
    return y;
}
