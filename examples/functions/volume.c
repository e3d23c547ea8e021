static int clamped(int x);

/* the loudness of two voices together, which is at most 255 */
int mixed(int left, int right) {
    assume(0 <= left && left <= 255 && 0 <= right && right <= 255);
    int sum = left + right > 255 ? 255 : left + right;
    assert(left <= sum && sum <= 255);
    return sum;
}

/* a step of a fade: towards 0 by an eighth, and at least by 1 */
int faded(int level) {
    assume(0 <= level && level <= 255);
    int step = level / 8;
    if (step == 0 && level > 0) step = 1;
    level -= step;
    assert(0 <= level && level <= 255);
    return clamped(level);
}
