/* the place half way between two: a difference of two numbers from 0 on is never too large */
int middle(int low, int high) {
    assume(0 <= low && low <= high);
    int middle = low + (high - low) / 2;
    assert(low <= middle && middle <= high);
    return middle;
}
