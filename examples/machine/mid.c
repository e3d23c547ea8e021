/* the place half way between two, as it stood in many a library for years */
int mid(int low, int high) {
    assume(0 <= low && low <= high);
    int middle = (low + high) / 2;
    assert(low <= middle && middle <= high);
    return middle;
}
