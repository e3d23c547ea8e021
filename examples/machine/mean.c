/* the mean of the first places of a table of levels, each at most 1,000,000 */
int mean(int size) {
    int levels[1000], sum = 0, count = 0;
    assume(0 < size && size <= 1000);
    while (count < size) {
        int level = levels[count];
        assume(0 <= level && level <= 1000000);
        sum += level;
        count++;
    }
    return sum / count;
}
