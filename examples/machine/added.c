/* a sum that stays in the range: at its ends where the exact one is beyond them */
int added(int a, int b) {
    int most = 2147483647, least = -2147483647 - 1;
    if (b > 0 && a > most - b) return most;
    if (b < 0 && a < least - b) return least;
    return a + b;
}
