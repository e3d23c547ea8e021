/* looks for a place in the range 0 .. size - 1 */
int main() {
    int size = nondet(), found = -1;
    assume(size >= 1 && size <= 1000);
    for (int i = 0; i < size; i++) {
        if (nondet()) {
            found = i;
            break;
        }
    }
}
