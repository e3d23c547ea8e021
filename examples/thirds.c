int main() {
    int x = 0;
    while (nondet()) {
        assume(3*x <= 10);
        x = x + 1;
    }
}
