/* two counters that go up together, the first one to ten */
int main() {
    int x = 0, y = 0;
    while (x < 10) {
        x++;
        y++;
        assert(x <= 10);
    }
    assert(x == 10);
    assert(x == y);
}
