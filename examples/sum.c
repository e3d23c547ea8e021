int main() {
    int x = 0, y = 10;
    while (x < 10) {
        x++;
        y--;
    }
}
