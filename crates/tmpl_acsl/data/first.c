int main() { int x = 2; int y; y = 3*x + 1; }
