/* tries up to five times, and waits longer each time that it failed */
int main() {
    int tries = 0, waited = 0;
    do {
        tries++;
        int answer = nondet();
        if (answer >= 0) break;
        waited += 2;
        if (waited > 6) continue;
        waited++;
    } while (tries < 5);
}
