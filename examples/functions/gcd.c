#include <assert.h>

int gcd(int a, int b);

/* the greatest common divisor of two numbers that aren't both 0 */
int gcd(int a, int b) {
    assume(a > 0 && b >= 0);
    while (b != 0) {
        int rest = a % b;
        assume(0 <= rest && rest < b); // what C says of a remainder, whose divisor is a variable
        a = b;
        b = rest;
    }
    assert(a > 0);
    return a;
}

int main(void) {
    return gcd(nondet(), nondet());
}
