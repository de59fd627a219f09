/* The greatest common divisor of two numbers. */
unsigned gcd(unsigned a, unsigned b) {
    while (b) {
        unsigned left = a % b;
        a = b;
        b = left;
    }
    return a;
}
