typedef int (*step)(const unsigned char *at, int value, const void *steps);

static int end(const unsigned char *at, int value, const void *steps) { return value; }
static int next(const unsigned char *at, int value, const void *steps) {
    step to = ((const step *)steps)[*at];
    __attribute__((musttail)) return to(at + 1, value, steps);
}
int add(const unsigned char *at, int value, const void *steps) {
    __attribute__((musttail)) return next(at, value + 1, steps);
}
int twice(const unsigned char *at, int value, const void *steps) {
    __attribute__((musttail)) return next(at, value * 2, steps);
}
int run(const unsigned char *at) {
    static const step steps[] = {end, add, twice};
    return next(at, 0, steps);
}
