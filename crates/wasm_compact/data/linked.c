int total;
static int table[4] = {1, 2, 3, 4};
int next(int n);
int add(int n) {
  total += table[n & 3];
  return total;
}
int pick(int n) {
  switch (n) {
    case 0: return next(1);
    case 1: return add(2);
    case 2: return next(3) + add(n);
    default: return -n;
  }
}
int (*chosen)(int) = pick;
int run(int n) { return chosen(n); }
