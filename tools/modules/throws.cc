struct Fault { int code; };
struct Guard { int *count; ~Guard() { ++*count; } };
int depth;
int thrown(int n) {
    Guard guard{&depth};
    if (n > 3) throw Fault{n};
    return n;
}
int caught(int n) {
    try {
        try { return thrown(n); } catch (int) { return -1; }
    } catch (const Fault &fault) { return fault.code; } catch (...) { throw; }
}
