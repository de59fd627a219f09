/* Loaded before the C library, this makes the allocation with the number REFUSED_ALLOCATION fail, counted
   from 1. It then writes a byte to the descriptor REFUSAL_TOLD. */
void *__libc_malloc(unsigned long size);
void *__libc_realloc(void *from, unsigned long size);
char *getenv(const char *name);
long write(int to, const void *from, unsigned long size);

static long asked;

static long number_in(const char *name) {
    const char *text = getenv(name);
    long number = 0;
    while (text && *text >= '0' && *text <= '9') {
        number = 10 * number + (*text++ - '0');
    }
    return number;
}

static int is_refused(void) {
    if (++asked != number_in("REFUSED_ALLOCATION")) {
        return 0;
    }
    write((int)number_in("REFUSAL_TOLD"), "!", 1);
    return 1;
}

void *malloc(unsigned long size) { return is_refused() ? 0 : __libc_malloc(size); }

void *realloc(void *from, unsigned long size) {
    return is_refused() ? 0 : __libc_realloc(from, size);
}
