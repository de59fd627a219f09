#include <math.h>
#include <stdio.h>
#include <stdlib.h>
#include <string.h>

static int by_length(const void *a, const void *b) {
    size_t n = strlen(*(char *const *)a), m = strlen(*(char *const *)b);
    return n < m ? -1 : n > m;
}

int main(int argc, char **argv) {
    double sum = 0;
    qsort(argv, argc, sizeof *argv, by_length);
    for (int k = 0; k < argc; k++) {
        switch (argv[k][0]) {
        case 's': sum += sin(atof(argv[k] + 1)); break;
        case 'p': sum += pow(2, strtol(argv[k] + 1, 0, 16)); break;
        case 'n': sum -= strtoull(argv[k] + 1, 0, 10) % 1000003; break;
        default: printf("%s %zu\n", argv[k], strlen(argv[k]));
        }
    }
    printf("%.17g\n", sum);
    return 0;
}
