/* Random calls on the library, and the sum of what they gave: random SEED CALLS. */
#include "calls.h"

int main(int argc, char **argv) {
    if (argc != 3) {
        fprintf(stderr, "usage: random SEED CALLS\n");
        return 2;
    }
    word seed = strtoull(argv[1], NULL, 10), calls = strtoull(argv[2], NULL, 10), sum = 0;
    if (calls == 0) {
        fprintf(stderr, "random: CALLS is a number, 1 or more\n");
        return 2;
    }
    word record[58] = {0};
    state = seed;
    for (word i = 0; i < calls; i++) {
        struct call c = next_call(record);
        struct reply r = make(record, &c);
        sum = sum_call(sum, record, &r);
    }
    printf("seed %" PRIu64 ": %" PRIu64 " calls, sum %016" PRIx64 "\n", seed, calls, sum);
    return 0;
}
