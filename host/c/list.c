/* Runs the fixed list of calls and replies: list FILE. A line is a call's six words, what it returns, and the sum of what it
 * gives and of the record after it, each of 16 hex digits. Call 0 writes a word of the record. Each line is written anew from
 * what the library gave, so that two processors can be compared byte for byte. */
#include "calls.h"

int main(int argc, char **argv) {
    FILE *file = argc == 2 ? fopen(argv[1], "r") : NULL;
    if (file == NULL) {
        fprintf(stderr, "usage: list FILE\n");
        return 2;
    }
    word record[58] = {0}, w[8], lines = 0, wrong = 0;
    for (;;) {
        int n = 0;
        while (n < 8 && fscanf(file, "%" SCNx64, &w[n]) == 1)
            n++;
        if (n == 0)
            break;
        lines++;
        struct call c = {w[0], {w[1], w[2], w[3], w[4], w[5]}};
        struct reply r = {0};
        if (n != 8 || (c.kind == 0 && c.n[0] > 57)) {
            fprintf(stderr, "line %" PRIu64 " is unfit\n", lines);
            return 1;
        }
        if (c.kind == 0)
            record[c.n[0]] = c.n[1];
        else
            r = make(record, &c);
        word sum = sum_given(0, record, &r);
        for (int i = 0; i < 6; i++)
            printf("%016" PRIx64 " ", w[i]);
        printf("%016" PRIx64 " %016" PRIx64 "\n", r.code, sum);
        if (r.code != w[6] || sum != w[7])
            wrong++;
    }
    fclose(file);
    fprintf(stderr, "%" PRIu64 " lines, %" PRIu64 " wrong\n", lines, wrong);
    return wrong == 0 && lines > 0 ? 0 : 1;
}
