/*
 * parts ROUNDS FILE..: ns a byte of oq3_tokenize on the whole text, and of oq3_feed and oq3_finish on its chunks of 1, 16, 1,024 and 65,536 bytes, with
 * no carry and with one of 4,096 bytes; the least of ROUNDS. Each way is seen to give as many records as oq3_tokenize.
 *
 *     cc -O2 -I include bench/parts.c LIBS/libabi.a -o OUT
 */
#include "oq3.h"
#include <stdio.h>
#include <stdlib.h>
#include <time.h>

static double now(void)
{
    struct timespec t;
    clock_gettime(CLOCK_PROCESS_CPUTIME_ID, &t);
    return t.tv_sec * 1e9 + t.tv_nsec;
}

static uint64_t fed(const uint8_t *text, size_t n, size_t by, uint8_t *carry, size_t carry_len, uint32_t *list, size_t words)
{
    uint64_t count = 0;
    oq3_lexer lexer = oq3_start(OQ3_DEFAULT_PROFILE);
    for (size_t at = 0; at < n; at += by) {
        oq3_fed f = oq3_feed(lexer, text + at, n - at < by ? n - at : by, carry, carry_len, list, words);
        lexer = f.lexer;
        count += f.answer.also;
        if (f.answer.number != 0)
            return 0;
    }
    oq3_fed f = oq3_finish(lexer, carry, carry_len, list, words);
    return f.answer.number == 0 ? count + f.answer.also : 0;
}

int main(int argc, char **argv)
{
    static const size_t by[] = {1, 16, 1024, 65536};
    static uint8_t carry[4096];
    int rounds = atoi(argv[1]);
    printf("%-24s %8s %8s %8s %8s %8s %8s %8s\n", "ns a byte", "whole", "1", "16", "1024", "65536", "16+carry", "1024+carry");
    for (int i = 2; i < argc; i++) {
        FILE *f = fopen(argv[i], "rb");
        fseek(f, 0, SEEK_END);
        size_t n = ftell(f);
        rewind(f);
        uint8_t *text = malloc(n + 1);
        if (fread(text, 1, n, f) != n)
            return 1;
        fclose(f);
        size_t words = OQ3_WORDS * (n + 5);
        uint32_t *list = malloc(words * sizeof *list);
        double best[7];
        uint64_t count = 0;
        for (int k = 0; k < 7; k++)
            best[k] = 1e300;
        for (int r = 0; r < rounds; r++)
            for (int k = 0; k < 7; k++) {
                double a = now();
                uint64_t c = k == 0 ? oq3_tokenize(text, n, OQ3_DEFAULT_PROFILE, list, words).also
                           : k < 5  ? fed(text, n, by[k - 1], carry, 0, list, words)
                                    : fed(text, n, by[k - 4], carry, sizeof carry, list, words);
                a = now() - a;
                if (a < best[k])
                    best[k] = a;
                if (k == 0)
                    count = c;
                else if (c != count)
                    return printf("%s: %llu records and %llu\n", argv[i], (unsigned long long)c, (unsigned long long)count), 1;
            }
        printf("%-24s", argv[i]);
        for (int k = 0; k < 7; k++)
            printf(" %8.2f", best[k] / n);
        printf("\n");
        free(text);
        free(list);
    }
    return 0;
}
