/* Times `prophesee_resume_words` against `prophesee_decoder_after` over the same words, the best of 9 runs each, in turn.
 *   cc -O2 -Iinclude tools/resume_bench.c ARCHIVE -o target/resume_bench && target/resume_bench RECORDING..
 * A recording's first 64 MiB are taken; its header names the encoding. Prints a line for each. */
#define _POSIX_C_SOURCE 200809L
#include "prophesee_raw.h"
#include <stdio.h>
#include <stdlib.h>
#include <time.h>

enum { RUNS = 9, MOST = 64 << 20 };

static double now(void)
{
    struct timespec t;
    clock_gettime(CLOCK_MONOTONIC, &t);
    return (double)t.tv_sec * 1e3 + (double)t.tv_nsec / 1e6;
}

static void time_both(const char *name, const uint8_t *words, size_t len, uint32_t encoding)
{
    double resume = 1e9, after = 1e9;
    uint64_t held = 0;
    for (int run = 0; run < RUNS; run++) {
        double a = now();
        prophesee_stepped s = prophesee_decoder_after(prophesee_new_decoder(encoding), words, len);
        double b = now();
        prophesee_resumed r = prophesee_resume_words(words, len, encoding);
        double c = now();
        after = b - a < after ? b - a : after;
        resume = c - b < resume ? c - b : resume;
        held += s.decoder.time_base + r.sink.time_high + r.refusal + s.refusal;
    }
    printf("%s: resume_words %.2f ms, decoder_after %.2f ms, ratio %.3f (%llu)\n", name, resume, after, resume / after, (unsigned long long)held);
}

int main(int argc, char **argv)
{
    uint8_t *bytes = malloc(MOST);
    for (int i = 1; i < argc && bytes; i++) {
        FILE *f = fopen(argv[i], "rb");
        size_t n = f ? fread(bytes, 1, MOST, f) : 0;
        prophesee_header h = prophesee_parse_header(bytes, n, 1, 1, 1);
        if (f)
            fclose(f);
        if (h.refusal)
            return 1;
        time_both(argv[i], bytes + h.data_offset, n - h.data_offset, h.encoding);
    }
    return 0;
}
