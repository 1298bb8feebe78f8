/* An equalizer for QPSK with 11 taps, a short block with a gap in it, and a refusal. From the top of the repository, after make:
 *   gcc -std=c11 -Wall -Wextra -O2 -Iinclude examples/c/main.c build/libequalizer.a -o build/example && build/example */
#include <math.h>
#include <stdio.h>

#include "equalizer.h"

enum { TAPS = 11, SAMPLES = 12 };

int main(void)
{
    static const char *const says[] = {
        [EQ_HEARD] = "heard", [EQ_BLANK] = "blank", [EQ_SPILLED] = "spilled", [EQ_SILENT] = "silent", [EQ_OFF_SCALE] = "off scale",
    };
    float weights[2 * TAPS], window[2 * TAPS], input[2 * SAMPLES], output[2 * SAMPLES];
    uint8_t marks[SAMPLES], numbers[SAMPLES];
    EqSettings settings = EQ_DEFAULT_SETTINGS;
    EqReply r = eq_new(settings, weights, 2 * TAPS, window, 2 * TAPS);
    if (r.number != EQ_SERVED) {
        printf("new: refused, number %u, %s\n", (unsigned)r.number, eq_strerror(r.number));
        return 1;
    }
    /* four points in turn, with an echo; one sample is lost */
    for (int i = 0; i < SAMPLES; i++) {
        float re = i % 4 < 2 ? 0.7f : -0.7f, im = i % 2 ? 0.7f : -0.7f;
        input[2 * i] = re + 0.2f * im;
        input[2 * i + 1] = im - 0.2f * re;
    }
    input[2 * 8] = NAN;

    r = eq_equalize(r.record, weights, 2 * TAPS, window, 2 * TAPS, input, 2 * SAMPLES, output, 2 * SAMPLES, marks, SAMPLES, numbers, SAMPLES);
    printf("equalize: %s, count %u, mean error %.4f\n", eq_strerror(r.number), (unsigned)r.record.count, r.record.mse);
    for (int i = 0; i < SAMPLES; i++) {
        printf("%2d  %8.5f %8.5f  %s", i, output[2 * i], output[2 * i + 1],
               marks[i] < sizeof says / sizeof *says ? says[marks[i]] : "unknown");
        if (numbers[i] != EQ_NO_NUMBER)
            printf(", point %u", (unsigned)numbers[i]);
        printf("\n");
    }

    /* one mark too few */
    r = eq_equalize(r.record, weights, 2 * TAPS, window, 2 * TAPS, input, 2 * SAMPLES, output, 2 * SAMPLES, marks, SAMPLES - 1, numbers, SAMPLES);
    printf("refused: number %u, %s: expected %zu, got %zu\n", (unsigned)r.number, eq_strerror(r.number), r.expected, r.got);
    return 0;
}
