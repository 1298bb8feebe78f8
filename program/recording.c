/* Makes the recording of the program's tests, and reads what the program makes of it.
 *   recording make SAMPLES MARKS       writes 13,000 samples and the marks that they get
 *   recording numbers SYMBOLS MARKS NUMBERS [OPTION]..
 *                                      writes the numbers of the points nearest to these symbols, 255 where the mark is not 0; the options are the program's
 *   recording text SYMBOLS MARKS NUMBERS
 *                                      exits with 0 where the lines `re im mark number` on standard input are those symbols, marks and numbers
 * The samples are QPSK through an echo, with dropouts in the first 4,096 samples, across their end and among the last. Nothing spills. */
#include <math.h>
#include <stdint.h>
#include <stdio.h>
#include <stdlib.h>
#include <string.h>

enum { SAMPLES = 13000 };

static uint32_t seed = 20261117;

static uint32_t drawn(void)
{
    seed = seed * 1664525u + 1013904223u;
    return seed >> 16;
}

static int lost(int i)
{
    return (i >= 100 && i < 200) || (i >= 4090 && i < 4110) || i == 8191 || i == 9000 || (i >= 12600 && i < 12650);
}

static void put(FILE *f, float x)
{
    uint32_t w;
    memcpy(&w, &x, 4);
    for (int k = 0; k < 4; k++)
        putc((int)(w >> 8 * k & 255), f);
}

static float get(FILE *f)
{
    uint32_t w = 0;
    float x;
    for (int k = 0; k < 4; k++)
        w |= (uint32_t)getc(f) << 8 * k;
    memcpy(&x, &w, 4);
    return x;
}

static int make(FILE *samples, FILE *marks)
{
    float re = 0, im = 0, before_re, before_im;
    for (int i = 0; i < SAMPLES; i++) {
        before_re = re, before_im = im;
        re = drawn() & 1 ? 0.70710678f : -0.70710678f;
        im = drawn() & 1 ? 0.70710678f : -0.70710678f;
        float noise_re = (float)((int)drawn() - 32768) / 1048576.0f, noise_im = (float)((int)drawn() - 32768) / 1048576.0f;
        float x = re + 0.25f * before_im + noise_re, y = im - 0.25f * before_re + noise_im;
        if (lost(i)) {
            x = i % 3 == 0 ? INFINITY : i % 3 == 1 ? NAN : x;
            y = i % 3 == 2 ? -INFINITY : y;
        }
        put(samples, x);
        put(samples, y);
        putc(lost(i), marks);
    }
    return fclose(samples) == 0 && fclose(marks) == 0;
}

static int same(float x, const char *word)
{
    char *end;
    float y = strtof(word, &end);
    return *end == 0 && (x == y ? signbit(x) == signbit(y) : isnan(x) && isnan(y));
}

/* the Gray code of the nearest of m levels, which lie 2 apart where v is multiplied by scale */
static int code(double v, int m, double scale)
{
    double place = floor(v * scale / 2 + m / 2.0);
    int level = place < 0 ? 0 : place > m - 1 ? m - 1 : (int)place;
    return level ^ level >> 1;
}

static int number(const char *constellation, double re, double im)
{
    if (strcmp(constellation, "bpsk") == 0)
        return re < 0;
    if (strcmp(constellation, "qpsk") == 0)
        return 2 * (re < 0) + (im < 0);
    if (strcmp(constellation, "8psk") == 0)
        return (int)floor(atan2(im, re) * 4 / acos(-1)) & 7;
    if (strcmp(constellation, "16qam") == 0)
        return 4 * code(re, 4, sqrt(10)) + code(im, 4, sqrt(10));
    if (strcmp(constellation, "64qam") == 0)
        return 8 * code(re, 8, sqrt(42)) + code(im, 8, sqrt(42));
    exit(2);
}

static int numbers(FILE *symbols, FILE *marks, FILE *out, char **options)
{
    const char *constellation = "qpsk";
    for (; *options; options++)
        if (strcmp(*options, "--constellation") == 0 && options[1])
            constellation = options[1];
    int mark;
    while ((mark = getc(marks)) != EOF) {
        float x = get(symbols), y = get(symbols);
        putc(mark ? 255 : number(constellation, x, y), out);
    }
    return fclose(out) == 0;
}

static int text(FILE *symbols, FILE *marks, FILE *numbered)
{
    char re[64], im[64];
    int mark, point, lines = 0;
    while (scanf("%63s %63s %d %d", re, im, &mark, &point) == 4) {
        float x = get(symbols), y = get(symbols);
        if (!same(x, re) || !same(y, im) || getc(marks) != mark || getc(numbered) != point) {
            fprintf(stderr, "line %d is another symbol\n", lines + 1);
            return 0;
        }
        lines++;
    }
    return lines == SAMPLES;
}

static FILE *opened(const char *name, const char *how)
{
    FILE *f = fopen(name, how);
    if (!f)
        exit(2);
    return f;
}

int main(int count, char **words)
{
    if (count == 4 && strcmp(words[1], "make") == 0)
        return !make(opened(words[2], "wb"), opened(words[3], "wb"));
    if (count >= 5 && strcmp(words[1], "numbers") == 0)
        return !numbers(opened(words[2], "rb"), opened(words[3], "rb"), opened(words[4], "wb"), words + 5);
    if (count == 5 && strcmp(words[1], "text") == 0)
        return !text(opened(words[2], "rb"), opened(words[3], "rb"), opened(words[4], "rb"));
    return 2;
}
