/* The adaptive equalizer, for C and C++. Samples are interleaved floats, real part first. Weights and window are the caller's, of equal length:
 * forward taps, then feedback taps, newest first in each. A slice is a pointer and its count of floats (of bytes for marks and numbers).
 *
 * Refusals: every call returns, with a refusal where it is not served, and a refused call leaves the record and all slices as they came. The reply
 *   has the first number that applies, in the order given at each call. A window of another length than the weights is 4 at eq_new, and 8 at
 *   eq_reset, eq_equalize and eq_reference.
 * Pointers must be valid for their count; a count of 0 still wants a pointer that is not null. A slice that a call writes (weights, window, output,
 *   marks, numbers) must not overlap any other slice of that call, or its behaviour is undefined: input and output may not be the same buffer. Who
 *   wants no marks or no numbers lends a slice for them all the same.
 * Threads: there is no global state, and no memory is asked for. Calls on different records and slices may run at once; the calls of one record come
 *   one after the other, each with the record that the last one replied.
 * Delay: the symbol of sample i belongs to the sample (forward taps - 1) / 2 earlier, that of the centre tap, where a blind start near the right level
 *   settles; its number goes with the symbol, its mark belongs to sample i itself. README has what that means after a gap.
 * Level: the points of each constellation have mean power 1. Bring the input near that level. */
#ifndef EQUALIZER_H
#define EQUALIZER_H

#include <stddef.h>
#include <stdint.h>

#define EQ_VERSION_MAJOR 0
#define EQ_VERSION_MINOR 2
#define EQ_VERSION_PATCH 0
#define EQ_VERSION "0.2.0"

#ifdef __cplusplus
extern "C" {
#endif

/* The mark of a sample: the first of 1, 2, 3, 4 that fits, or 0. */
enum eq_mark {
    EQ_HEARD = 0,    /* none of these: the symbol is finite */
    EQ_BLANK = 1,    /* the sample is not finite: its symbol is (0, 0) */
    EQ_SPILLED = 2,  /* the sample is finite, its filter sum is not: its symbol is (0, 0) */
    EQ_SILENT = 3,   /* the forward window has power 0: nothing adapts; the symbol need not be zero or finite */
    EQ_OFF_SCALE = 4 /* the symbol has a part that is not finite */
};

/* The number of a symbol with mark 0: the point that it is decided to. Levels are counted from the lowest, 0, and g is their Gray code.
 *   BPSK    1 if the real part is below 0, else 0
 *   QPSK    2 if the real part is below 0, plus 1 if the imaginary part is below 0
 *   8-PSK   0 to 7, counter-clockwise from the point at a sixteenth of a turn
 *   16-QAM  4 g of the real part's level, plus g of the imaginary part's; g of the levels 0 to 3 is 0 1 3 2
 *   64-QAM  8 g of the real part's level, plus g of the imaginary part's; g of the levels 0 to 7 is 0 1 3 2 6 7 5 4
 * A symbol with another mark has: */
#define EQ_NO_NUMBER 255

/* The number of a reply; eq_strerror has the same words. Lengths are in complex samples, of marks and numbers in bytes. */
enum eq_number {
    EQ_SERVED = 0,
    EQ_ODD = 1,       /* a complex slice has an odd count of floats */
    EQ_FEEDBACK = 2,  /* over 63 feedback taps */
    EQ_TAPS = 3,      /* forward taps even or outside 3 to 63, or fewer weights than feedback taps */
    EQ_WINDOW = 4,    /* the window's length is not the weights': expected, got */
    EQ_MU_CMA = 5,    /* mu_cma outside 0.00001 to 1 */
    EQ_MU_DD = 6,     /* mu_dd outside 0.00001 to 1 */
    EQ_BANDWIDTH = 7, /* the bandwidth is neither 0 nor 0.0001 to 0.2 */
    EQ_RECORD = 8,    /* the record breaks a rule, or a number of it stands for no constellation or mode */
    EQ_OUTPUT = 9,    /* the output's length is not the input's: expected, got */
    EQ_MARKS = 10,    /* the marks' length is not the input's: expected, got */
    EQ_NUMBERS = 13   /* the numbers' length is not the input's */
};

enum eq_constellation { EQ_BPSK = 0, EQ_QPSK = 1, EQ_PSK8 = 2, EQ_QAM16 = 3, EQ_QAM64 = 4 };

enum eq_mode { EQ_CMA = 0, EQ_DECISION = 1 };

/* The settings. */
typedef struct {
    double phase_bw;        /* bandwidth of the phase tracker; 0 switches it off */
    size_t feedback_taps;   /* 0 to 63 */
    uint32_t constellation; /* enum eq_constellation */
    float mu_cma;           /* step size of the blind mode */
    float mu_dd;            /* step size against decisions */
    uint32_t cma_symbols;   /* samples in the blind mode; 4294967295: all */
} EqSettings;

/* QPSK, no feedback taps: EqSettings settings = EQ_DEFAULT_SETTINGS; */
#define EQ_DEFAULT_SETTINGS {0.02, 0, EQ_QPSK, 0.05f, 0.02f, 1000}

/* The record: the settings and what runs along with the samples. */
typedef struct {
    EqSettings settings;
    float kp, ki;   /* the tracker's gains, from the bandwidth */
    uint32_t mode;  /* enum eq_mode */
    uint32_t count; /* samples seen in the blind mode */
    float mse;      /* mean error */
    uint32_t phase; /* a turn is 2^32 */
    float freq;     /* turns per sample */
} EqRecord;

/* What a call replies. */
typedef struct {
    EqRecord record; /* for the next call */
    uint32_t number; /* enum eq_number */
    size_t expected; /* the two lengths of 4, 9 and 10; else 0 */
    size_t got;
} EqReply;

/* A reply's number in words. */
static inline const char *eq_strerror(uint32_t number)
{
    switch (number) {
    case EQ_SERVED: return "served";
    case EQ_ODD: return "a complex slice has an odd count of floats";
    case EQ_FEEDBACK: return "over 63 feedback taps";
    case EQ_TAPS: return "forward taps even or outside 3 to 63, or fewer weights than feedback taps";
    case EQ_WINDOW: return "the window's length is not the weights'";
    case EQ_MU_CMA: return "mu_cma outside 0.00001 to 1";
    case EQ_MU_DD: return "mu_dd outside 0.00001 to 1";
    case EQ_BANDWIDTH: return "the bandwidth is neither 0 nor 0.0001 to 0.2";
    case EQ_RECORD: return "the record breaks a rule, or a number of it stands for no constellation or mode";
    case EQ_OUTPUT: return "the output's length is not the input's";
    case EQ_MARKS: return "the marks' length is not the input's";
    case EQ_NUMBERS: return "the numbers' length is not the input's";
    default: return "unknown number";
    }
}

/* A new equalizer: sets weights and window and replies its record, all zeros where it is refused. Forward taps are the weights less the feedback
 * taps. Refusals 1 to 7, and 8 for an unknown constellation, tried after 1. */
EqReply eq_new(EqSettings settings, float *weights, size_t weights_count, float *window, size_t window_count);

/* Back to the start, settings and gains kept. Refusals 1 and 8. */
EqReply eq_reset(EqRecord record, float *weights, size_t weights_count, float *window, size_t window_count);

/* Another step size. Refusals 8 for an unknown constellation or mode, and 5 or 6. */
EqReply eq_set_mu_cma(EqRecord record, float mu);
EqReply eq_set_mu_dd(EqRecord record, float mu);

/* The tracker's frequency: held to 0.125, below 1e-30 is 0, a NaN is 0. Refusal 8 for an unknown constellation or mode. */
EqReply eq_set_frequency(EqRecord record, float freq);

/* A block: a symbol, a mark and a number for each sample. Quick path without feedback taps, joint path with them, sample by sample where a block is
 * short: the answer is the same. A block may be empty, and the cut of a stream into blocks does not matter. Refusals 1, 8, 9, 10 and 13, in this order;
 * 13 comes without lengths. */
EqReply eq_equalize(EqRecord record, float *weights, size_t weights_count, float *window, size_t window_count,
                    const float *input, size_t input_count, float *output, size_t output_count, uint8_t *marks, size_t marks_count,
                    uint8_t *numbers, size_t numbers_count);

/* The same by the plain path. */
EqReply eq_reference(EqRecord record, float *weights, size_t weights_count, float *window, size_t window_count,
                     const float *input, size_t input_count, float *output, size_t output_count, uint8_t *marks, size_t marks_count,
                     uint8_t *numbers, size_t numbers_count);

#ifdef __cplusplus
}
#endif

#endif
