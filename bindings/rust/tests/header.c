/* What include/equalizer.h says, a line for each fact: tests/header.rs holds the Rust to it. */
#include <stdio.h>

#include "equalizer.h"

#define KIND(x) _Generic((x), double: "f64", float: "f32", uint32_t: "u32", size_t: "usize", EqSettings: "EqSettings", EqRecord: "EqRecord")
#define WHOLE(T) printf(#T " %zu %zu\n", sizeof(T), _Alignof(T))
#define FIELD(T, f) printf(#T "." #f " %zu %s\n", offsetof(T, f), KIND(((T *)0)->f))
#define NUMBER(n) printf(#n " %d\n", n)

int main(void)
{
    EqSettings s = EQ_DEFAULT_SETTINGS;

    WHOLE(EqSettings);
    FIELD(EqSettings, phase_bw);
    FIELD(EqSettings, feedback_taps);
    FIELD(EqSettings, constellation);
    FIELD(EqSettings, mu_cma);
    FIELD(EqSettings, mu_dd);
    FIELD(EqSettings, cma_symbols);
    WHOLE(EqRecord);
    FIELD(EqRecord, settings);
    FIELD(EqRecord, kp);
    FIELD(EqRecord, ki);
    FIELD(EqRecord, mode);
    FIELD(EqRecord, count);
    FIELD(EqRecord, mse);
    FIELD(EqRecord, phase);
    FIELD(EqRecord, freq);
    WHOLE(EqReply);
    FIELD(EqReply, record);
    FIELD(EqReply, number);
    FIELD(EqReply, expected);
    FIELD(EqReply, got);

    NUMBER(EQ_HEARD);
    NUMBER(EQ_BLANK);
    NUMBER(EQ_SPILLED);
    NUMBER(EQ_SILENT);
    NUMBER(EQ_OFF_SCALE);
    NUMBER(EQ_NO_NUMBER);
    NUMBER(EQ_BPSK);
    NUMBER(EQ_QPSK);
    NUMBER(EQ_PSK8);
    NUMBER(EQ_QAM16);
    NUMBER(EQ_QAM64);
    NUMBER(EQ_CMA);
    NUMBER(EQ_DECISION);
    NUMBER(EQ_SERVED);
    NUMBER(EQ_ODD);
    NUMBER(EQ_FEEDBACK);
    NUMBER(EQ_TAPS);
    NUMBER(EQ_WINDOW);
    NUMBER(EQ_MU_CMA);
    NUMBER(EQ_MU_DD);
    NUMBER(EQ_BANDWIDTH);
    NUMBER(EQ_RECORD);
    NUMBER(EQ_OUTPUT);
    NUMBER(EQ_MARKS);
    NUMBER(EQ_NUMBERS);

    /* digits enough for the same float again */
    printf("default %.17g %zu %u %.9g %.9g %u\n", s.phase_bw, s.feedback_taps, (unsigned)s.constellation, s.mu_cma, s.mu_dd, (unsigned)s.cma_symbols);
    printf("version %s %d.%d.%d\n", EQ_VERSION, EQ_VERSION_MAJOR, EQ_VERSION_MINOR, EQ_VERSION_PATCH);
    for (unsigned n = 0; n <= 14; n++)
        printf("words.%u %s\n", n, eq_strerror(n));
    printf("words.4294967295 %s\n", eq_strerror(4294967295u));
    return 0;
}
