/* What the header's structs are in memory, where size_t has 8 bytes: those of the library and of bindings/rust must agree with it. Nothing is run, it
 * passes if it compiles, as C and as C++. From the top of the repository:
 *   gcc -std=c11 -Wall -Wextra -Wpedantic -Werror -Iinclude -fsyntax-only examples/c/layout.c
 *   g++ -std=c++17 -Wall -Wextra -Wpedantic -Werror -Iinclude -fsyntax-only examples/c/layout.c */
#include <assert.h>
#include <stdalign.h>
#include <stddef.h>

#include "equalizer.h"
#include "equalizer.h" /* twice does no harm */

static_assert(sizeof(size_t) == 8 && sizeof(double) == 8 && sizeof(float) == 4, "the machine's own");

static_assert(sizeof(EqSettings) == 32 && alignof(EqSettings) == 8, "EqSettings");
static_assert(offsetof(EqSettings, phase_bw) == 0, "phase_bw");
static_assert(offsetof(EqSettings, feedback_taps) == 8, "feedback_taps");
static_assert(offsetof(EqSettings, constellation) == 16, "constellation");
static_assert(offsetof(EqSettings, mu_cma) == 20, "mu_cma");
static_assert(offsetof(EqSettings, mu_dd) == 24, "mu_dd");
static_assert(offsetof(EqSettings, cma_symbols) == 28, "cma_symbols");

static_assert(sizeof(EqRecord) == 64 && alignof(EqRecord) == 8, "EqRecord");
static_assert(offsetof(EqRecord, settings) == 0, "settings");
static_assert(offsetof(EqRecord, kp) == 32, "kp");
static_assert(offsetof(EqRecord, ki) == 36, "ki");
static_assert(offsetof(EqRecord, mode) == 40, "mode");
static_assert(offsetof(EqRecord, count) == 44, "count");
static_assert(offsetof(EqRecord, mse) == 48, "mse");
static_assert(offsetof(EqRecord, phase) == 52, "phase");
static_assert(offsetof(EqRecord, freq) == 56, "freq");

static_assert(sizeof(EqReply) == 88 && alignof(EqReply) == 8, "EqReply");
static_assert(offsetof(EqReply, record) == 0, "record");
static_assert(offsetof(EqReply, number) == 64, "number");
static_assert(offsetof(EqReply, expected) == 72, "expected");
static_assert(offsetof(EqReply, got) == 80, "got");

static_assert(EQ_NO_NUMBER == UINT8_MAX, "in a byte");

/* an initializer in both languages */
EqSettings layout_settings = EQ_DEFAULT_SETTINGS;
