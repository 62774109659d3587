/* Runs frames from standard input, one after another from a fresh state, and prints how many of them trap where division by zero,
 * invalid operation and overflow are unmasked, by the frame's answer; and how many of these had a scroll target under way. Each
 * frame is run once for each exception on a copy of the state, and then with all masked, so that the list goes on. Fails if an
 * accepted frame without a scroll target under way divides by zero, or if nothing traps here at all. */
#define _GNU_SOURCE
#include <fenv.h>
#include <float.h>
#include <inttypes.h>
#include <setjmp.h>
#include <signal.h>
#include <stdio.h>
#include <string.h>

#include "strakobud.h"

/* The last answer of a frame is 12. */
enum { DIVISION, INVALID, OVERFLOW, KINDS, ANSWERS = 13 };

static const int EXCEPTIONS[KINDS] = {[DIVISION] = FE_DIVBYZERO, [INVALID] = FE_INVALID, [OVERFLOW] = FE_OVERFLOW};
static const char *const NAMES[KINDS] = {[DIVISION] = "division by zero", [INVALID] = "invalid operation", [OVERFLOW] = "overflow"};

struct count {
    uint64_t trapped, with_target;
};

static sigjmp_buf at_trap;

static void on_trap(int signal)
{
    (void)signal;
    siglongjmp(at_trap, 1);
}

/* Whether the frame traps at that exception. The state is left as it was. */
static int traps(const uint8_t *state, const uint8_t *frame, size_t len, int exception)
{
    uint8_t copy[STRAKOBUD_STATE_BYTES], out[STRAKOBUD_OUT_BYTES];
    volatile int trapped = 0;
    memcpy(copy, state, sizeof copy);
    feclearexcept(FE_ALL_EXCEPT);
    if (sigsetjmp(at_trap, 1) == 0) {
        feenableexcept(exception);
        strakobud_frame(copy, frame, len, out);
    } else {
        trapped = 1;
    }
    fedisableexcept(FE_ALL_EXCEPT);
    return trapped;
}

/* Whether a division that is known to raise the exception traps. */
static int control_traps(float dividend, float divisor, int exception)
{
    volatile float x = dividend, y = divisor;
    volatile int trapped = 0;
    if (sigsetjmp(at_trap, 1) == 0) {
        feenableexcept(exception);
        x = x / y;
    } else {
        trapped = 1;
    }
    fedisableexcept(FE_ALL_EXCEPT);
    return trapped;
}

/* Words 5 and 11 of a state, counted from 1, are the flags of its scroll targets. */
static int has_target(const uint8_t *state)
{
    return state[4 * (5 - 1)] == 1 || state[4 * (11 - 1)] == 1;
}

static void show(uint32_t answer, uint64_t frames, const struct count *counts)
{
    printf("answer %" PRIu32 ": %" PRIu64 " frames", answer, frames);
    for (int kind = 0; kind < KINDS; kind++)
        if (counts[kind].trapped > 0)
            printf("; %s in %" PRIu64 ", %" PRIu64 " of them with a scroll target under way", NAMES[kind], counts[kind].trapped,
                   counts[kind].with_target);
    printf("\n");
}

int main(void)
{
    uint8_t state[STRAKOBUD_STATE_BYTES], frame[STRAKOBUD_FRAME_BYTES], out[STRAKOBUD_OUT_BYTES];
    uint64_t frames[ANSWERS] = {0};
    struct count counts[ANSWERS][KINDS] = {{{0, 0}}};
    size_t len;

    signal(SIGFPE, on_trap);
    if (!control_traps(1, 0, FE_DIVBYZERO) || !control_traps(0, 0, FE_INVALID) || !control_traps(FLT_MAX, FLT_MIN, FE_OVERFLOW)) {
        printf("exceptions do not trap here\n");
        return 1;
    }
    strakobud_fresh(state);
    while ((len = fread(frame, 1, sizeof frame, stdin)) > 0) {
        int trapped[KINDS], target = has_target(state);
        for (int kind = 0; kind < KINDS; kind++)
            trapped[kind] = traps(state, frame, len, EXCEPTIONS[kind]);
        uint32_t answer = strakobud_frame(state, frame, len, out);
        frames[answer]++;
        for (int kind = 0; kind < KINDS; kind++) {
            counts[answer][kind].trapped += trapped[kind];
            counts[answer][kind].with_target += trapped[kind] && target;
        }
    }
    for (uint32_t answer = 0; answer < ANSWERS; answer++)
        if (frames[answer] > 0)
            show(answer, frames[answer], counts[answer]);
    return counts[0][DIVISION].trapped > counts[0][DIVISION].with_target;
}
