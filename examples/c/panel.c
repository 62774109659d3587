/* A list of events on a panel: rows arrive and the list stays on its last entry. A row that arrives with a touch sample that
 * is not a number is refused with it, and shown once the frame is run again without its input. Then a table for the decay is
 * loaded and serves; somebody flicks the list, which coasts until it rests; the clock is set back; a wheel is turned at the
 * end of a list; and two lists keep their states in one drawer. */
#include <inttypes.h>
#include <math.h>
#include <stdio.h>
#include <string.h>

#include "strakobud.h"

/* Words are numbered from 1, as in the header. */
static void put_word(uint8_t *record, int number, uint32_t word)
{
    for (int i = 0; i < 4; i++)
        record[4 * (number - 1) + i] = (uint8_t)(word >> (8 * i));
}

static void put_number(uint8_t *record, int number, float x)
{
    uint32_t word;
    memcpy(&word, &x, sizeof word);
    put_word(record, number, word);
}

static void put_time(uint8_t *record, int number, double x)
{
    uint64_t bits;
    memcpy(&bits, &x, sizeof bits);
    put_word(record, number, (uint32_t)bits);
    put_word(record, number + 1, (uint32_t)(bits >> 32));
}

static uint32_t word_at(const uint8_t *record, int number)
{
    uint32_t word = 0;
    for (int i = 3; i >= 0; i--)
        word = word << 8 | record[4 * (number - 1) + i];
    return word;
}

static float number_at(const uint8_t *record, int number)
{
    uint32_t word = word_at(record, number);
    float x;
    memcpy(&x, &word, sizeof x);
    return x;
}

/* A list 200 by 100 points, vertical only, that sticks to its end and holds content of that height. */
static void list_frame(uint8_t *frame, float content_height)
{
    memset(frame, 0, STRAKOBUD_FRAME_BYTES);
    put_word(frame, 2, 1); /* direction_enabled y */
    put_word(frame, 3, 1); /* auto_shrink x, y */
    put_word(frame, 4, 1);
    put_number(frame, 5, INFINITY); /* max_size x, y */
    put_number(frame, 6, INFINITY);
    put_number(frame, 7, 64); /* min_scrolled_size x, y */
    put_number(frame, 8, 64);
    put_word(frame, 25, 1); /* stick_to_end y */
    put_word(frame, 27, 1); /* floating bars */
    put_number(frame, 37, 1); /* decay_time */
    put_number(frame, 38, 1); /* stop_distance */
    put_number(frame, 42, 200); /* available rectangle, then clip: max x, max y */
    put_number(frame, 43, 100);
    put_number(frame, 46, 200);
    put_number(frame, 47, 100);
    put_number(frame, 82, 180); /* content size x, y */
    put_number(frame, 83, content_height);
    put_number(frame, 88, 1); /* points per second of the scroll delta */
}

/* The frame without what a hand or a program asks of the list. */
static void clear_input(uint8_t *frame)
{
    static const int input[] = {15, 17, 54, 57, 58, 59, 60, 61, 62, 64, 65, 74, 79, 86, 87, 91, 98};
    for (size_t i = 0; i < sizeof input / sizeof input[0]; i++)
        put_word(frame, input[i], 0);
}

static void show(const char *what, uint32_t refusal, const uint8_t *state)
{
    uint8_t offset[8];
    if (strakobud_offset(state, offset) == 0)
        printf("%s: refusal %" PRIu32 ", shown offset %.1f\n", what, refusal, number_at(offset, 2));
}

/* What a maker ships; here the built-in table stands for it. */
static uint8_t shipped[STRAKOBUD_TABLE_BYTES], table[STRAKOBUD_TABLE_BYTES];

static void load(const char *what)
{
    printf("%s: load %" PRIu32 "\n", what, strakobud_table_load(shipped, sizeof shipped, table));
}

/* The list is pulled down by 30 points and let go. */
static void flick(uint8_t *state, uint8_t *frame)
{
    uint8_t out[STRAKOBUD_OUT_BYTES];
    put_word(frame, 20, 2); /* a drag always scrolls */
    put_word(frame, 48, 1); /* enabled */
    put_number(frame, 51, 1.0f / 60); /* stable_dt */
    put_word(frame, 61, 1); /* dragged, by */
    put_number(frame, 58, 30);
    show("pulled", strakobud_frame(state, frame, STRAKOBUD_FRAME_BYTES, out), state);
    clear_input(frame);
    put_word(frame, 62, 1); /* drag stopped, at points per second of */
    put_number(frame, 60, 300);
    show("let go", strakobud_frame(state, frame, STRAKOBUD_FRAME_BYTES, out), state);
    clear_input(frame);
}

/* Frames of a sixtieth of a second until the list rests, at most 10,000; with all of them used it may not rest yet. */
static void settle(uint8_t *state, const uint8_t *frame)
{
    const uint32_t limit = 10000;
    uint8_t run[STRAKOBUD_RUN_BYTES], used[STRAKOBUD_USED_BYTES] = {0};
    char what[40];
    put_time(run, 1, 1.0 / 60);
    put_word(run, 3, limit);
    uint32_t refusal = strakobud_settle(state, frame, STRAKOBUD_FRAME_BYTES, run, used);
    uint32_t frames = word_at(used, 1);
    snprintf(what, sizeof what, "%" PRIu32 " frames%s", frames, frames < limit ? " until it rests" : "");
    show(what, refusal, state);
}

/* The run has moved the time on; the next frame is at 0 again. */
static void set_back(uint8_t *state, const uint8_t *frame)
{
    uint8_t out[STRAKOBUD_OUT_BYTES];
    show("the clock set back", strakobud_frame(state, frame, STRAKOBUD_FRAME_BYTES, out), state);
    strakobud_reset(state);
    show("after a reset", strakobud_frame(state, frame, STRAKOBUD_FRAME_BYTES, out), state);
}

/* A turn of the wheel at the end of a list that scrolls over 300 points: does the list take it, or what encloses the list? */
static void turn(const char *what, float delta)
{
    uint8_t call[52] = {0}, out[16];
    put_number(call, 2, 300); /* bounds 0 to 300 */
    put_number(call, 3, 100); /* extent */
    put_number(call, 4, 1); /* decay_time */
    put_number(call, 5, 1); /* stop_distance */
    put_number(call, 7, 300); /* offset */
    put_number(call, 9, delta);
    put_word(call, 10, 2); /* of a wheel */
    put_word(call, 11, 1); /* something encloses the list */
    uint32_t refusal = strakobud_wheel(call, out);
    printf("a turn %s: refusal %" PRIu32 ", %s\n", what, refusal, word_at(out, 4) ? "taken" : "left to the parent");
}

/* Three records, the first of them the drawer's own, so room for two lists. */
static uint8_t drawer[3 * STRAKOBUD_DRAWER_RECORD_BYTES];

enum { EVENTS = 1, ALARMS = 2, TRENDS = 3 };

/* A frame of the list with that id: its state from the drawer, or the fresh one, which stays where the id is not there. */
static void frame_of(uint64_t id, const char *what, float content_height)
{
    uint8_t state[STRAKOBUD_STATE_BYTES], frame[STRAKOBUD_FRAME_BYTES], out[STRAKOBUD_OUT_BYTES];
    list_frame(frame, content_height);
    strakobud_fresh(state);
    uint32_t load = strakobud_drawer_load(drawer, sizeof drawer, id, state);
    uint32_t refusal = strakobud_frame(state, frame, sizeof frame, out);
    uint32_t save = strakobud_drawer_save(drawer, sizeof drawer, id, state);
    char line[40];
    snprintf(line, sizeof line, "%s (load %" PRIu32 ", save %" PRIu32 ")", what, load, save);
    show(line, refusal, state);
}

static void keep_two(void)
{
    uint8_t before[STRAKOBUD_STATE_BYTES], after[STRAKOBUD_STATE_BYTES];
    printf("a drawer: lay %" PRIu32 "\n", strakobud_drawer_lay(drawer, sizeof drawer));
    frame_of(EVENTS, "20 events", 400);
    frame_of(ALARMS, "6 alarms", 120);
    strakobud_drawer_load(drawer, sizeof drawer, ALARMS, before);
    frame_of(EVENTS, "21 events", 420);
    strakobud_drawer_load(drawer, sizeof drawer, ALARMS, after);
    printf("the alarms: %s\n", memcmp(before, after, sizeof after) == 0 ? "as they were" : "touched");
    frame_of(TRENDS, "a third list", 400);
    printf("the events: forget %" PRIu32, strakobud_drawer_forget(drawer, sizeof drawer, EVENTS));
    printf(", load %" PRIu32 "\n", strakobud_drawer_load(drawer, sizeof drawer, EVENTS, after));
}

int main(void)
{
    uint8_t state[STRAKOBUD_STATE_BYTES], frame[STRAKOBUD_FRAME_BYTES], out[STRAKOBUD_OUT_BYTES];
    strakobud_fresh(state);

    list_frame(frame, 400);
    show("20 rows", strakobud_frame(state, frame, sizeof frame, out), state);
    list_frame(frame, 420);
    show("21 rows", strakobud_frame(state, frame, sizeof frame, out), state);

    list_frame(frame, 440);
    put_word(frame, 61, 1); /* dragged, by */
    put_number(frame, 58, NAN); /* a pointer delta that is not a number */
    show("22 rows, a bad sample", strakobud_frame(state, frame, sizeof frame, out), state);
    printf("its bad word: %" PRIu32 "\n", strakobud_bad_word(frame, sizeof frame));
    clear_input(frame);
    show("the same without input", strakobud_frame(state, frame, sizeof frame, out), state);
    show("a short frame", strakobud_frame(state, frame, 100, out), state);

    strakobud_table_t(shipped);
    load("a table");
    list_frame(frame, 460);
    show("23 rows, by the table", strakobud_frame_by(state, frame, sizeof frame, table, out), state);
    shipped[0] = 1; /* its first entry is no longer 2^40 */
    load("a damaged table");

    flick(state, frame);
    settle(state, frame);
    set_back(state, frame);
    turn("past the end", 8);
    turn("back", -8);
    keep_two();
    return 0;
}
