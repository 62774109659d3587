/* Strakobud: a scrolling core whose every answer is proved.
 *
 * Every record is a row of 32-bit words, each in four bytes, the lowest first. A number is the word of its IEEE 754
 * binary32 bits; a time is two words, the low one first, of its binary64 bits; a flag is 0 or 1. Pairs and points stand
 * as x, y; rectangles as min x, min y, max x, max y. An option is a flag and then its words: ignored when read and zeros
 * when written where the flag is 0.
 *
 * No call allocates, keeps a pointer, or touches anything but what it is handed. The buffers of one call must not
 * overlap, must have at least the lengths named (a frame, a drawer: len bytes), and nobody else may write them
 * meanwhile. Alignment does not matter. Calls on different buffers may run in different threads. The floating-point
 * environment must be the usual one: rounding to nearest even, no flush to zero, exceptions masked. No call changes it,
 * but for its status flags. The stack that the calls take is measured (README), not proved.
 *
 * Every answer, but for that of strakobud_bad_word, is 0 or the number of a refusal:
 *   1  the frame is not 416 bytes long
 *   2  a flag is not 0 or 1, or a kind is outside its values
 *   3  a number is not finite or exceeds 1,048,576 in magnitude (max_size and points per second may be +infinity; the
 *      time is from 0 to 2^32)
 *   4  an end lies below its start, a size is negative, or a factor is outside 0 to 1
 *   5  decay_time is outside 1/1,024 to 1,024, stop_distance is negative, or points per second is not above 0
 *   6  the state holds a number that is not finite, or a flag that is not 0 or 1
 *   7  a press beside a handle for which the bar has no room
 *   8  a number among the outputs is not finite
 *  12  the frame's time is less than that of the last accepted frame, which the state remembers
 * The lowest that applies is answered, but that 12 goes before 7; so 1 to 6, 12, 7, 8. A word inside an option whose
 * flag is 0 is not looked at.
 *
 * And of a settling run, after 6 and before 12, ahead of its first frame:
 *   9  the limit is 0 or above 10,000, the increment is not from 0 to 1, or the frame moves an axis by hand or program: a
 *      flag in words 15, 17, 61, 62, 74, 79, 91 or 98 is 1, or a number in words 64, 65, 86 or 87 is not 0, heeded or not
 *
 * And of a table, when it is loaded:
 *  10  it is not 8,200 bytes long
 *  11  its first entry is not 2^40, or an entry is above the one before it
 *
 * And of a drawer, in this order; a save tries 6 ahead of them, on the flags of its state alone:
 *  13  it is not a drawer: its length is not 1 to 65,536 whole records; it names another record length; its chains run
 *      out of it, meet, circle or miss a record; it holds an id twice or under the wrong head, or a state with a flag
 *      that is not 0 or 1
 *  14  the id that is to be loaded or forgotten is not there
 *  15  the id that is to be saved is new, and no record is free
 *
 * What a host has to do:
 * - Draw by the shown offset: strakobud_offset, after the frame. The viewport in out is where the list stood before it
 *   was put on its end: one frame late where rows arrive, and at an explicit offset that sticking overrides. Nothing
 *   is claimed of it beyond its definition.
 * - Set stick_to_end (words 24, 25) in every frame of a list that is to stay on its end: one accepted frame without it
 *   can release the list, for later frames too.
 * - After a refusal the list stands where the last accepted frame left it: a row that came with a bad sample is not
 *   shown. Run the same frame again without its input, that is with 0 in words 15, 17, 54, 57 to 62, 64, 65, 74, 79, 86,
 *   87, 91 and 98. Nothing in it moves the list, and where it is accepted, with stick_to_end set, a list that stuck
 *   stands on its end.
 * - After 12 the clock was set back, or one frame was ahead of it. Until that time comes again every frame is refused, the
 *   one without input too, and no row that arrives is shown. Best go on with a time that does not fall, adding to the
 *   clock what it lost. Or call strakobud_reset and run the frame again; a scroll target under way then stands, see there.
 */
#ifndef STRAKOBUD_H
#define STRAKOBUD_H

#include <stddef.h>
#include <stdint.h>

#ifdef __cplusplus
extern "C" {
#endif

#define STRAKOBUD_STATE_BYTES 156
#define STRAKOBUD_FRAME_BYTES 416
#define STRAKOBUD_OUT_BYTES 100
#define STRAKOBUD_TABLE_BYTES 8200
#define STRAKOBUD_RUN_BYTES 12
#define STRAKOBUD_USED_BYTES 4
#define STRAKOBUD_DRAWER_RECORD_BYTES 168

/* Writes a fresh state: at the start, at rest, stuck to the end, with time 0.
 *
 * The 39 words of a state: offset 2, max_offset 2; for each axis its scroll target under way as flag, start 2, end 2,
 * goal; show_scroll 2, content_is_too_large 2, scroll_bar_interaction 2, velocity 2; for each axis the bar's press as
 * flag and number; stuck to end 2, interact_rect as flag and 4, bounced_this_momentum 2; and the time of the last accepted
 * frame 2. */
void strakobud_fresh(uint8_t state[STRAKOBUD_STATE_BYTES]);

/* For a clock that was set back: the remembered time becomes 0, so that 12 refuses no frame until one is accepted. It writes
 * words 38 and 39 and nothing else, and is never refused, also on a state that 6 refuses. A scroll target under way keeps
 * its start and end on the old clock: before that start it stands, wherever the list is, and once that time comes, however
 * late, it moves the list to its goal. A drag, a taken wheel turn or a press on the bar gives it up; a program ends it by an
 * animated request (word 26) for a move other than 0 and less than 1, by which it arrives in the next frame. */
void strakobud_reset(uint8_t state[STRAKOBUD_STATE_BYTES]);

/* Runs one frame on the state. 0: the state is the next one, and out holds what the frame puts out besides it.
 * A refusal: neither buffer is changed.
 *
 * The 104 words of a frame:
 *   settings 1-26: direction_enabled 2, auto_shrink 2, max_size 2, min_scrolled_size 2, bar visibility (0 hidden,
 *     1 when needed, 2 always), scroll_bar_rect option 5, offset_x option 2, offset_y option 2, scroll_bar, drag
 *     (0 never, 1 on touch, 2 always), mouse_wheel, wheel multiplier 2, stick_to_end 2, animated;
 *   style 27-39: floating, allocated width, bar width, inner margin, outer margin, floating width, handle_min_length,
 *     item_spacing 2, always scroll the only direction, decay_time, stop_distance, rubber_band;
 *   host 40-81: available rectangle 4, clip 4, enabled, touch, scrolling ancestor, stable_dt, time 2, pointer option 3,
 *     pointer delta 2, pointer velocity 2, dragged, drag stopped, wheel source (0 none, 1 unknown, 2 wheel, 3 trackpad,
 *     4 momentum), wheel delta 2, bar factors 2, bar factors on opening 2, hover factors 2, and for each axis's bar
 *     hovered, dragged, press option 3;
 *   content 82-104: size 2, min 2, scroll delta 2, its animation (points per second, shortest, longest), and for each
 *     axis a target option of 7: flag, start, end, align (0 none, 1 min, 2 center, 3 max), animation 3.
 *
 * The 25 words of out: content size 2, inner rectangle 4, viewport 4, for each axis its handle as an option of 5, wheel
 * delta left 2, scroll delta left 2, repaint wanted. */
uint32_t strakobud_frame(uint8_t state[STRAKOBUD_STATE_BYTES], const uint8_t *frame, size_t len,
                         uint8_t out[STRAKOBUD_OUT_BYTES]);

/* Which word made a frame bad. Checks 2 to 5 go over the words once, in order, and keep the lowest number that the words so
 * far show; this is the number of the first word, from 1 to 104, after which that is the frame's refusal, and the word
 * itself shows it. An end below its start is at the end's word, a time outside its range at word 53. 0 where 2 to 5 do not
 * refuse the frame: it passes them, or is not 416 bytes long. The state is not asked, and 6 to 9 and 12 have no word; nor
 * has a 3 from inside a settling run, which is about the run's own time. */
uint32_t strakobud_bad_word(const uint8_t *frame, size_t len);

/* A maker's own decay table: 1,025 numbers of 64 bits, the lowest byte first, by which a coasting list slows in the place
 * of the built-in table T. Loading checks the len bytes and, at 0, copies them to table; at 10 and 11 table stays. Equal
 * entries and zeros load. Load once, keep the table, lend it to each call that it is to serve, and write it no more. */
uint32_t strakobud_table_load(const uint8_t *bytes, size_t len, uint8_t table[STRAKOBUD_TABLE_BYTES]);

/* Writes T itself. It loads, and lent it gives the very answers of the calls without a table, at less cost (README). */
void strakobud_table_t(uint8_t table[STRAKOBUD_TABLE_BYTES]);

/* strakobud_frame under a table. Each call may have another. A table that was not loaded is not refused here: an entry
 * above 2^40 counts as 2^40, and the answer is defined. */
uint32_t strakobud_frame_by(uint8_t state[STRAKOBUD_STATE_BYTES], const uint8_t *frame, size_t len,
                            const uint8_t table[STRAKOBUD_TABLE_BYTES], uint8_t out[STRAKOBUD_OUT_BYTES]);

/* The settling run: frame after frame from the one given, until the list rests, that is up to and with the first frame
 * that wants no repaint, or until the limit. The 3 words of run: the increment, as a time, and the limit of frames. After
 * each frame the time (words 52, 53) becomes time + increment, in the call's own copy of the frame; stable_dt stays.
 *
 * 1 to 6 or 9 ahead of the first frame: neither buffer is changed. After that used holds the frames used, in one word,
 * and the state is the one after them, also where a frame inside was refused and ended the run with its number: 8, or 3
 * once the time is above 2^32, or 12, at the first frame alone, and no other. If that was the first one, with 8 or 12, 0 are
 * used and the state is as given. With used set to 0 before the call it is right after every answer. 0 with used below the
 * limit: the list rests; with used equal to the limit it may or may not. A frame that was cleared of its input, as above,
 * moves no axis. The state then remembers the time of the run's last accepted frame, and a frame at the panel's own earlier time
 * is 12; where only the number is wanted, run on a copy of the state.
 *
 * Rest is not stillness. A held overscroll rests with the velocity that it keeps. With rubber band off, a list that has
 * run into its end stands there, and rests in the next frame if its bar shows (its factor is not 0), else once its
 * velocity has decayed. Some lists never rest, so that the limit or a refusal inside ends their run: with a stop_distance
 * of 0 even one that stands still; with a stable_dt of 0 one that coasts or springs back; with an increment of 0 one whose
 * scroll target is 1 or more away and ends after it starts, where the time is its start or before it, or, with a stable_dt
 * of 0, inside its span (unless that is all but over). */
uint32_t strakobud_settle(uint8_t state[STRAKOBUD_STATE_BYTES], const uint8_t *frame, size_t len,
                          const uint8_t run[STRAKOBUD_RUN_BYTES], uint8_t used[STRAKOBUD_USED_BYTES]);

/* strakobud_settle under a table, in all its frames. */
uint32_t strakobud_settle_by(uint8_t state[STRAKOBUD_STATE_BYTES], const uint8_t *frame, size_t len,
                             const uint8_t table[STRAKOBUD_TABLE_BYTES], const uint8_t run[STRAKOBUD_RUN_BYTES],
                             uint8_t used[STRAKOBUD_USED_BYTES]);

/* The shown offset x, y, by which the list is drawn: the stored one held to its range. 0, or 6 for a state with a flag
 * that is not 0 or 1, with out as it was. */
uint32_t strakobud_offset(const uint8_t state[STRAKOBUD_STATE_BYTES], uint8_t out[8]);

/* A drawer holds the states of a panel's lists in one buffer, each under an id of 64 bits that the host chooses. It has
 * 1 to 65,536 records of 168 bytes, the first of them for itself, so that n records hold n - 1 lists. Lay it out once,
 * hand each call the length that it was laid out with (another is 13), lend it to one call at a time, and write it by
 * these calls alone: then 13 is never answered, and a load gives the last state saved under its id since that was last
 * forgotten, or 14. On a buffer that somebody else wrote each answer is defined too, and a save or forget that answers
 * 0 leaves a drawer; after 13 it has to be laid out anew, and all lists begin fresh. At a refusal both buffers are as
 * they were.
 *
 * The 42 words of a record: the index of the next record of its chain, 0 at the chain's end; id 2, the low word first;
 * the 39 words of the state. Record 0: the heads of 16 chains of used records, one for each value of the lowest four
 * bits of an id; the head of the chain of free ones; the length of a record in bytes, 168; then zeros. A head is the
 * index of its chain's first record, or 0. In each chain of used records these calls keep the ids ascending; a free
 * record has zeros after its index. Words 19 to 42 of record 0, and of a free record all after its index, are not
 * looked at.
 *
 * Laying out writes each record once. Each other call goes along every record of the buffer once, used or free, and
 * along the id's chain at most twice more: what it costs grows with the records, and no faster where all ids fall under
 * one head (README). Lend no more records than the panel has lists, and one. A chain of somebody else's in which the
 * ids do not ascend is compared in pairs, which takes the square of its length. */

/* Lays out a drawer that holds nothing: reads the length alone, and writes every byte. 0 or 13. */
uint32_t strakobud_drawer_lay(uint8_t *drawer, size_t len);

/* Keeps a state: in the place of the one that the id has, else in the first free record. Its words are kept bit for
 * bit, those of numbers that are not finite too, but the words of absent options as zeros. 0, 6 (a flag that is not 0
 * or 1), 13 or 15. */
uint32_t strakobud_drawer_save(uint8_t *drawer, size_t len, uint64_t id, const uint8_t state[STRAKOBUD_STATE_BYTES]);

/* Hands out the state that the id has, the words of absent options as zeros. 0, 13 or 14. A state that is fresh before
 * the call is fresh after a 14, as the first frame of a list wants it. */
uint32_t strakobud_drawer_load(const uint8_t *drawer, size_t len, uint64_t id, uint8_t state[STRAKOBUD_STATE_BYTES]);

/* Takes out an id with its state. Its record has zeros after its index then, and is the first free one. 0, 13 or 14. */
uint32_t strakobud_drawer_forget(uint8_t *drawer, size_t len, uint64_t id);

/* One axis by itself. A call begins with bounds min, bounds max, extent, decay_time, stop_distance, rubber_band. On a
 * refusal out holds what was given, with the answer 0. */

/* then offset, delta; out: offset */
uint32_t strakobud_drag(const uint8_t call[32], uint8_t out[4]);

/* then offset, velocity, dt, hold; out: offset, velocity, answer (1 while it moves) */
uint32_t strakobud_step(const uint8_t call[40], uint8_t out[12]);

/* strakobud_step under a table. */
uint32_t strakobud_step_by(const uint8_t call[40], const uint8_t table[STRAKOBUD_TABLE_BYTES], uint8_t out[12]);

/* then offset, velocity, delta, source, can_chain_to_parent, dt, bounced; out: offset, velocity, bounced, answer (1 if
 * the list takes the delta; 0 of an accepted call: whatever encloses the list may have it)
 *
 * Which turns are taken, of every accepted call, wherever the offset lies, zeros of either sign and subnormal numbers
 * included; an outcome that is not finite is refused with 8 (docs/WHEEL.md has it row by row):
 * - 0 leaves offset and velocity as given, bit for bit.
 * - 1 with rubber_band 0 leaves the offset from bounds min to bounds max, both included, and the velocity as given.
 * - A source other than 4, momentum, ends with bounced 0, whatever the answer.
 * - 0 is answered exactly when delta is 0, or none of these three takes the turn:
 *     can: (delta < 0 and bounds min < offset) or (0 < delta and offset < bounds max);
 *     band: rubber_band is 1, source is 3 or 4 (trackpad, momentum), and at least one of: can; the offset lies outside
 *       the bounds; can_chain_to_parent is 0;
 *     corner: rubber_band is 1, source is 4, and bounced was given as 1.
 * A frame turns its axes by the same law. Its wheel delta left is 0 on an axis that took its turn, and on both where the
 * only-direction flag is set and the one direction that is enabled took it; otherwise it is as given. */
uint32_t strakobud_wheel(const uint8_t call[52], uint8_t out[16]);

#ifdef __cplusplus
}
#endif

#endif
