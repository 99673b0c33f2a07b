/* The well-probe link planner for C: the functions of the six static libraries, and what their answers mean.
 *
 * A slice passes as a pointer and a length in entries. A pointer is not null, also where the length is 0; a slice
 * that is not const overlaps no other slice of the call. A function keeps no pointer, allocates nothing and has no
 * state of its own. The README has the stack that each call needs.
 *
 * A table in slices is: number, probes, links, needs (an entry a probe), lows, highs and costs (an entry a link).
 * The record of a probe is four maps, each a slice of 64-bit words: the links whose offer stands, those where it is
 * refused, those whose offer the probe holds, those where it refused one. A map has a word for every 64 links begun;
 * link i is bit i % 64 of word i / 64, the lowest bit first. Its other form, which planner_probe_maps_of and
 * planner_probe_bytes_of turn, is two bytes a link, outbound (1 standing, 2 refused) and inbound (1 held, 2 refused).
 * The record of a fleet has eight bytes a link: outbound from low, inbound at high, outbound from high, inbound at low,
 * then a mark of each: 1 once the frame that the byte permits could have been sent, else 0. An outbound byte permits an
 * offer while it is 1, an inbound byte a refusal while it is 2. A fresh record is all zero.
 * A wake log has a number for each entry, of any value before it is used; the count of its used ones goes beside it.
 * A bag is bytes: its frames end at their line feeds, and a last piece without one counts as a frame, which 1 refuses.
 *
 * The functions with display_ in their names are for the well-head display: parameters and answers as without it, at
 * most 16 probes and 40 links (3 beyond). 16 needs, 40 lows, highs, costs and plan bytes and 160 working bytes are never
 * too short for them.
 *
 * A refusal is its number, and leaves every slice as it was:
 *    1 a line is missing or not of its length          20 a record of the wrong length: a map not of its words
 *    2 a byte in it is no digit                        21 a wrong bit, byte or mark in a record
 *    3 probes 0 or over 256, or links over 2,048       22 a probe with more standing or held than its spare
 *    4 low not below high, or high not below probes    23 a frame of another table number
 *    5 a link not after the one before it              24 no such probe or link, or a frame for another probe
 *    6 the closing line absent, different or followed  26 the log has too few free entries
 *    8 slices of unequal length, or one too short      27 a frame that could never yet have been sent
 *    9 a frame kind with no meaning here               32 a bag of more than 64 frames
 * A wrong bit of a map is on another probe's link, past the last link, or on a link that is set in both maps of a
 * direction; a wrong byte is over 2, or not 0 on another probe's link.
 */
#ifndef PLANNER_H
#define PLANNER_H

#include <stddef.h>
#include <stdint.h>

#define PLANNER_MOST_PROBES 256
#define PLANNER_MOST_LINKS 2048
/* The bytes of the longest table text, and of a frame's line with its line feed. */
#define PLANNER_MOST_TEXT 27922
#define PLANNER_FRAME 15
/* The most frames of a bag. */
#define PLANNER_MOST_FRAMES 64
/* The words of a map over so many links, and where a link's bit stands in it. */
#define PLANNER_MAP_WORDS(links) (((size_t)(links) + 63) / 64)
#define PLANNER_MAP_WORD(link) ((size_t)(link) / 64)
#define PLANNER_MAP_BIT(link) (UINT64_C(1) << ((link) % 64))

#define PLANNER_DISPLAY_MOST_PROBES 16
#define PLANNER_DISPLAY_MOST_LINKS 40
/* The bytes of the display's longest table text, and of its longest plan text. */
#define PLANNER_DISPLAY_MOST_TEXT 618
#define PLANNER_DISPLAY_MOST_PLAN_TEXT 686

/* Packed answers start here; refusals are below. planner_probe_maps_of and _probe_bytes_of answer just this. */
#define PLANNER_ANSWER_BASE (UINT64_C(1) << 48)

/* Whether an answer of 64 bits is a refusal; planner_check_table answers one, or 0, in 8 bits. */
#define PLANNER_REFUSED(answer) ((answer) < PLANNER_ANSWER_BASE)

/* The answer of planner_read_table and planner_read_table_prefix. */
#define PLANNER_READ_NUMBER(answer) ((uint16_t)((answer) >> 32))
#define PLANNER_READ_PROBES(answer) ((uint16_t)((answer) >> 16))
#define PLANNER_READ_LINKS(answer) ((uint16_t)(answer))

/* The answer of planner_plan_slse and planner_plan_turns. */
#define PLANNER_PLAN_KEPT(answer) ((uint16_t)((answer) >> 32))
#define PLANNER_PLAN_COST(answer) ((uint32_t)(answer))

/* The bytes written or printed: planner_write_table, _plan_text, _script_text, _script_piece and _script_end. */
#define PLANNER_LENGTH(answer) ((size_t)((answer) - PLANNER_ANSWER_BASE))

/* The entry of an event: planner_probe_open, _probe_hear and _fleet_event, their _logged forms, planner_log_entry.
 * What befell the probe: 0 opened, 1 nothing opened: offers standing equal the spare, 2 taken, 3 taken with a displaced
 * probe, 4 refused, 5 refusal learnt, 6 heard with no change, 7 nothing opened: every link tried, 8 restarted. */
#define PLANNER_EVENT_PROBE(answer) ((uint16_t)((answer) >> 40))
#define PLANNER_EVENT_WHAT(answer) ((uint8_t)((answer) >> 32))
#define PLANNER_EVENT_LINK(answer) ((uint16_t)((answer) >> 16))
#define PLANNER_EVENT_DISPLACED(answer) ((uint16_t)(answer))
/* Stands for a link or a displaced probe that is absent. */
#define PLANNER_ABSENT 0xffff

/* The frames heard, each with its entry: planner_probe_hear_bag. */
#define PLANNER_HEARD(answer) ((uint16_t)(answer))

/* Whether the frame is written, the link rested, the fleet finished: planner_probe_ask_offer, _probe_ask_refusal,
 * _probe_rests and _fleet_finished. */
#define PLANNER_YES(answer) (((answer) & 1) != 0)

#ifdef __cplusplus
extern "C" {
#endif

/* libtable_exports.a: the table and its text. */

/* Whether the table is legal: 0, or the refusal. */
uint8_t planner_check_table(
    uint16_t number, uint16_t probes, uint16_t links,
    const uint16_t *needs, size_t needs_length,
    const uint16_t *lows, size_t lows_length,
    const uint16_t *highs, size_t highs_length,
    const uint16_t *costs, size_t costs_length);

/* Reads a table's text into lent slices. */
uint64_t planner_read_table(
    const uint8_t *text, size_t text_length,
    uint16_t *needs, size_t needs_length,
    uint16_t *lows, size_t lows_length,
    uint16_t *highs, size_t highs_length,
    uint16_t *costs, size_t costs_length);

/* The same for a text that goes on behind its closing line, at 13 + 5 probes + 13 links + 5. */
uint64_t planner_read_table_prefix(
    const uint8_t *text, size_t text_length,
    uint16_t *needs, size_t needs_length,
    uint16_t *lows, size_t lows_length,
    uint16_t *highs, size_t highs_length,
    uint16_t *costs, size_t costs_length);

/* Writes the table's text into out. */
uint64_t planner_write_table(
    uint16_t number, uint16_t probes, uint16_t links,
    const uint16_t *needs, size_t needs_length,
    const uint16_t *lows, size_t lows_length,
    const uint16_t *highs, size_t highs_length,
    const uint16_t *costs, size_t costs_length,
    uint8_t *out, size_t out_length);

/* Whether the table is legal for the display: 0, or the refusal. */
uint8_t planner_display_check_table(
    uint16_t number, uint16_t probes, uint16_t links,
    const uint16_t *needs, size_t needs_length,
    const uint16_t *lows, size_t lows_length,
    const uint16_t *highs, size_t highs_length,
    const uint16_t *costs, size_t costs_length);

/* Reads a table's text into lent slices, for the display. */
uint64_t planner_display_read_table(
    const uint8_t *text, size_t text_length,
    uint16_t *needs, size_t needs_length,
    uint16_t *lows, size_t lows_length,
    uint16_t *highs, size_t highs_length,
    uint16_t *costs, size_t costs_length);

/* Writes the table's text into out, for the display. */
uint64_t planner_display_write_table(
    uint16_t number, uint16_t probes, uint16_t links,
    const uint16_t *needs, size_t needs_length,
    const uint16_t *lows, size_t lows_length,
    const uint16_t *highs, size_t highs_length,
    const uint16_t *costs, size_t costs_length,
    uint8_t *out, size_t out_length);

/* libplan_exports.a: the plan. */

/* The plan by S-LSE: a byte a link into plan, 1 kept and 0 rested. */
uint64_t planner_plan_slse(
    uint16_t number, uint16_t probes, uint16_t links,
    const uint16_t *needs, size_t needs_length,
    const uint16_t *lows, size_t lows_length,
    const uint16_t *highs, size_t highs_length,
    const uint16_t *costs, size_t costs_length,
    uint8_t *plan, size_t plan_length);

/* The same plan by offers in turn; work has four bytes a link, of any values, and is zero afterwards. */
uint64_t planner_plan_turns(
    uint16_t number, uint16_t probes, uint16_t links,
    const uint16_t *needs, size_t needs_length,
    const uint16_t *lows, size_t lows_length,
    const uint16_t *highs, size_t highs_length,
    const uint16_t *costs, size_t costs_length,
    uint8_t *plan, size_t plan_length,
    uint8_t *work, size_t work_length);

/* What the plan program prints for an input, into out; 28,950 bytes hold every output. */
uint64_t planner_plan_text(
    const uint8_t *text, size_t text_length,
    uint8_t *out, size_t out_length);

/* The plan by S-LSE, for the display. */
uint64_t planner_display_plan_slse(
    uint16_t number, uint16_t probes, uint16_t links,
    const uint16_t *needs, size_t needs_length,
    const uint16_t *lows, size_t lows_length,
    const uint16_t *highs, size_t highs_length,
    const uint16_t *costs, size_t costs_length,
    uint8_t *plan, size_t plan_length);

/* The same plan by offers in turn, for the display. */
uint64_t planner_display_plan_turns(
    uint16_t number, uint16_t probes, uint16_t links,
    const uint16_t *needs, size_t needs_length,
    const uint16_t *lows, size_t lows_length,
    const uint16_t *highs, size_t highs_length,
    const uint16_t *costs, size_t costs_length,
    uint8_t *plan, size_t plan_length,
    uint8_t *work, size_t work_length);

/* What the plan program prints for an input within the display's limits, into out; beyond them e003. */
uint64_t planner_display_plan_text(
    const uint8_t *text, size_t text_length,
    uint8_t *out, size_t out_length);

/* libprobe_exports.a: one probe's end of the bargaining. */

/* The probe opens; free is the number of entries free in the caller's log. */
uint64_t planner_probe_open(
    uint16_t number, uint16_t probes, uint16_t links,
    const uint16_t *needs, size_t needs_length,
    const uint16_t *lows, size_t lows_length,
    const uint16_t *highs, size_t highs_length,
    const uint16_t *costs, size_t costs_length,
    uint16_t probe,
    uint64_t *standing, size_t standing_length,
    uint64_t *refused_out, size_t refused_out_length,
    uint64_t *held, size_t held_length,
    uint64_t *refused_in, size_t refused_in_length,
    size_t free);

/* The probe hears a frame of any bytes. */
uint64_t planner_probe_hear(
    uint16_t number, uint16_t probes, uint16_t links,
    const uint16_t *needs, size_t needs_length,
    const uint16_t *lows, size_t lows_length,
    const uint16_t *highs, size_t highs_length,
    const uint16_t *costs, size_t costs_length,
    uint16_t probe,
    uint64_t *standing, size_t standing_length,
    uint64_t *refused_out, size_t refused_out_length,
    uint64_t *held, size_t held_length,
    uint64_t *refused_in, size_t refused_in_length,
    const uint8_t *frame, size_t frame_length,
    size_t free);

/* The probe opens; the entry goes behind the used ones of the log. */
uint64_t planner_probe_open_logged(
    uint16_t number, uint16_t probes, uint16_t links,
    const uint16_t *needs, size_t needs_length,
    const uint16_t *lows, size_t lows_length,
    const uint16_t *highs, size_t highs_length,
    const uint16_t *costs, size_t costs_length,
    uint16_t probe,
    uint64_t *standing, size_t standing_length,
    uint64_t *refused_out, size_t refused_out_length,
    uint64_t *held, size_t held_length,
    uint64_t *refused_in, size_t refused_in_length,
    uint64_t *log, size_t log_length,
    size_t used);

/* The probe hears a frame of any bytes; the entry goes behind the used ones of the log. */
uint64_t planner_probe_hear_logged(
    uint16_t number, uint16_t probes, uint16_t links,
    const uint16_t *needs, size_t needs_length,
    const uint16_t *lows, size_t lows_length,
    const uint16_t *highs, size_t highs_length,
    const uint16_t *costs, size_t costs_length,
    uint16_t probe,
    uint64_t *standing, size_t standing_length,
    uint64_t *refused_out, size_t refused_out_length,
    uint64_t *held, size_t held_length,
    uint64_t *refused_in, size_t refused_in_length,
    const uint8_t *frame, size_t frame_length,
    uint64_t *log, size_t log_length,
    size_t used);

/* The probe hears a bag of frames, all of them or none; their entries go behind the used ones of the log, in order. */
uint64_t planner_probe_hear_bag(
    uint16_t number, uint16_t probes, uint16_t links,
    const uint16_t *needs, size_t needs_length,
    const uint16_t *lows, size_t lows_length,
    const uint16_t *highs, size_t highs_length,
    const uint16_t *costs, size_t costs_length,
    uint16_t probe,
    uint64_t *standing, size_t standing_length,
    uint64_t *refused_out, size_t refused_out_length,
    uint64_t *held, size_t held_length,
    uint64_t *refused_in, size_t refused_in_length,
    const uint8_t *bag, size_t bag_length,
    uint64_t *log, size_t log_length,
    size_t used);

/* Writes the line of the probe's offer on the link into out, where it may be sent now. */
uint64_t planner_probe_ask_offer(
    uint16_t number, uint16_t probes, uint16_t links,
    const uint16_t *needs, size_t needs_length,
    const uint16_t *lows, size_t lows_length,
    const uint16_t *highs, size_t highs_length,
    const uint16_t *costs, size_t costs_length,
    uint16_t probe,
    const uint64_t *standing, size_t standing_length,
    const uint64_t *refused_out, size_t refused_out_length,
    const uint64_t *held, size_t held_length,
    const uint64_t *refused_in, size_t refused_in_length,
    uint16_t link,
    uint8_t *out, size_t out_length);

/* Writes the line of the probe's refusal on the link into out, where it may be sent now. */
uint64_t planner_probe_ask_refusal(
    uint16_t number, uint16_t probes, uint16_t links,
    const uint16_t *needs, size_t needs_length,
    const uint16_t *lows, size_t lows_length,
    const uint16_t *highs, size_t highs_length,
    const uint16_t *costs, size_t costs_length,
    uint16_t probe,
    const uint64_t *standing, size_t standing_length,
    const uint64_t *refused_out, size_t refused_out_length,
    const uint64_t *held, size_t held_length,
    const uint64_t *refused_in, size_t refused_in_length,
    uint16_t link,
    uint8_t *out, size_t out_length);

/* Whether the probe rests the link. */
uint64_t planner_probe_rests(
    uint16_t number, uint16_t probes, uint16_t links,
    const uint16_t *needs, size_t needs_length,
    const uint16_t *lows, size_t lows_length,
    const uint16_t *highs, size_t highs_length,
    const uint16_t *costs, size_t costs_length,
    uint16_t probe,
    const uint64_t *standing, size_t standing_length,
    const uint64_t *refused_out, size_t refused_out_length,
    const uint64_t *held, size_t held_length,
    const uint64_t *refused_in, size_t refused_in_length,
    uint16_t link);

/* Turns a record of two bytes a link into maps, each at the start of its slice; words beyond them stay. */
uint64_t planner_probe_maps_of(
    uint16_t number, uint16_t probes, uint16_t links,
    const uint16_t *needs, size_t needs_length,
    const uint16_t *lows, size_t lows_length,
    const uint16_t *highs, size_t highs_length,
    const uint16_t *costs, size_t costs_length,
    uint16_t probe,
    const uint8_t *rec, size_t rec_length,
    uint64_t *standing, size_t standing_length,
    uint64_t *refused_out, size_t refused_out_length,
    uint64_t *held, size_t held_length,
    uint64_t *refused_in, size_t refused_in_length);

/* Turns maps into a record of two bytes a link, at the start of rec; bytes beyond them stay. */
uint64_t planner_probe_bytes_of(
    uint16_t number, uint16_t probes, uint16_t links,
    const uint16_t *needs, size_t needs_length,
    const uint16_t *lows, size_t lows_length,
    const uint16_t *highs, size_t highs_length,
    const uint16_t *costs, size_t costs_length,
    uint16_t probe,
    const uint64_t *standing, size_t standing_length,
    const uint64_t *refused_out, size_t refused_out_length,
    const uint64_t *held, size_t held_length,
    const uint64_t *refused_in, size_t refused_in_length,
    uint8_t *rec, size_t rec_length);

/* libfleet_exports.a: all ends of a site together. */

/* One line, of any bytes, on a fleet's record: an opening, a frame or a restart; used of the log's room entries are used. */
uint64_t planner_fleet_event(
    uint16_t number, uint16_t probes, uint16_t links,
    const uint16_t *needs, size_t needs_length,
    const uint16_t *lows, size_t lows_length,
    const uint16_t *highs, size_t highs_length,
    const uint16_t *costs, size_t costs_length,
    uint8_t *rec, size_t rec_length,
    const uint8_t *line, size_t line_length,
    size_t used, size_t room);

/* One line, of any bytes, on a fleet's record; the entry goes behind the used ones of the log. */
uint64_t planner_fleet_event_logged(
    uint16_t number, uint16_t probes, uint16_t links,
    const uint16_t *needs, size_t needs_length,
    const uint16_t *lows, size_t lows_length,
    const uint16_t *highs, size_t highs_length,
    const uint16_t *costs, size_t costs_length,
    uint8_t *rec, size_t rec_length,
    const uint8_t *line, size_t line_length,
    uint64_t *log, size_t log_length,
    size_t used);

/* Whether the fleet is finished. */
uint64_t planner_fleet_finished(
    uint16_t number, uint16_t probes, uint16_t links,
    const uint16_t *needs, size_t needs_length,
    const uint16_t *lows, size_t lows_length,
    const uint16_t *highs, size_t highs_length,
    const uint16_t *costs, size_t costs_length,
    const uint8_t *rec, size_t rec_length);

/* libwake_log_exports.a: reading a wake log. */

/* The entry at place i, as the answer to its event; 0 past the used ones or past the log's end. */
uint64_t planner_log_entry(
    const uint64_t *log, size_t log_length,
    size_t used, size_t i);

/* libscript_exports.a: a fleet driven by a script. */

/* What the script program prints for an input, into out; where out has five bytes for each of the text, nothing is counted beforehand. */
uint64_t planner_script_text(
    const uint8_t *text, size_t text_length,
    uint8_t *out, size_t out_length);

/* A piece of a script: line (16 bytes) and numbers (entries used, bytes held, changes) go on to the next piece. */
uint64_t planner_script_piece(
    uint16_t number, uint16_t probes, uint16_t links,
    const uint16_t *needs, size_t needs_length,
    const uint16_t *lows, size_t lows_length,
    const uint16_t *highs, size_t highs_length,
    const uint16_t *costs, size_t costs_length,
    uint8_t *rec, size_t rec_length,
    uint8_t *line, size_t line_length,
    uint32_t *numbers, size_t numbers_length,
    const uint8_t *piece, size_t piece_length,
    uint8_t *out, size_t out_length);

/* What the script's end prints, into out (at most 16 bytes); held and changed are the last two of the numbers. */
uint64_t planner_script_end(
    uint16_t number, uint16_t probes, uint16_t links,
    const uint16_t *needs, size_t needs_length,
    const uint16_t *lows, size_t lows_length,
    const uint16_t *highs, size_t highs_length,
    const uint16_t *costs, size_t costs_length,
    const uint8_t *rec, size_t rec_length,
    uint32_t held, uint32_t changed,
    uint8_t *out, size_t out_length);

#ifdef __cplusplus
}
#endif

#endif
