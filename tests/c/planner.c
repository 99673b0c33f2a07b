/* Document 01's site M2 through planner.h: read, planned by both methods, and its script M11 run by a fleet, by ends
 * alone and as a text. Prints the plan and the log as the programs do. Then a bag of frames, an end's record in bytes
 * and as maps, openings that open nothing, a restart, M2 with a need above the links, and the display's calls. The status
 * is 0 if all is as 01 and 02 have it. */
#include "planner.h"

#include <stdio.h>
#include <string.h>

#define PROBES 4
#define LINKS 3
#define EVENTS 10
/* The bytes of the fleet's record. */
#define FLEET (8 * LINKS)
/* The words of a map over M2's links. */
#define WORDS PLANNER_MAP_WORDS(LINKS)

static const char M2[] = "000100040003\n0000\n0001\n0001\n0000\n"
                         "000000010005\n000100020006\n000200030005\nffff\n";
static const char M2_PRINTED[] = "000100020000000a\n000000010005\n000200030005\nffff\n";
static const char M11[EVENTS][PLANNER_FRAME + 1] = {
    "00000100000000\n", "01000100000001\n", "00000100010001\n", "01000100010002\n", "00000100020002\n",
    "01000100020001\n", "02000100010000\n", "00000100030003\n", "01000100030002\n", "02000100020003\n"};
static const char M11_PRINTED[EVENTS + 1][16] = {
    "0000000000ffff\n", "0001020000ffff\n", "0001000001ffff\n", "0002020001ffff\n", "0002000001ffff\n",
    "00010300010000\n", "0000050000ffff\n", "0003000002ffff\n", "0002040002ffff\n", "0003050002ffff\n",
    "010000000b\n"};

static int failures = 0;

/* Counts a failure and names it. */
static void expect(int fine, const char *what, unsigned place) {
    if (!fine) {
        fprintf(stderr, "failed: %s, %u\n", what, place);
        failures++;
    }
}

/* The table as it was read. SLICES lends it to a reading, TABLE passes it on. */
static uint16_t needs[PROBES], lows[LINKS], highs[LINKS], costs[LINKS];
#define SLICES needs, PROBES, lows, LINKS, highs, LINKS, costs, LINKS
#define TABLE 1, PROBES, LINKS, SLICES

static const uint8_t *bytes(const char *text) {
    return (const uint8_t *)text;
}

/* The record of an end. MAPS passes it on. */
struct maps {
    uint64_t standing[WORDS], refused_out[WORDS], held[WORDS], refused_in[WORDS];
};
#define MAPS(maps) \
    (maps).standing, WORDS, (maps).refused_out, WORDS, (maps).held, WORDS, (maps).refused_in, WORDS

static const struct maps fresh = {{0}, {0}, {0}, {0}};

/* Whether the link is set in the map. */
static int is_set(const uint64_t *map, unsigned link) {
    return (map[PLANNER_MAP_WORD(link)] & PLANNER_MAP_BIT(link)) != 0;
}

static void read_and_write(void) {
    const size_t most = 13 + 5 * PLANNER_MOST_PROBES + 13 * PLANNER_MOST_LINKS + 5;
    uint8_t out[sizeof M2 - 1];
    char behind[sizeof M2 + 1];
    uint64_t answer = planner_read_table(bytes(M2), sizeof M2 - 1, SLICES);
    expect(most == PLANNER_MOST_TEXT, "longest text", 0);
    expect(!PLANNER_REFUSED(answer), "read", 0);
    expect(PLANNER_READ_NUMBER(answer) == 1, "number", 0);
    expect(PLANNER_READ_PROBES(answer) == PROBES, "probes", 0);
    expect(PLANNER_READ_LINKS(answer) == LINKS, "links", 0);
    expect(needs[1] == 1 && lows[2] == 2 && highs[2] == 3 && costs[1] == 6, "entries", 0);

    snprintf(behind, sizeof behind, "%s\n", M2);
    answer = planner_read_table(bytes(behind), sizeof M2, SLICES);
    expect(PLANNER_REFUSED(answer) && answer == 6, "bytes behind", 0);
    answer = planner_read_table_prefix(bytes(behind), sizeof M2, SLICES);
    expect(!PLANNER_REFUSED(answer) && PLANNER_READ_LINKS(answer) == LINKS, "read a prefix", 0);

    expect(planner_check_table(TABLE) == 0, "check", 0);
    expect(planner_check_table(1, PROBES, LINKS, needs, PROBES - 1, lows, LINKS, highs, LINKS, costs, LINKS) == 8,
           "check of short needs", 0);
    answer = planner_write_table(TABLE, out, sizeof out);
    expect(answer == PLANNER_ANSWER_BASE + sizeof out, "answer of write", 0);
    expect(PLANNER_LENGTH(answer) == sizeof out && memcmp(out, M2, sizeof out) == 0, "write", 0);
}

static void plan(void) {
    static const uint8_t kept[LINKS] = {1, 0, 1};
    static const uint8_t zero[4 * LINKS] = {0};
    uint8_t plan[LINKS], work[4 * LINKS], out[64];
    uint64_t by_slse, by_turns, answer;

    memset(plan, 9, sizeof plan);
    by_slse = planner_plan_slse(TABLE, plan, sizeof plan);
    expect(PLANNER_PLAN_KEPT(by_slse) == 2 && PLANNER_PLAN_COST(by_slse) == 10, "plan by S-LSE", 0);
    expect(memcmp(plan, kept, sizeof plan) == 0, "links kept by S-LSE", 0);

    memset(plan, 9, sizeof plan);
    memset(work, 9, sizeof work);
    by_turns = planner_plan_turns(TABLE, plan, sizeof plan, work, sizeof work);
    expect(by_turns == by_slse, "plan by turns", 0);
    expect(memcmp(plan, kept, sizeof plan) == 0, "links kept by turns", 0);
    expect(memcmp(work, zero, sizeof work) == 0, "working bytes", 0);

    answer = planner_plan_text(bytes(M2), sizeof M2 - 1, out, sizeof out);
    expect(PLANNER_LENGTH(answer) == sizeof M2_PRINTED - 1, "length of the plan's text", 0);
    expect(memcmp(out, M2_PRINTED, sizeof M2_PRINTED - 1) == 0, "plan's text", 0);
    fwrite(out, 1, PLANNER_LENGTH(answer), stdout);
}

/* The entry as the script program prints it. */
static void print_entry(uint64_t answer, char line[16]) {
    snprintf(line, 16, "%04x%02x%04x%04x\n", PLANNER_EVENT_PROBE(answer), PLANNER_EVENT_WHAT(answer),
             PLANNER_EVENT_LINK(answer), PLANNER_EVENT_DISPLACED(answer));
}

static void fleet(void) {
    uint8_t rec[FLEET] = {0}, before[FLEET];
    unsigned event, place, changes = 0;
    char line[16];
    uint64_t answer;

    for (event = 0; event < EVENTS; event++) {
        expect(!PLANNER_YES(planner_fleet_finished(TABLE, rec, sizeof rec)), "finished too early", event);
        memcpy(before, rec, sizeof rec);
        answer = planner_fleet_event(TABLE, rec, sizeof rec, bytes(M11[event]), PLANNER_FRAME, event, EVENTS);
        expect(!PLANNER_REFUSED(answer), "event", event);
        print_entry(answer, line);
        expect(strcmp(line, M11_PRINTED[event]) == 0, "entry", event);
        fputs(line, stdout);
        /* Behind the four bytes of each link stand its four marks, which count nowhere. */
        for (place = 0; place < sizeof rec; place++) {
            changes += place % 8 < 4 && before[place] != rec[place];
        }
    }
    answer = planner_fleet_finished(TABLE, rec, sizeof rec);
    snprintf(line, sizeof line, "%02x%08x\n", (unsigned)PLANNER_YES(answer), changes);
    expect(strcmp(line, M11_PRINTED[EVENTS]) == 0, "end", 0);
    fputs(line, stdout);
    answer = planner_fleet_event(TABLE, rec, sizeof rec, bytes(M11[0]), PLANNER_FRAME, EVENTS, EVENTS);
    expect(PLANNER_REFUSED(answer) && answer == 26, "full log", 0);
}

/* M11 with a lent log: its entries are read back, and no other of its numbers changes. */
static void fleet_logged(void) {
    uint64_t log[EVENTS + 1], expected[EVENTS + 1], answer;
    uint8_t rec[FLEET] = {0}, same[FLEET] = {0};
    unsigned event, place;
    char line[16];

    for (place = 0; place <= EVENTS; place++) {
        log[place] = expected[place] = 7 + place;
    }
    for (event = 0; event < EVENTS; event++) {
        answer = planner_fleet_event_logged(TABLE, rec, sizeof rec, bytes(M11[event]), PLANNER_FRAME, log, EVENTS, event);
        expected[event] = answer;
        expect(memcmp(log, expected, sizeof log) == 0, "log", event);
        answer = planner_fleet_event(TABLE, same, sizeof same, bytes(M11[event]), PLANNER_FRAME, event, EVENTS);
        expect(answer == expected[event] && memcmp(rec, same, sizeof rec) == 0, "event with a log", event);
        expect(planner_log_entry(log, EVENTS, event, event) == 0, "no entry before it is used", event);
    }
    for (place = 0; place < EVENTS; place++) {
        print_entry(planner_log_entry(log, EVENTS, EVENTS, place), line);
        expect(strcmp(line, M11_PRINTED[place]) == 0, "entry read", place);
    }
    expect(planner_log_entry(log, EVENTS + 1, EVENTS, EVENTS) == 0, "no entry past the used ones", 0);
    expect(planner_log_entry(log, EVENTS, EVENTS + 1, EVENTS) == 0, "no entry past the log's end", 0);
    answer = planner_fleet_event_logged(TABLE, rec, sizeof rec, bytes(M11[0]), PLANNER_FRAME, log, EVENTS, EVENTS);
    expect(PLANNER_REFUSED(answer) && answer == 26, "full lent log", 0);
    expect(memcmp(rec, same, sizeof rec) == 0 && memcmp(log, expected, sizeof log) == 0, "refused with a log", 0);
}

/* Probe 1 of M11: it takes probe 0's offer, opens, and takes probe 2's, displacing probe 0. */
static void one_end(void) {
    struct maps own = fresh;
    uint8_t out[PLANNER_FRAME];
    uint64_t answer = planner_probe_hear(TABLE, 1, MAPS(own), bytes(M11[1]), PLANNER_FRAME, 3);
    expect(PLANNER_EVENT_WHAT(answer) == 2 && PLANNER_EVENT_DISPLACED(answer) == PLANNER_ABSENT, "offer taken", 0);
    expect(is_set(own.held, 0) && !is_set(own.refused_in, 0), "held", 0);
    answer = planner_probe_ask_refusal(TABLE, 1, MAPS(own), 0, out, sizeof out);
    expect(!PLANNER_YES(answer), "no refusal yet", 0);
    answer = planner_probe_open(TABLE, 1, MAPS(own), 2);
    expect(PLANNER_EVENT_WHAT(answer) == 0 && PLANNER_EVENT_LINK(answer) == 1, "opened", 0);
    answer = planner_probe_ask_offer(TABLE, 1, MAPS(own), 1, out, sizeof out);
    expect(PLANNER_YES(answer) && memcmp(out, M11[3], sizeof out) == 0, "offer's line", 0);
    expect(!PLANNER_YES(planner_probe_rests(TABLE, 1, MAPS(own), 1)), "link 1 not rested yet", 0);
    answer = planner_probe_hear(TABLE, 1, MAPS(own), bytes(M11[5]), PLANNER_FRAME, 1);
    expect(PLANNER_EVENT_WHAT(answer) == 3 && PLANNER_EVENT_DISPLACED(answer) == 0, "displaced", 0);
    answer = planner_probe_ask_refusal(TABLE, 1, MAPS(own), 0, out, sizeof out);
    expect(PLANNER_YES(answer) && memcmp(out, M11[6], sizeof out) == 0, "refusal's line", 0);
    expect(PLANNER_YES(planner_probe_rests(TABLE, 1, MAPS(own), 1)), "link 1 rested", 0);
    expect(own.standing[0] == 2 && own.refused_out[0] == 0 && own.held[0] == 2 && own.refused_in[0] == 1, "maps", 0);
}

/* The same with a lent log. */
static void one_end_logged(void) {
    uint64_t log[3] = {7, 8, 9}, answer;
    struct maps own = fresh;

    planner_probe_hear_logged(TABLE, 1, MAPS(own), bytes(M11[1]), PLANNER_FRAME, log, 3, 0);
    planner_probe_open_logged(TABLE, 1, MAPS(own), log, 3, 1);
    planner_probe_hear_logged(TABLE, 1, MAPS(own), bytes(M11[5]), PLANNER_FRAME, log, 3, 2);
    answer = planner_log_entry(log, 3, 3, 0);
    expect(PLANNER_EVENT_WHAT(answer) == 2 && PLANNER_EVENT_LINK(answer) == 0, "first entry of an end", 0);
    answer = planner_log_entry(log, 3, 3, 1);
    expect(PLANNER_EVENT_WHAT(answer) == 0 && PLANNER_EVENT_LINK(answer) == 1, "second entry of an end", 0);
    answer = planner_log_entry(log, 3, 3, 2);
    expect(PLANNER_EVENT_WHAT(answer) == 3 && PLANNER_EVENT_DISPLACED(answer) == 0, "third entry of an end", 0);
    answer = planner_probe_open_logged(TABLE, 1, MAPS(own), log, 3, 3);
    expect(answer == 26, "full log of an end", 0);
}

/* Both offers as one bag, in either order: the same maps, each frame with its entry. Then a refused frame, a full log,
 * the empty bag, and a frame too many. */
static void bag(void) {
    static uint8_t frames[(PLANNER_MOST_FRAMES + 1) * PLANNER_FRAME];
    static uint64_t longer[PLANNER_MOST_FRAMES];
    uint64_t log[4] = {7, 8, 9, 10}, answer;
    struct maps own = fresh, other = fresh;
    unsigned frame;

    for (frame = 0; frame <= PLANNER_MOST_FRAMES; frame++) {
        memcpy(frames + frame * PLANNER_FRAME, M11[frame % 2 == 0 ? 1 : 5], PLANNER_FRAME);
    }
    answer = planner_probe_hear_bag(TABLE, 1, MAPS(own), frames, 2 * PLANNER_FRAME, log, 4, 1);
    expect(!PLANNER_REFUSED(answer) && PLANNER_HEARD(answer) == 2, "bag", 0);
    expect(log[0] == 7 && log[3] == 10, "log around a bag's entries", 0);
    expect(PLANNER_EVENT_WHAT(log[1]) == 2 && PLANNER_EVENT_LINK(log[1]) == 0, "first entry of a bag", 0);
    expect(PLANNER_EVENT_WHAT(log[2]) == 3 && PLANNER_EVENT_DISPLACED(log[2]) == 0, "second entry of a bag", 0);
    answer = planner_probe_hear_bag(TABLE, 1, MAPS(other), frames + PLANNER_FRAME, 2 * PLANNER_FRAME, log, 4, 1);
    expect(PLANNER_HEARD(answer) == 2 && memcmp(&own, &other, sizeof own) == 0, "bag in another order", 0);
    expect(PLANNER_EVENT_WHAT(log[1]) == 2 && PLANNER_EVENT_WHAT(log[2]) == 4, "entries in that order", 0);

    other = fresh;
    answer = planner_probe_hear_bag(TABLE, 1, MAPS(other), frames, 2 * PLANNER_FRAME - 1, log, 4, 1);
    expect(answer == 1, "last piece without a line feed", 0);
    answer = planner_probe_hear_bag(TABLE, 1, MAPS(other), frames, 2 * PLANNER_FRAME, log, 4, 3);
    expect(answer == 26, "log with an entry too few for the bag", 0);
    answer = planner_probe_hear_bag(TABLE, 1, MAPS(other), frames, sizeof frames, longer, PLANNER_MOST_FRAMES, 0);
    expect(answer == 32, "a frame too many", 0);
    answer = planner_probe_hear_bag(TABLE, 1, MAPS(other), frames, 0, log, 4, 4);
    expect(answer == PLANNER_ANSWER_BASE, "empty bag", 0);
    expect(memcmp(&other, &fresh, sizeof other) == 0 && log[3] == 10, "refused bags change nothing", 0);
    answer = planner_probe_hear_bag(TABLE, 1, MAPS(other), frames, sizeof frames - PLANNER_FRAME, longer,
                                    PLANNER_MOST_FRAMES, 0);
    expect(PLANNER_HEARD(answer) == PLANNER_MOST_FRAMES, "the most frames", 0);
    expect(memcmp(&own, &other, sizeof own) == 0, "repeated frames", 0);
}

/* That end's record turned into bytes and back, and what 8, 20, 21 and 22 refuse of either form. */
static void turned(void) {
    static const uint8_t record[2 * LINKS] = {0, 2, 1, 1, 0, 0};
    static const struct maps same = {{2}, {0}, {2}, {1}};
    struct maps own = {{7}, {7}, {7}, {7}}, other;
    uint64_t longer[WORDS + 1] = {0, 7};
    uint8_t rec[2 * LINKS + 1];
    uint64_t answer;

    answer = planner_probe_maps_of(TABLE, 1, record, sizeof record, MAPS(own));
    expect(answer == PLANNER_ANSWER_BASE && memcmp(&own, &same, sizeof own) == 0, "maps of bytes", 0);
    memset(rec, 9, sizeof rec);
    answer = planner_probe_bytes_of(TABLE, 1, MAPS(own), rec, sizeof rec);
    expect(answer == PLANNER_ANSWER_BASE && memcmp(rec, record, sizeof record) == 0, "bytes of maps", 0);
    expect(rec[2 * LINKS] == 9, "byte behind the record", 0);

    expect(planner_probe_bytes_of(TABLE, 1, MAPS(own), rec, 2 * LINKS - 1) == 8, "too few bytes", 0);
    expect(planner_probe_maps_of(TABLE, 1, rec, sizeof rec, MAPS(own)) == 20, "a byte too many", 0);
    answer = planner_probe_rests(TABLE, 1, own.standing, WORDS, own.refused_out, WORDS, own.held, WORDS,
                                 longer, WORDS + 1, 1);
    expect(answer == 20, "a word too many", 0);
    answer = planner_probe_maps_of(TABLE, 1, record, sizeof record, own.standing, WORDS, own.refused_out, WORDS,
                                   own.held, WORDS, longer, WORDS + 1);
    expect(answer == PLANNER_ANSWER_BASE && longer[0] == 1 && longer[1] == 7, "word behind a map", 0);
    answer = planner_probe_maps_of(TABLE, 1, record, sizeof record, own.standing, WORDS - 1, own.refused_out, WORDS,
                                   own.held, WORDS, own.refused_in, WORDS);
    expect(answer == 8, "too few words", 0);
    other = own;
    other.refused_out[PLANNER_MAP_WORD(1)] |= PLANNER_MAP_BIT(1);
    expect(planner_probe_rests(TABLE, 1, MAPS(other), 1) == 21, "link in both maps", 0);
    other = own;
    other.refused_in[PLANNER_MAP_WORD(63)] |= PLANNER_MAP_BIT(63);
    expect(planner_probe_bytes_of(TABLE, 1, MAPS(other), rec, sizeof rec) == 21, "bit past the last", 0);
    rec[4] = 2;
    expect(planner_probe_maps_of(TABLE, 1, rec, 2 * LINKS, MAPS(other)) == 21, "byte on a foreign link", 0);
    other = own;
    other.standing[0] = 3;
    expect(planner_probe_open(TABLE, 1, MAPS(other), 1) == 22, "two stand at spare 1", 0);
    expect(memcmp(&own, &same, sizeof own) == 0, "maps stay", 0);
}

/* M11 as one text, and behind the table in two pieces. */
static void script(void) {
    static char text[sizeof M2 + EVENTS * PLANNER_FRAME], printed[(EVENTS + 1) * 16];
    static uint8_t out[5 * sizeof text];
    uint8_t rec[FLEET] = {0}, line[16] = {0};
    uint32_t numbers[3] = {0, 0, 0};
    const size_t table = sizeof M2 - 1, cut = table + 40;
    size_t length, done = 0;
    unsigned event;
    uint64_t answer;

    strcpy(text, M2);
    for (event = 0; event < EVENTS; event++) {
        strcat(text, M11[event]);
    }
    for (event = 0; event <= EVENTS; event++) {
        strcat(printed, M11_PRINTED[event]);
    }
    length = strlen(text);
    answer = planner_script_text(bytes(text), length, out, sizeof out);
    expect(PLANNER_LENGTH(answer) == strlen(printed), "length of the script's text", 0);
    expect(memcmp(out, printed, strlen(printed)) == 0, "script's text", 0);

    memset(out, 0, sizeof out);
    answer = planner_script_piece(TABLE, rec, sizeof rec, line, sizeof line, numbers, 3,
                                  bytes(text + table), cut - table, out, sizeof out);
    expect(!PLANNER_REFUSED(answer) && numbers[0] == 2 && numbers[1] == 10, "first piece", 0);
    done = PLANNER_LENGTH(answer);
    answer = planner_script_piece(TABLE, rec, sizeof rec, line, sizeof line, numbers, 3,
                                  bytes(text + cut), length - cut, out + done, sizeof out - done);
    expect(!PLANNER_REFUSED(answer) && numbers[0] == EVENTS && numbers[1] == 0, "second piece", 0);
    done += PLANNER_LENGTH(answer);
    answer = planner_script_end(TABLE, rec, sizeof rec, numbers[1], numbers[2], out + done, sizeof out - done);
    done += PLANNER_LENGTH(answer);
    expect(done == strlen(printed) && memcmp(out, printed, done) == 0, "pieces", 0);
}

/* Whether the answer is the probe's entry with this code, and has no link and no displaced probe. */
static int without_link(uint64_t answer, unsigned probe, unsigned what) {
    return !PLANNER_REFUSED(answer) && PLANNER_EVENT_PROBE(answer) == probe && PLANNER_EVENT_WHAT(answer) == what &&
           PLANNER_EVENT_LINK(answer) == PLANNER_ABSENT && PLANNER_EVENT_DISPLACED(answer) == PLANNER_ABSENT;
}

/* After M11 probe 0 has tried its one link, and probe 1 has one offer standing, its spare. */
static void open_nothing(void) {
    static const uint8_t after[FLEET] = {2, 2, 0, 0, 1, 1, 0, 0, 1, 1, 1, 1, 1, 0, 1, 0, 0, 0, 2, 2, 0, 0, 1, 1};
    static const struct maps alone[2] = {{{0}, {1}, {0}, {0}}, {{2}, {0}, {2}, {1}}};
    struct maps own[2];
    uint8_t rec[FLEET];
    uint64_t log[3] = {0, 0, 0};

    memcpy(rec, after, sizeof rec);
    memcpy(own, alone, sizeof own);
    planner_fleet_event_logged(TABLE, rec, sizeof rec, bytes(M11[0]), PLANNER_FRAME, log, 3, 0);
    planner_fleet_event_logged(TABLE, rec, sizeof rec, bytes(M11[2]), PLANNER_FRAME, log, 3, 1);
    planner_probe_open_logged(TABLE, 0, MAPS(own[0]), log, 3, 2);
    expect(without_link(planner_log_entry(log, 3, 3, 0), 0, 7), "all tried", 0);
    expect(without_link(planner_log_entry(log, 3, 3, 1), 1, 1), "enough", 1);
    expect(without_link(planner_log_entry(log, 3, 3, 2), 0, 7), "all tried by an end", 0);
    expect(planner_probe_open(TABLE, 0, MAPS(own[0]), 1) == log[2], "the same without a log", 0);
    expect(without_link(planner_probe_open(TABLE, 1, MAPS(own[1]), 1), 1, 1), "enough by an end", 1);
    expect(memcmp(rec, after, sizeof rec) == 0 && memcmp(own, alone, sizeof own) == 0, "records stay", 0);
}

/* After M11 probe 1 restarts: its own bytes are 0, all marks stay, and a frame that it sent before still arrives. Fewer
 * bytes than eight a link, and a mark of 0 under a byte that permits its frame, are refused. */
static void restarted(void) {
    static const char restart[] = "03000100010001\n";
    static const uint8_t wiped[FLEET] = {2, 0, 0, 0, 1, 1, 0, 0, 0, 1, 1, 0, 1, 0, 1, 0, 0, 0, 2, 2, 0, 0, 1, 1};
    uint8_t rec[FLEET] = {0};
    struct maps own = fresh;
    unsigned event;
    uint64_t answer;

    for (event = 0; event < EVENTS; event++) {
        planner_fleet_event(TABLE, rec, sizeof rec, bytes(M11[event]), PLANNER_FRAME, 0, 1);
    }
    answer = planner_fleet_event(TABLE, rec, sizeof rec, bytes(restart), PLANNER_FRAME, 0, 1);
    expect(without_link(answer, 1, 8), "restart", 1);
    expect(memcmp(rec, wiped, sizeof rec) == 0, "record of a restarted probe", 1);
    answer = planner_fleet_event(TABLE, rec, sizeof rec, bytes(M11[6]), PLANNER_FRAME, 0, 1);
    expect(PLANNER_EVENT_WHAT(answer) == 6 && PLANNER_EVENT_PROBE(answer) == 0, "refusal from before", 0);
    answer = planner_probe_hear(TABLE, 1, MAPS(own), bytes(restart), PLANNER_FRAME, 1);
    expect(answer == 9, "restart heard by an end", 1);
    answer = planner_probe_hear(TABLE, 0, MAPS(own), bytes(M11[6]), PLANNER_FRAME, 1);
    expect(PLANNER_EVENT_WHAT(answer) == 5 && is_set(own.refused_out, 0), "refusal of an untried link", 0);

    expect(planner_fleet_finished(TABLE, rec, sizeof rec / 2) == 20, "four bytes a link", 0);
    rec[12] = 0;
    expect(!PLANNER_REFUSED(planner_fleet_finished(TABLE, rec, sizeof rec)), "no offer stands, no mark", 0);
    rec[14] = 0;
    expect(planner_fleet_finished(TABLE, rec, sizeof rec) == 21, "an offer stands without its mark", 0);
}

/* M2 where probe 0 needs three links and has one: it opens nothing, and its line tells the two that are missing. */
static void short_probe(void) {
    static const char printed[] = "000100020000000a\n000000010005\n000200030005\n00000002\nffff\n";
    char text[sizeof M2];
    uint8_t rec[FLEET] = {0}, out[sizeof M2 - 1];
    uint64_t answer;

    strcpy(text, M2);
    text[16] = '3';
    answer = planner_read_table(bytes(text), sizeof M2 - 1, SLICES);
    expect(!PLANNER_REFUSED(answer) && needs[0] == 3, "need above the links", 0);
    expect(planner_check_table(TABLE) == 0, "check of a need above the links", 0);
    answer = planner_write_table(TABLE, out, sizeof out);
    expect(!PLANNER_REFUSED(answer) && memcmp(out, text, sizeof out) == 0, "need written as given", 0);

    answer = planner_plan_text(bytes(text), sizeof M2 - 1, out, sizeof printed - 1);
    expect(PLANNER_LENGTH(answer) == sizeof printed - 1, "length with a short line", 0);
    expect(memcmp(out, printed, sizeof printed - 1) == 0, "short line", 0);
    answer = planner_plan_text(bytes(text), sizeof M2 - 1, out, sizeof printed - 2);
    expect(answer == 8, "no room for the short line", 0);
    answer = planner_fleet_event(TABLE, rec, sizeof rec, bytes(M11[0]), PLANNER_FRAME, 0, 1);
    expect(without_link(answer, 0, 1), "short probe opens nothing", 0);
}

/* What the display reads, with slices of the sizes that are never too short for it. */
static uint16_t few_needs[PLANNER_DISPLAY_MOST_PROBES], few_lows[PLANNER_DISPLAY_MOST_LINKS];
static uint16_t few_highs[PLANNER_DISPLAY_MOST_LINKS], few_costs[PLANNER_DISPLAY_MOST_LINKS];
#define FEW_SLICES                                                                                      \
    few_needs, PLANNER_DISPLAY_MOST_PROBES, few_lows, PLANNER_DISPLAY_MOST_LINKS,                       \
        few_highs, PLANNER_DISPLAY_MOST_LINKS, few_costs, PLANNER_DISPLAY_MOST_LINKS

/* M2 through the display's calls. */
static void display(void) {
    static const uint8_t kept[LINKS] = {1, 0, 1};
    uint8_t plan[PLANNER_DISPLAY_MOST_LINKS], work[4 * PLANNER_DISPLAY_MOST_LINKS];
    uint8_t out[PLANNER_DISPLAY_MOST_TEXT], printed[PLANNER_DISPLAY_MOST_PLAN_TEXT];
    uint64_t by_slse, by_turns, answer = planner_display_read_table(bytes(M2), sizeof M2 - 1, FEW_SLICES);

    expect(!PLANNER_REFUSED(answer) && PLANNER_READ_LINKS(answer) == LINKS, "read by the display", 0);
    expect(planner_display_check_table(1, PROBES, LINKS, FEW_SLICES) == 0, "check by the display", 0);
    answer = planner_display_write_table(1, PROBES, LINKS, FEW_SLICES, out, sizeof out);
    expect(PLANNER_LENGTH(answer) == sizeof M2 - 1 && memcmp(out, M2, sizeof M2 - 1) == 0, "write by the display", 0);

    by_slse = planner_display_plan_slse(1, PROBES, LINKS, FEW_SLICES, plan, sizeof plan);
    expect(PLANNER_PLAN_KEPT(by_slse) == 2 && PLANNER_PLAN_COST(by_slse) == 10, "display's plan by S-LSE", 0);
    expect(memcmp(plan, kept, sizeof kept) == 0, "links that the display keeps by S-LSE", 0);
    memset(plan, 9, sizeof plan);
    by_turns = planner_display_plan_turns(1, PROBES, LINKS, FEW_SLICES, plan, sizeof plan, work, sizeof work);
    expect(by_turns == by_slse && memcmp(plan, kept, sizeof kept) == 0, "display's plan by turns", 0);
    answer = planner_display_plan_text(bytes(M2), sizeof M2 - 1, printed, sizeof printed);
    expect(PLANNER_LENGTH(answer) == sizeof M2_PRINTED - 1, "length of the display's plan text", 0);
    expect(memcmp(printed, M2_PRINTED, sizeof M2_PRINTED - 1) == 0, "display's plan text", 0);
}

/* 17 probes, 41 links, or a text whose header has 17 probes: 3 by the display alone. */
static void display_limits(void) {
    static const uint16_t many[PLANNER_DISPLAY_MOST_LINKS + 1] = {0};
    static const char header[] = "000100110000\n";
    const size_t probes = PLANNER_DISPLAY_MOST_PROBES + 1, links = PLANNER_DISPLAY_MOST_LINKS + 1;
    const size_t text = 13 + 5 * PLANNER_DISPLAY_MOST_PROBES + 13 * PLANNER_DISPLAY_MOST_LINKS + 5;
    uint8_t out[5];
    uint64_t answer;

    expect(text == PLANNER_DISPLAY_MOST_TEXT, "longest text of the display", 0);
    expect(text + 4 + 4 * PLANNER_DISPLAY_MOST_PROBES == PLANNER_DISPLAY_MOST_PLAN_TEXT, "longest plan text", 0);
    expect(planner_check_table(1, probes, 0, many, probes, many, 0, many, 0, many, 0) == 0, "17 probes", 0);
    expect(planner_display_check_table(1, probes, 0, many, probes, many, 0, many, 0, many, 0) == 3, "17 probes", 1);
    expect(planner_display_check_table(1, probes, 0, many, probes - 1, many, 0, many, 0, many, 0) == 8, "16 needs", 1);
    expect(planner_check_table(1, 16, links, many, 16, many, links, many, links, many, links) == 4, "41 links", 0);
    expect(planner_display_check_table(1, 16, links, many, 16, many, links, many, links, many, links) == 3, "41 links", 1);
    expect(planner_read_table(bytes(header), sizeof header - 1, FEW_SLICES) == 1, "header of 17 probes", 0);
    expect(planner_display_read_table(bytes(header), sizeof header - 1, FEW_SLICES) == 3, "header of 17 probes", 1);
    answer = planner_display_plan_text(bytes(header), sizeof header - 1, out, sizeof out);
    expect(PLANNER_LENGTH(answer) == 5 && memcmp(out, "e003\n", 5) == 0, "display's refusal printed", 0);
}

int main(void) {
    read_and_write();
    plan();
    fleet();
    fleet_logged();
    one_end();
    one_end_logged();
    bag();
    turned();
    script();
    open_nothing();
    restarted();
    short_probe();
    display();
    display_limits();
    return failures == 0 ? 0 : 1;
}
