#!/usr/bin/env python3
"""Counts the places of docs/DESIGN-PASS.md.

usage: python3 tools/design_places.py [-v] [-c] [POINT ..]      at the top of the repository; with no point all eight

For each point: the sum, then each kind of place with its count. A kind in brackets is told apart and not in the sum. -c tells the sums by crate
as well, in the order of crates.txt; a group of twins and a fact stand with the first of its functions. -v lists the places, as file:line name.
Behind a name, C: a crate of exports, or packed_answers, calls or matches it; D: README.md, docs/CLAIMS.md or docs/DECISIONS.md name it with its
crate or module; d: they have the bare word between backticks, which may be a definition's.
Points 1 to 7 read crates/*/src/*.rt without comments and without tests.rt, point 8 crates/*/proofs. Names that are listed here (of twins, of
results that stand for none, of what is written by hand, of switches) count while a function outside of impls, or a type, of that name stands in
that crate; a result or a parameter that is listed with its type, while it has that type.
"""

import collections
import glob
import os
import re
import sys

DOCUMENTS = ("README.md", "docs/CLAIMS.md", "docs/DECISIONS.md")
WORD = re.compile(r"[^\s(){}\[\],;.λ«»\"`]+")

# ---- the sources


def read(path):
    with open(path, encoding="utf-8") as f:
        return f.read()


def closing(text, at):
    """Where the bracket at this offset is closed."""
    opened, depth = text[at], 0
    closed = {"(": ")", "{": "}", "[": "]", "<": ">"}[opened]
    for i in range(at, len(text)):
        depth += (text[i] == opened) - (text[i] == closed and text[i - 1 : i + 1] != "->")
        if depth == 0:
            return i
    raise ValueError("a bracket is not closed")


def split(text, mark):
    """The parts between the marks that stand in no bracket."""
    parts, depth, start = [], 0, 0
    for i, c in enumerate(text):
        depth += (c in "([{<") - (c in ")]}" or (c == ">" and text[i - 1] != "-"))
        if c == mark and depth == 0:
            parts.append(text[start:i])
            start = i + 1
    return [p.strip() for p in parts + [text[start:]] if p.strip()]


class Place:
    def __init__(self, path, line, name, note=""):
        self.path, self.line, self.name, self.note = path, line, name, note
        self.crate = path.split("/")[1]
        self.module = os.path.splitext(os.path.basename(path))[0]


class Function(Place):
    """A function: its parameters by name, its result, its clauses and its body."""

    def __init__(self, path, text, m):
        super().__init__(path, text.count("\n", 0, m.start()) + 1, m.group(3))
        self.method, self.c = bool(m.group(1)), bool(m.group(2))
        at = m.end()
        self.bounds = ""
        if text[at] == "<":
            end = closing(text, at)
            self.bounds, at = text[at + 1 : end], end + 1
        end = closing(text, at)
        self.params = dict((p.split(":", 1)[0].strip(), p.partition(":")[2].strip()) for p in split(text[at + 1 : end], ","))
        at = end + 1
        m = re.compile(r"\s*-> ((?:\[[^\]]*\]|[^{;\[\n])*)").match(text, at)
        self.result = m.group(1).strip() if m else ""
        at = m.end() if m else at
        m = re.compile(r"\s*where\b.*?(?=\s(?:requires|ensures)\b|\{|;)", re.S).match(text, at)
        at = m.end() if m else at
        self.clauses = []
        while True:
            m = re.compile(r"\s*(requires|ensures)(?: \w+)? \{").match(text, at)
            if not m:
                break
            end = closing(text, m.end() - 1)
            self.clauses.append((m.group(1), " ".join(text[m.end() : end].split())))
            at = end + 1
        at = re.compile(r"[{;]").search(text, at).start()
        self.start = at + 1
        self.body = text[at + 1 : closing(text, at)] if text[at] == "{" else ""


class Type(Place):
    """An enum with its variants, or a struct with its fields by name."""

    def __init__(self, path, text, m):
        super().__init__(path, text.count("\n", 0, m.start()) + 1, m.group(2))
        at = re.compile(r"[{(;]").search(text, m.end()).start()
        self.parts = split(text[at + 1 : closing(text, at)], ",") if text[at] != ";" else []
        self.fields = dict(f.groups() for f in (re.match(r"(?:pub )?(\w+): (.*)", p, re.S) for p in self.parts) if f) if m.group(1) == "struct" else {}


def bare(text):
    """The source without comments, and without brackets in strings and characters; each line keeps its place."""
    text = re.sub(r'"(?:\\.|[^"\\])*"|//[^\n]*', lambda m: re.sub(r"[(){}\[\]]", " ", m.group()) if m.group()[0] == '"' else " " * len(m.group()), text)
    return re.sub(r"'[(){}\[\]]'", "' '", text)


def used_by(text):
    """The names of other crates that a source has, each with its crate."""
    text, found, crate_of = re.sub(r"(?m)^ghost use .*", "", text), set(), {}
    for path, names in re.findall(r"(?m)^use ([\w:]+?)(?:::\{([^}]*)\})?;", text):
        first, last = path.split("::")[0], path.split("::")[-1]
        for name in re.findall(r"\w+", names) or [last]:
            crate_of[name] = first
            found.add((first, name))
    for path in re.findall(r"\w+(?:::\w+)+", text):
        words = path.split("::")
        found.add((crate_of.get(words[0], words[0]), words[-1]))
    return found


class Sources:
    def __init__(self):
        self.texts, self.functions, self.enums, self.structs = {}, [], [], []
        for path in sorted(glob.glob("crates/*/src/**/*.rt", recursive=True)):
            if path.endswith("/tests.rt"):
                continue
            text = bare(read(path))
            self.texts[path] = text
            self.functions += [Function(path, text, m) for m in re.finditer(r'^( *)(?:pub )?(extern "C" )?fn (\w+)', text, re.M)]
            for m in re.finditer(r"^(?:pub )?(enum|struct) (\w+)", text, re.M):
                (self.enums if m.group(1) == "enum" else self.structs).append(Type(path, text, m))
        self.inner = [f for f in self.functions if not f.c]
        self.types = self.enums + self.structs
        self.exported = {x for p, t in self.texts.items() if re.match(r"crates/(?:\w+_exports|packed_answers)/", p) for x in used_by(t)}
        spans = re.findall(r"`([^`\n]+)`", "".join(read(p) for p in DOCUMENTS))
        self.named = {tuple(n.split("::")) for s in spans for n in re.findall(r"\w+(?:::\w+)*", s)}

    def find(self, crate, name, of=None):
        of = self.inner + self.types if of is None else of
        return [x for x in of if x.crate == crate and x.name == name and not getattr(x, "method", False)]

    def marks(self, x):
        exported = (x.crate, x.name) in self.exported
        told = any(len(n) > 1 and n[-1] == x.name and set(n[:-1]) <= {x.crate, x.module} for n in self.named)
        return ("C" if exported else "") + ("D" if told else "d" if (x.name,) in self.named else "")


def noted(f, note):
    x = Place(f.path, f.line, f.name, note)
    return x


def listed(s, names, of=None):
    """The functions and types of a list 'crate: name name; ..' that stand."""
    found = []
    for part in names.split(";"):
        crate, words = part.split(":")
        for name in words.split():
            found += s.find(crate.strip(), name, of)
    return found


# ---- 1

# Results that are a number even where there is none, with the type of the result.
NONE = {
    "usize": "bit_maps: next; table_links: next_own first_from link_of between; probe_decisions: best_in; fleet_rules: best_with; plan_turns_search: next_offer;"
    " probe_hearing: count_frames; script_steps: line_end; script_table: table_end; plan: print; script: refuse; script_reads: end",
    "u16": "wake_log: link_place displaced_probe; plan_turns_search: first_mark",
    "u64": "packed_answers: entry",
    "Survey": "fleet_rules: survey",
}
CODES = ("u8", "u16", "u32", "u64", "usize", "&mut [u16]", "&[u16]")


def payload(variant):
    return "(" in variant or "{" in variant


def is_option_or_result(e, functions):
    if any(re.search(rf"Result<.*,\s*(?:\w+::)*{e.name}>", f.result) for f in functions):
        return False
    with_value = sum(map(payload, e.parts))
    if len(e.parts) == 2 and with_value == 2 or len(e.parts) in (2, 3) and with_value == 1:
        return True
    returned = any(re.search(rf"\b{e.name}$", f.result) and f.crate == e.crate for f in functions)
    return len(e.parts) in (2, 3) and with_value == 0 and returned


def fault_functions(s):
    return [f for f in s.inner if f.result == "u8" and (f.name.endswith("fault") or any("fault" in c for k, c in f.clauses if k == "ensures"))]


def point1(s):
    enums = [e for e in s.enums if is_option_or_result(e, s.functions)]
    refusing = {e.name for e in enums if any(v.startswith("Refused") for v in e.parts)}
    base = lambda t: t.split("::")[-1].split("<")[0]
    flagged, pairs = [], []
    for x in s.structs:
        if len(x.fields) > 1:
            if any((n == "fault" and t != "()") or t == "bool" or base(t) in refusing for n, t in x.fields.items()):
                flagged.append(x)
            elif any(base(t) in {e.name for e in enums} for t in x.fields.values()):
                pairs.append(x)
    faults = fault_functions(s)
    kinds = [noted(f, n) for f in s.inner for n, t in f.params.items() if n in ("kind", "said", "packed") and t in CODES]
    kinds += [noted(f, "result") for f in s.inner if f.name in ("kind_of", "packed_event") and f.result in CODES]
    kinds += [noted(x, "field " + n) for x in s.structs for n, t in x.fields.items() if n == "kind" and t in CODES]
    handed = [noted(f, n) for f in s.inner for n, t in f.params.items() if n in ("fault", "state", "refusal") and t == "u8"]
    none = [f for t, names in NONE.items() for f in listed(s, names, s.inner) if f.result == t]
    told = [f for f in s.inner if re.search(r"\b(Read|Write)\b", f.bounds) and f.result == "bool"]
    tests = []
    names = {f.name for f in faults}
    for f in s.inner:
        known = {m.group(1) for m in re.finditer(r"let (\w+) = (?:\w+::)*(\w+)\(", f.body) if m.group(2) in names}
        known |= {n for n, t in f.params.items() if n in ("state", "fault") and t == "u8"}
        for m in re.finditer(r"if ([\w.]+) (?:!=|==) 0 \{", f.body):
            if m.group(1) in known or m.group(1).endswith(".fault"):
                tests.append(Place(f.path, s.texts[f.path].count("\n", 0, f.start + m.start()) + 1, f.name, m.group(1)))
    return [
        ("enums of Option's or Result's shape", True, enums),
        ("structs of a flag, a fault or an answer with a value beside it", True, flagged),
        ("functions whose result is a fault, 0 for none", True, faults),
        ("kinds and events as numbers: a parameter, a field or a result", True, kinds),
        ("refusals as numbers: a parameter", True, handed),
        ("results that are a number even where there is none", True, none),
        ("reading and writing that answers false where it fails", True, told),
        ("a found line with the place behind it: both always told", False, pairs),
        ("uses: tests of a fault against 0", False, tests),
    ]


# ---- 2

TWINS = [
    ("the same at two limits; each a call of one function with limits", "table: check_table; table_display: check_table"),
    ("likewise, and with or without more text behind", "table_read: read_table read_table_prefix; table_display: read_table"),
    ("likewise", "table_write: write_table; table_display: write_table"),
    ("buffers of two sizes", "plan_methods: plan_by_slse; plan_display: plan_by_slse"),
    ("buffers of two sizes", "plan_methods: plan_by_turns; plan_display: plan_by_turns"),
    ("buffers of two sizes", "plan_output: plan_text; plan_display: plan_text"),
    ("u8 or u16 as a number", "hex_digits: wide; table: wide"),
    ("zeros: u16, u8, or the first of them", "table: clear_counts; plan_turns: clear; plan_slse: clear"),
    ("copies: u8 or u16, to an offset, or turned round", "script_steps: copy; plan_order: copy_order; plan_turns_search: turn_round; table_write: put_closing"),
    ("entries stored, or packed numbers", "bag_entries: append_all store_all"),
    ("one entry stored, or its packed number", "wake_log: append; packed_answers: store"),
    ("one entry read, or its packed number", "wake_log: entry_at; packed_answers: entry"),
    ("a place of the record: two constants", "fleet_rules: out_at in_at"),
    ("a byte or a mark: four constants", "fleet_rules: out_byte in_byte out_mark in_mark"),
    ("an event with its entry's place", "probe_log: open_told hear_told; fleet_log: event_told"),
    ("an event with a log of entries", "probe_log: open_logged hear_logged hear_bag; fleet_log: event_logged"),
    ("a lent log of 16 entries", "script_m11: keep_line keep_opening keep_frame; script_bag: keep_bag"),
    ("the kept links counted: 1 or the cost", "plan_methods: kept_count kept_cost"),
    ("written to one of two streams", "standard_io: write_output write_error"),
    ("a line where it fits: 15 or 5 bytes", "script_lines: put_logged put_refused"),
    ("lines of digit fields: how many and how wide", "table_write: put_triple put_need; plan_lines: put_head put_short; script_lines: put_entry put_last; probe_frame: write_frame"),
    ("a count or a refusal, packed", "table_exports: packed_writing; packed_answers: packed_output; probe_exports: packed_hearing"),
    ("a bool or a refusal, packed", "probe_exports: packed_resting; fleet_exports: packed_finishing"),
    ("64 links as a word", "probe_turning: word_with; probe_state: own_word"),
    ("a map filled word by word", "probe_turning: fill; probe_state: own_map"),
    ("four lengths: != and 20, or < and 8", "probe_state: length_fault; probe_turning: rows_fault"),
    ("counts by probe: all links, or those with a byte", "table: count_degrees; fleet_state: count_bytes"),
    ("a fault with nothing beside it", "probe_checks: refused; probe_hearing: refused; fleet: refused"),
    ("the length of an Output, or 0", "plan: print; script: refuse; script_reads: end"),
    ("marks and directions: four entries each, at 0 or at 2", "plan_turns_search: of_probe of_direction"),
    ("likewise stored", "plan_turns_search: set_of_probe set_of_direction"),
    ("entries that stand for none: 64 or 16", "probe_hearing: no_entries; script_m11: fresh"),
    ("a kind's event, with or without an opening", "probe_checks: event_of; fleet: line_event"),
    ("a line at 0 or at an offset, or by the crate below", "reader: first_line line_at; lines: find_line"),
    ("whether the text ends, or by the crate below", "reader: ends_at; lines: is_end"),
    ("1 or a value where a byte is 1", "plan_methods: counted; fleet_rules: one_if"),
    ("one more or one less", "table: add_one take_one"),
    ("types: a length or a refusal", "output: Output; table_write: Writing; probe_bags: Hearing"),
    ("types: a bool or a refusal", "probe: Resting; fleet: Finishing"),
    ("types: fine or a refusal", "table: Checking; probe_turning: Turning"),
    ("types: a number or a failure", "standard_io: Filling; script: Ending"),
    ("types: what befalls, with usize or u16", "probe_rules: Outcome; wake_log: What"),
    ("types: a fault with what is beside it", "reader: Number Triple; table_text: Header Link; probe_frame: FrameLine; probe_checks: Heard; probe_hearing: Checked; fleet: LineEnds"),
    ("types: a line and what is behind it", "lines: Found; reader: Taken"),
    ("types: an answer with its entries", "wake_log: Told; probe_hearing: ToldBag"),
]
NEAR = [
    ("what befalls, on maps or on the fleet's bytes", "probe_decisions: decide decide_opening decide_offer; fleet_rules: decide decide_opening decide_offer"),
    ("the record altered, maps or the fleet's bytes", "probe_decisions: alter; fleet_rules: alter_fleet"),
    ("a frame or a line checked", "probe_checks: check_frame; fleet: check_line"),
    ("S-LSE's two passes", "plan_slse: add_links remove_links"),
    ("first fault of 0 to n", "probe_record: bytes_fault; fleet_state: bytes_fault over_spare_fault; probe_state: bits_fault; table: links_fault; table_text: need_lines_fault link_lines_fault"),
    ("counts of what a test passes", "table_links: degree; probe_record: ones; plan_lines: short_count"),
]
KEYWORDS = set("let mut while if else return match for in as loop break continue true false".split())


def shape(f):
    """The signature and the body, each name and number by its first place alone."""
    text = ", ".join(f"{n}: {t}" for n, t in f.params.items()) + " -> " + f.result + " | " + f.body
    seen = {}
    turn = lambda t: seen.setdefault(t, f"v{len(seen)}") if re.match(r"[A-Za-z_]", t) and t not in KEYWORDS else "n" if re.match(r"b?'|\d", t) else t
    return " ".join(map(turn, re.findall(r"[A-Za-z_]\w*|\d\w*|b?'(?:\\.|[^'])'|\S", re.sub(r"(?:\w+::)+(\w+)", r"\1", text))))


def point2(s):
    groups, near, members, known = [], [], [], set()
    for title, names in TWINS:
        found = listed(s, names)
        known |= {(x.crate, x.name) for x in found}
        if len(found) > 1:
            groups.append(noted(found[0], f"and {', '.join(x.crate + '::' + x.name for x in found[1:])}: {title}"))
            members += [noted(x, title) for x in found]
    for title, names in NEAR:
        found = listed(s, names)
        if len(found) > 1:
            near.append(noted(found[0], f"and {', '.join(x.crate + '::' + x.name for x in found[1:])}: {title}"))
    shapes = collections.defaultdict(list)
    for f in s.inner:
        shapes[shape(f)].append(f)
    equal = [x for x in shapes.values() if len(x) > 1]
    unlisted = [noted(x[0], "and " + ", ".join(y.crate + "::" + y.name for y in x[1:])) for x in equal if not all((y.crate, y.name) in known for y in x)]
    c = [f for f in s.functions if f.c]
    return [
        ("groups of twins", True, groups),
        ("the members of these groups", False, members),
        ("groups that differ by more", False, near),
        ("functions of one shape that no group has", False, unlisted),
        ("functions for C, whose names stay", False, c),
    ]


# ---- 3

LOOPS = [
    (
        "copies, fills, or stores one entry at each place",
        "bag_entries: append_all store_all; plan_order: start_order copy_order; plan_slse: clear; plan_turns: clear write_plan take_needs; table: clear_counts;"
        " plan_turns_search: start_marks turn_round put_spares; script_steps: copy; table_write: put_closing; probe_state: own_map; probe_turning: fill",
    ),
    (
        "counts, sums or folds",
        "bit_maps: ones; probe_record: ones; plan_lines: short_count; plan_methods: kept_count kept_cost; table_links: degree; hex_digits: read_by; probe_state: own_word has_own;"
        " probe_turning: word_with; table: are_rising",
    ),
    (
        "finds the first, any, or whether all",
        "probe_record: bytes_fault; fleet_state: bytes_fault over_spare_fault; table: links_fault; probe_state: bits_fault; table_text: need_lines_fault link_lines_fault stands_at;"
        " fleet_finishing: none_alters none_opens; plan_order: is_falling; table_links: next_own; lines: find_line; bit_maps: next",
    ),
    (
        "takes a step at each index",
        "fleet_state: count_bytes; table: count_degrees; plan_order: count_digits count_larger distribute; plan_slse: add_links remove_links; plan_turns_search: chain_links put_links;"
        " plan_lines: put_kept put_shorts; table_write: put_needs put_links; table_read: store_needs store_links; plan_turns: take_turns; probe_hearing: hear_frames;"
        " probe_decisions: remove_tried; probe_turning: store; hex_digits: put_number",
    ),
]


def loops(s):
    for f in s.functions:
        for m in re.finditer(r"\b(while|loop|for)\b([^{]*)\{", f.body):
            at = m.end() - 1
            body = f.body[at + 1 : closing(f.body, at)]
            line = s.texts[f.path].count("\n", 0, f.start + m.start()) + 1
            yield f, m.group(1), m.group(2).strip(), body, line


def point3(s):
    by_hand, others, plain, fors = [], [], [], []
    for f, word, test, body, line in loops(s):
        x = Place(f.path, line, f.name, test)
        if word == "for":
            fors.append(x)
        elif word == "loop":
            plain.append(x)
        elif any(re.search(rf"\b{m}\b", test) for m in re.findall(r"\b(\w+) [+-]= 1;", body)):
            by_hand.append(x)
        else:
            others.append(x)
    kinds, known = [], set()
    for title, names in LOOPS:
        found = {(f.crate, f.name) for f in listed(s, names, s.inner)}
        known |= found
        kinds.append(("of these: " + title, False, [x for x in by_hand if (x.crate, x.name) in found]))
    kinds.append(("of these: in no list", False, [x for x in by_hand if (x.crate, x.name) not in known]))
    return [
        ("while loops that count an index of their test by 1", True, by_hand),
    ] + kinds + [
        ("while loops that step otherwise", False, others),
        ("loop", False, plain),
        ("for", False, fors),
    ]


# ---- 4

BY_HAND = [
    (
        "conversions between an enum, a struct or a number and another",
        "wake_log: code link_place displaced_probe; packed_answers: packed_entry packed_answer packed_output store; table_exports: packed_checking packed_reading packed_writing;"
        " plan_exports: packed_planning; probe_exports: packed_asked packed_resting packed_turning packed_hearing; fleet_exports: packed_finishing; probe: kind_of;"
        " probe_hearing: packed_event unpacked_event; probe_checks: event_of; fleet: line_event changes_of; probe_rules: what_of entry_of; wake_log: tell; hex_digits: wide; table: wide;"
        " plan_turns_search: entry store",
    ),
    (
        "order and equality",
        "table: order_fault are_rising; table_links: dearer goes_before is_earlier are_ends joins; plan_turns_search: cheaper; table_text: stands_at; fleet: is_of_one_probe; plan_lines: is_short",
    ),
    (
        "copying and filling",
        "script_steps: copy append; plan_order: copy_order; table_write: put_closing; plan_slse: clear; plan_turns: clear; table: clear_counts; plan_turns_search: start_marks turn_round; bag_entries: append_all",
    ),
    (
        "printing",
        "hex_digits: digit put_number; output: put_refusal; table_write: put_triple put_need put_needs put_links put_table; plan_lines: put_head put_link put_kept put_short put_shorts;"
        " script_lines: put_entry put_logged put_refused put_answer put_last put_unclosed; probe_frame: write_frame",
    ),
    ("the least of two numbers, and a difference that stops at 0", "wake_log: free; table_links: spare_of; script_lines: cap; script_output: begun"),
    ("values to start from", "probe_hearing: no_entries; script_m11: fresh; script_pieces: begin"),
]


def lines_with(s, pattern, inner=True):
    found = []
    for f in s.inner if inner else s.functions:
        for m in re.finditer(pattern, f.body):
            found.append(Place(f.path, s.texts[f.path].count("\n", 0, f.start + m.start()) + 1, f.name))
    return found


def point4(s):
    kinds = [(title, True, listed(s, names, s.inner)) for title, names in BY_HAND]
    known = {(x.crate, x.name) for k in kinds for x in k[2]}
    one_match = [f for f in s.inner if re.fullmatch(r"\s*match \w+ \{.*\}\s*", f.body, re.S) and (f.crate, f.name) not in known]
    return kinds + [
        ("an Entry of probe 0 written out where there is none", True, lines_with(s, r"Entry \{\s*probe: 0,")),
        ("a Progress of three zeros written out", True, lines_with(s, r"Progress \{\s*used: 0,\s*held: 0,\s*changed: 0,\s*\}")),
        ("a division rounded up", True, lines_with(s, r"\(links \+ 63\) / 64")),
        ("functions that are one match on a parameter and in no list", False, one_match),
    ]


# ---- 5

TABLE = [
    ("number, probes, links, needs, lows, highs, costs", "number probes links needs lows highs costs"),
    ("of the others: probes, links, needs, lows, highs, costs", "probes links needs lows highs costs"),
    ("of the others: needs, lows, highs, costs", "needs lows highs costs"),
    ("of the others: links, lows, highs", "links lows highs"),
    ("of the others: lows, highs", "lows highs"),
]
GROUPS = [
    ("standing, refused_out, held, refused_in", "standing refused_out held refused_in"),
    ("needs, degrees", "needs degrees"),
    ("own, links, needs, costs, probe", "own links needs costs probe"),
    ("rec, lows, highs", "rec lows highs"),
    ("order, half, digits", "order half digits"),
    ("spares, marks, site", "spares marks site"),
    ("rec, marks, site", "rec marks site"),
    ("from, links, costs, unit", "from links costs unit"),
    ("plan, counts", "plan counts"),
    ("log, used", "log used"),
    ("used, room", "used room"),
    ("entries, used", "entries used"),
    ("line, progress, piece", "line progress piece"),
    ("out, at", "out at"),
    ("text, at", "text at"),
    ("pmax, lmax", "pmax lmax"),
    ("input, output", "input output"),
    ("output, errors", "output errors"),
    ("low, high", "low high"),
]


def stripped(text):
    text = text.strip()
    while text.startswith("(") and closing(text, 0) == len(text) - 1:
        text = text[1:-1].strip()
    return text


def parts(text, lets):
    """The facts of a clause, without its lets."""
    text = stripped(text)
    while text.startswith("let "):
        depth = 0
        opened = 0
        for i in range(len(text)):
            depth += (text[i] in "([{") - (text[i] in ")]}")
            if depth == 0 and text.startswith("let ", i):
                opened += 1
            if depth == 0 and text.startswith(" in ", i):
                opened -= 1
                if opened == 0:
                    break
        lets.append(text[:i].strip())
        text = stripped(text[i + 4 :])
    depth, start, found = 0, 0, []
    for i, c in enumerate(text):
        depth += (c in "([{") - (c in ")]}")
        if c == "→" and depth == 0:  # all that follows stands under what is before it
            break
        if c == "×" and depth == 0:
            found.append(text[start:i])
            start = i + 1
    found.append(text[start:])
    if len(found) == 1:
        return [stripped(found[0])]
    return [p for f in found for p in (parts(f, lets) if f.strip() != stripped(f) else [stripped(f)])]


def point5(s):
    named = lambda g: set(g.split())
    kinds, with_group, seen = [], [], set()
    for title, group in TABLE:
        found = [f for f in s.functions if named(group) <= set(f.params) and id(f) not in seen]
        seen |= {id(f) for f in found}
        kinds.append((f"{title}", False, found))
    for title, group in GROUPS:
        kinds.append((title, False, [f for f in s.functions if named(group) <= set(f.params)]))
    with_group = {id(f) for k in kinds for f in k[2]}
    kinds = [
        (f"{title} ({sum(not f.c for f in found)} and {sum(f.c for f in found)} for C)", counted, found) for title, counted, found in kinds
    ]
    facts, lets = collections.defaultdict(dict), collections.defaultdict(dict)
    for f in s.inner:
        for word, clause in f.clauses:
            named_here = []
            for p in parts(clause, named_here):
                facts[(word, p)][id(f)] = f
            for l in named_here:
                lets[l][id(f)] = f
    often = lambda d: sorted((len(v), k, list(v.values())[0]) for k, v in d.items() if len(v) > 2)[::-1]
    names = lambda d: ", ".join(f"{f.crate}::{f.name}" for f in d.values())
    told = lambda w: [Place(f.path, f.line, f"{n} functions", f"{p} | {names(facts[(word, p)])}") for n, (word, p), f in often(facts) if word == w]
    return [
        (f"functions with a group of parameters that travel together, of {len(s.inner)}", True, [f for f in s.inner if id(f) in with_group]),
        ("facts that three or more functions require", True, told("requires")),
        ("facts that three or more functions ensure", True, told("ensures")),
        ("functions for C with such a group", False, [f for f in s.functions if f.c and id(f) in with_group]),
        ("names given by let in the clauses of three or more functions", False, [Place(f.path, f.line, f"{n} functions", l) for n, l, f in often(lets)]),
    ] + kinds


# ---- 6


def point6(s):
    has = lambda *g: [f for f in s.inner if set(g) <= set(f.params)]
    distinct = lambda *lists: list({id(f): f for l in lists for f in l}.values())
    beside = distinct(has("log", "used"), has("entries", "used"), has("line", "progress"), has("line", "held"), has("text", "n"), has("said", "count"))
    stored = [x for x in s.structs if any(t.startswith("[") for t in x.fields.values()) and len(x.fields) > 1]
    slices = lambda f, names, of: sum(f"[{of}]" in f.params.get(n, "") for n in names.split())
    by_link = [f for f in s.inner if slices(f, "lows highs costs", "u16") > 1]
    by_map = [f for f in s.inner if slices(f, "standing refused_out held refused_in one two", "u64") > 1]
    by_probe = [f for f in s.inner if slices(f, "needs degrees standing held untried spares counts", "u16") > 1]
    halving = [Place(f.path, line, f.name) for f, word, test, body, line in loops(s) if word == "while" and re.search(r"/ 2;", body)]
    arena = [f for f in s.inner if f.crate in ("plan_turns_search", "plan_turns", "plan_methods") and {"site", "marks"} & set(f.params)]
    entries = []
    for path, text in s.texts.items():
        if path.startswith("crates/plan_turns_search/"):
            entries += [Place(path, text.count("\n", 0, m.start()) + 1, m.group(1)) for m in re.finditer(r"^pub const (\w+): usize = \d;", text, re.M)]
    offsets = [f for f in s.inner if re.search(r"\brec\[", f.body)] + listed(s, "fleet_rules: out_at in_at")
    rooms = lines_with(s, r"let mut \w+ = \[[^\]]*; \w+\]")
    return [
        ("a buffer with its used length beside it: parameters", True, beside),
        ("a buffer with its used length beside it: types", True, stored),
        ("parallel arrays by link: two or three of lows, highs, costs", True, by_link),
        ("parallel arrays by map: two or more maps of an end", True, by_map),
        ("parallel arrays by probe: two or more of needs, degrees, spares and counts", True, by_probe),
        ("a sorted list searched by hand", True, halving),
        ("an arena of indices: functions on site or marks", True, arena),
        ("an arena of indices: constants for its entries", True, entries),
        ("a record in bytes, read or written by offsets: 2, 4 or 8 a link", True, offsets),
        ("arrays of a fixed size on the stack", False, rooms),
    ]


# ---- 7

SWITCHES = [
    ("plan_turns_search", "push", "k", "usize"),
    ("plan_turns_search", "chain_links", "k", "usize"),
    ("probe_record", "ones", "at", "usize"),
    ("probe_turning", "word_with", "at", "usize"),
    ("probe_turning", "fill", "at", "usize"),
    ("fleet_state", "count_bytes", "k", "usize"),
    ("fleet_state", "count_bytes", "m", "usize"),
    ("fleet_rules", "side_byte", "value", "u8"),
    ("fleet_rules", "best_with", "value", "u8"),
    ("fleet_rules", "survey", "value", "u8"),
    ("fleet", "line_event", "kind", "usize"),
    ("fleet", "find_ends", "kind", "usize"),
    ("probe_checks", "event_of", "kind", "usize"),
]


def point7(s):
    flags = [noted(f, n) for f in s.inner for n, t in f.params.items() if t == "bool" and (f.crate, f.name) != ("script_lines", "put_last")]
    numbers = [noted(f, n) for crate, name, n, t in SWITCHES for f in s.find(crate, name, s.inner) if f.params.get(n) == t]
    kinds = [noted(f, n) for f in s.inner for n, t in f.params.items() if t.split("::")[-1] == "Kind"]
    limits = [f for f in s.inner if {"pmax", "lmax"} <= set(f.params)]
    return [
        ("a bool that says which step to run", True, flags),
        ("a number that says which step or which of two sides", True, numbers),
        ("an enum that says which step: Kind", False, kinds),
        ("limits handed in: pmax, lmax", False, limits),
    ]


# ---- 8

# Lemmas whose statement the library has, but for the names of variables: core's specs/Cmp and proofs/cmp/Tests, std's proofs/lemmas/Bool.
LIBRARY = "crates/range/proofs/Bools.antt", "and_left and_right and_intro or_intro_left or_intro_right or_cases decided same_bool"


def answers():
    """The answers of the functions' proofs: file, line, name, what it unfolds, and the lines of the answer."""
    for path in sorted(glob.glob("crates/*/proofs/*/**/Answers.antt", recursive=True)):
        lines = read(path).split("\n")
        for i, line in enumerate(lines):
            m = re.match(r"pub (\S+) : goal\.\S+$", line)
            if m:
                j = i + 1
                unfolding = lines[j] if lines[j].startswith("unfolding") else ""
                j += bool(unfolding)
                end = j
                while end < len(lines) and lines[end].strip() and not lines[end].startswith("pub "):
                    end += 1
                text = "\n".join(lines[j:end])
                body = re.sub(rf"^{re.escape(m.group(1))} \w+ =\s*", "", text)
                yield Place(path, i + 1, m.group(1)), unfolding, [l.strip() for l in body.split("\n") if l.strip()]


def uncited():
    """The lemmas and definitions of proofs/ outside of the functions' folders that nothing cites, in order."""
    texts, imports, aliases = {}, collections.defaultdict(list), collections.defaultdict(list)
    for path in sorted(glob.glob("crates/**/*", recursive=True)):
        if os.path.isfile(path) and "/out/" not in path and path.endswith((".antt", ".rt")):
            text = read(path)
            texts[path] = re.sub(r"--.*", "", text) if path.endswith(".antt") else text
            for m in re.finditer(r"(?:ghost )?use Rattle\.(\w+)\.proofs\.([\w.]+)\.\{([^}]*)\}", texts[path]):
                for name in m.group(3).split(","):
                    words = name.split()
                    if words:
                        imports[(m.group(1), m.group(2), words[0])].append((path, words[-1]))
            for m in re.finditer(r"use Rattle\.(\w+)\.proofs\.(\w+) as (\w+)", texts[path]):
                aliases[(m.group(1), m.group(2))].append((path, m.group(3)))
    body = {p: collections.Counter(WORD.findall(re.sub(r"(?m)^(?:pub |ghost )*use .*", "", t))) for p, t in texts.items()}
    for path in texts:
        m = re.fullmatch(r"crates/(\w+)/proofs/(\w+)\.antt", path)
        if not m:
            continue
        lines = texts[path].split("\n")
        specs = {w for names in re.findall(r"(?m)^use Rattle\.\w+\.specs\.[\w.]+\.\{([^}]*)\}", texts[path]) for w in re.findall(r"[\w']+", names)}
        record = None
        for i, line in enumerate(lines):
            if line.strip() and record is not None and len(line) - len(line.lstrip()) <= record:
                record = None
            m2 = re.match(r"( *)(?:pub )?(?:record|data) ", line)
            if record is None and m2:
                record = len(m2.group(1))
            elif record is not None:
                continue
            d = re.match(r"( {0,2})((?:(?:pub|abbrev|unfoldable|record|data) )*)([^\s(){}\[\],;:.]+) :(?: |$)", line)
            if not d or len(d.group(1)) == 1:
                continue
            depth, name, j = len(d.group(1)), d.group(3), i + 1
            mine = lambda l: len(l) - len(l.lstrip()) > depth or re.match(rf" {{{depth}}}({re.escape(name)}[ \n]|unfolding\b)", l + "\n")
            while j < len(lines) and (not lines[j].strip() or mine(lines[j])):
                j += 1
            own = WORD.findall("\n".join(lines[i:j])).count(name)
            if body[path][name] > own:
                continue
            if any(body[p][alias] for p, alias in imports[(m.group(1), m.group(2), name)]):
                continue
            if any(f"proofs.{m.group(2)}.{name}" in t or f"proofs::{m.group(2)}::{name}" in t for t in texts.values()):
                continue
            if any(re.search(rf"\b{alias}\.{re.escape(name)}(?![\w'])", texts[p]) for p, alias in aliases[(m.group(1), m.group(2))]):
                continue
            yield Place(path, i + 1, name), line.split(" : ")[-1].strip() in specs


def point8(s):
    same, tactics = collections.defaultdict(list), []
    for x, unfolding, body in answers():
        if len(body) <= 2:
            same[(unfolding, " ".join(body))].append(x)
        if re.fullmatch(r"(?:[(), ]|search rules|omega arith|refl|λ \w+\.|absurd|cc)+", " ".join(body)):
            tactics.append(noted(x, f"{unfolding} {' '.join(body)}".strip()))
    repeated, texts = [], []
    for (unfolding, body), found in sorted(same.items(), key=lambda i: -len(i[1])):
        if len({x.path for x in found}) > 1:
            texts.append(Place(found[0].path, found[0].line, found[0].name, f"{len(found)} times: {unfolding} {body}".replace(":  ", ": ")))
            repeated += [noted(x, body) for x in found]
    lets, short, widely, of_all = [], [], collections.defaultdict(set), 0
    for path in sorted(glob.glob("crates/*/proofs/*/**/Answers.antt", recursive=True)):
        counts, first = collections.Counter(), {}
        for i, line in enumerate(read(path).split("\n"), 1):
            line = line.strip()
            if line.startswith("let "):
                counts[line] += 1
                first.setdefault(line, i)
                widely[line].add(path)
        for line, n in counts.items():
            if n > 2:
                of_all += n if line != "let a = c.args in" else 0
                (short if line == "let a = c.args in" else lets).append(Place(path, first[line], f"{n} times", line))
    wide = [Place(sorted(p)[0], 1, f"{len(p)} files", l) for l, p in sorted(widely.items(), key=lambda i: -len(i[1])) if len(p) > 2 and len(l) > 60]
    told = "".join(read(p) for p in DOCUMENTS + ("docs/PORT.md", "docs/LANDINGS.md"))
    told = {w for span in re.findall(r"`([^`\n]+)`", told) for w in re.split(r"[.\s:]+", span)}
    comments = " ".join(re.findall(r"//.*", "".join(read(p) for p in s.texts)))
    told |= set(re.findall(r"`(\w+)`", comments))
    helpers = list(uncited())
    path, names = LIBRARY
    in_library = []
    if os.path.exists(path):
        for i, line in enumerate(read(path).split("\n"), 1):
            in_library += [Place(path, i, n) for n in names.split() if line.startswith(f"pub {n} : ")]
    blanks = []
    for path in sorted(glob.glob("crates/**/*.antt", recursive=True)) + sorted(s.texts):
        if "/out/" not in path:
            for i, line in enumerate(read(path).split("\n"), 1):
                if re.search(r"=  +\S", line):
                    blanks.append(Place(path, i, line.strip()[:60]))
    return [
        ("answers of one or two lines that another function's file has too", True, repeated),
        ("lemmas and definitions of proofs/ that nothing cites and no document names", True, [x for x, whole in helpers if not whole and x.name not in told]),
        ("lemmas that the library has", True, in_library),
        (f"let lines that one Answers file has three times or more ({of_all} in {len({x.path for x in lets})} files)", True, lets),
        ("two blanks behind =", True, blanks),
        ("the texts of these answers", False, texts),
        ("let a = c.args in, three times or more in a file", False, short),
        ("answers that are tactics alone", False, tactics),
        ("let lines of over 60 characters in three files or more", False, wide),
        ("what nothing cites, but a document names it or it is the proof of a statement of specs/", False, [x for x, whole in helpers if whole or x.name in told]),
    ]


# ----

POINTS = {
    1: ("own Option and Result, flags with values, numbers for kinds and refusals", point1),
    2: ("twins", point2),
    3: ("loops that count an index by hand", point3),
    4: ("equality, order, copying, conversion and printing by hand", point4),
    5: ("parameters that travel together, facts in three or more contracts", point5),
    6: ("buffers with a length, parallel arrays, sorted lists, arenas", point6),
    7: ("switches on which step to run", point7),
    8: ("proofs", point8),
}


def main(args):
    verbose = "-v" in args
    wanted = [int(a) for a in args if a not in ("-v", "-c")] or sorted(POINTS)
    s = Sources()
    crates = re.findall(r"(?m)^(\w+)(?: \w+)?:", read("crates.txt")) if "-c" in args else []
    for n in wanted:
        title, count = POINTS[n]
        kinds = count(s)
        print(f"{n}. {title}: {sum(len(k[2]) for k in kinds if k[1])}")
        by = collections.Counter(x.crate for k in kinds if k[1] for x in k[2])
        if by and crates:
            print("  " + ", ".join(f"{c} {by[c]}" for c in crates if by[c]))
        for name, counted, places in kinds:
            print(f"  {len(places)} {name}" if counted else f"  [{len(places)} {name}]")
            if verbose:
                for x in places:
                    marks = s.marks(x) if n < 8 else ""
                    print(f"    {x.path}:{x.line} {x.name}" + (f" {marks}" if marks else "") + (f" | {x.note}" if x.note else ""))


if __name__ == "__main__":
    main(sys.argv[1:])
