//! Every record that lists of openings, frames and restarts lead a fleet to on a small site, each line
//! from each, and what demand 3 says of them.

use crate::channel::{opening, restart};
use crate::compare_fleet::{assert_marked, Fleet};
use crate::ends::{Entry, Frame, What};
use crate::fleet::{changes, permits, rested, Site, BYTES, MARKS};
use crate::reference::{plan, Table};
use std::collections::HashMap;

/// The fleet of a site, whoever computes it.
pub trait Acts {
    /// One line with an entry free; the record is altered where it is accepted.
    fn event(&mut self, record: &mut [u8], line: &[u8]) -> Result<Entry, u8>;

    fn finished(&mut self, record: &[u8]) -> bool;
}

impl Acts for Site {
    fn event(&mut self, record: &mut [u8], line: &[u8]) -> Result<Entry, u8> {
        Site::event(self, record, line, 0, 1)
    }

    fn finished(&mut self, record: &[u8]) -> bool {
        Site::finished(self, record)
    }
}

/// The library beside the second implementation.
impl Acts for Fleet {
    #[track_caller]
    fn event(&mut self, record: &mut [u8], line: &[u8]) -> Result<Entry, u8> {
        self.set_record(record);
        let answer = Fleet::event(self, line, 0, 1);
        record.copy_from_slice(self.record());
        answer
    }

    #[track_caller]
    fn finished(&mut self, record: &[u8]) -> bool {
        self.set_record(record);
        Fleet::finished(self) == Ok(true)
    }
}

/// A line, and for a frame the place of the byte that permits it.
struct Line {
    bytes: Vec<u8>,
    permitted_by: Option<usize>,
}

impl Line {
    /// Whether it is an opening, or a frame that the record lets be sent; a restart is neither.
    fn may_come(&self, record: &[u8]) -> bool {
        match self.permitted_by {
            Some(at) => permits(at % BYTES, record[at]),
            None => self.bytes.starts_with(b"00"),
        }
    }

    fn is_marked(&self, record: &[u8]) -> bool {
        self.permitted_by.is_none_or(|at| record[at + MARKS] == 1)
    }
}

/// The openings, the restarts if they are wanted, and every offer and refusal on a link.
fn every_line(table: &Table, restarts: bool) -> Vec<Line> {
    let free = |frame: Frame| Line {
        bytes: frame.line(),
        permitted_by: None,
    };
    let probes = 0..table.needs.len() as u16;
    let mut lines: Vec<Line> = probes.clone().map(|p| free(opening(table, p))).collect();
    if restarts {
        lines.extend(probes.map(|p| free(restart(table, p))));
    }
    for (place, link) in table.links.iter().enumerate() {
        let (up, down) = ((link.low, link.high), (link.high, link.low));
        let frames = [(1, up), (2, down), (1, down), (2, up)];
        for (at, (kind, (from, to))) in frames.into_iter().enumerate() {
            let number = table.number;
            let frame = Frame {
                kind,
                number,
                from,
                to,
            };
            lines.push(Line {
                bytes: frame.line(),
                permitted_by: Some(BYTES * place + at),
            });
        }
    }
    lines
}

/// An accepted line, its entry, and the place of the record after.
struct Step {
    line: usize,
    entry: Entry,
    to: usize,
}

impl Step {
    fn is_restart(&self) -> bool {
        self.entry.what == What::Restarted
    }
}

/// The records, the first of them fresh, each with the lines that it accepts.
pub struct Reach<'a> {
    table: &'a Table,
    lines: Vec<Line>,
    records: Vec<Vec<u8>>,
    steps: Vec<Vec<Step>>,
    finished: Vec<bool>,
}

/// How many there were.
#[derive(Debug, Default, PartialEq)]
pub struct Reached {
    pub records: usize,
    pub finished: usize,
    /// Frames that altered a byte of a finished fleet.
    pub late: usize,
    /// The most changes that a list without a restart makes on a link.
    pub changes: usize,
}

impl Reached {
    pub fn add(&mut self, more: Reached) {
        self.records += more.records;
        self.finished += more.finished;
        self.late += more.late;
        self.changes = self.changes.max(more.changes);
    }
}

/// The sum of the links' bytes, without the marks.
fn sum(record: &[u8]) -> usize {
    let links = record.chunks_exact(BYTES);
    let bytes = links.flat_map(|link| &link[..MARKS]);
    bytes.map(|&byte| usize::from(byte)).sum()
}

impl<'a> Reach<'a> {
    /// All records, with or without restarts. A frame is refused, by 27, exactly where its mark is 0;
    /// `assert_marked` holds each mark to the bytes so far.
    #[track_caller]
    pub fn of(table: &'a Table, restarts: bool, fleet: &mut impl Acts) -> Reach<'a> {
        let fresh = vec![0; BYTES * table.links.len()];
        let mut places = HashMap::from([(fresh.clone(), 0)]);
        let mut reach = Reach {
            table,
            lines: every_line(table, restarts),
            records: vec![fresh],
            steps: Vec::new(),
            finished: Vec::new(),
        };
        while let Some(before) = reach.records.get(reach.steps.len()).cloned() {
            reach.finished.push(fleet.finished(&before));
            let mut steps = Vec::new();
            for (place, line) in reach.lines.iter().enumerate() {
                let mut after = before.clone();
                let answer = fleet.event(&mut after, &line.bytes);
                assert_eq!(answer.err(), (!line.is_marked(&before)).then_some(27));
                let Ok(entry) = answer else { continue };
                assert_marked([&before, &after]);
                let next = reach.records.len();
                let to = *places.entry(after.clone()).or_insert(next);
                if to == next {
                    reach.records.push(after);
                }
                let line = place;
                steps.push(Step { line, entry, to });
            }
            reach.steps.push(steps);
        }
        reach
    }

    /// Demand 3's claims.
    #[track_caller]
    pub fn check(&self) -> Reached {
        let kept = plan(self.table).kept;
        let mut reached = Reached {
            records: self.records.len(),
            changes: self.check_ways_on(),
            ..Reached::default()
        };
        for place in 0..self.records.len() {
            self.check_refused(place, &kept);
            self.check_finished(place, &kept, &mut reached);
        }
        reached
    }

    /// A byte 2, and the mark of a refusal, stand on a kept link alone; so does what an event refuses
    /// or displaces.
    #[track_caller]
    fn check_refused(&self, place: usize, kept: &[bool]) {
        for (link, kept) in self.records[place].chunks_exact(BYTES).zip(kept) {
            let refused =
                link[..MARKS].contains(&2) || link[MARKS + 1] == 1 || link[MARKS + 3] == 1;
            assert!(*kept || !refused);
        }
        for Step { entry, .. } in &self.steps[place] {
            let of = |link: &usize| self.table.links[*link].ends();
            let ends = |one: u16, other: u16| [one.min(other).into(), one.max(other).into()];
            let refused = match entry.what {
                What::Refused(link) => link,
                What::Displacing { displaced, .. } => {
                    let two = ends(entry.probe, displaced);
                    let mut links = 0..self.table.links.len();
                    links.find(|link| of(link) == two).expect("their link")
                }
                _ => continue,
            };
            assert!(kept[refused]);
        }
    }

    /// Finished means that no opening and no frame that may be sent now alters a byte. Then both ends
    /// rest a link exactly when the plan does not keep it, and every line but a restart leaves the
    /// fleet finished.
    #[track_caller]
    fn check_finished(&self, place: usize, kept: &[bool], reached: &mut Reached) {
        let record = &self.records[place];
        let alters = |step: &&Step| changes(record, &self.records[step.to]) > 0;
        let comes = |step: &&Step| self.lines[step.line].may_come(record);
        let altered = self.steps[place]
            .iter()
            .filter(comes)
            .any(|step| alters(&step));
        assert_eq!(self.finished[place], !altered);
        if altered {
            return;
        }
        for (link, kept) in record.chunks_exact(BYTES).zip(kept) {
            assert_eq!(rested(link), [!kept; 2]);
        }
        let others = || self.steps[place].iter().filter(|step| !step.is_restart());
        assert!(others().all(|step| self.finished[step.to]));
        reached.finished += 1;
        reached.late += others().filter(alters).count();
    }

    /// From each record openings and frames that may be sent lead to the finish, and no list without
    /// a restart makes more than four changes on a link; answers the most. An event raises the bytes'
    /// sum where it alters the record, so that the records are gone through from the largest sum down.
    #[track_caller]
    fn check_ways_on(&self) -> usize {
        let mut order: Vec<usize> = (0..self.records.len()).collect();
        order.sort_by_key(|&place| sum(&self.records[place]));
        let mut leads = self.finished.clone();
        let mut most = vec![vec![0; self.table.links.len()]; self.records.len()];
        for place in order.into_iter().rev() {
            let before = &self.records[place];
            let steps = self.steps[place].iter().filter(|step| !step.is_restart());
            for Step { line, to, .. } in steps.filter(|step| step.to != place) {
                let after = &self.records[*to];
                assert!(sum(after) > sum(before));
                leads[place] |= self.lines[*line].may_come(before) && leads[*to];
                let links = before.chunks_exact(BYTES).zip(after.chunks_exact(BYTES));
                for (link, (before, after)) in links.enumerate() {
                    let changed = changes(before, after) + most[*to][link];
                    most[place][link] = most[place][link].max(changed);
                }
            }
            assert!(leads[place]);
        }
        let most = most.into_iter().flatten().max().unwrap_or(0);
        assert!(most <= 4);
        most
    }
}
