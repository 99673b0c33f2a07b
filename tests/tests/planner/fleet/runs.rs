//! Runs to the finish in many orders, frames lost, repeated and late, and probes restarting: each ends
//! with the plan.

use planner_tests::channel::{any_restart, frame_after, opening};
use planner_tests::compare_fleet::Fleet;
use planner_tests::ends::{Frame, What};
use planner_tests::events::any_table;
use planner_tests::fleet::{changes, rested, Site, BYTES};
use planner_tests::methods::slse;
use planner_tests::random::{each_seed, Random};
use planner_tests::reference::{plan, Table, FULL};
use planner_tests::sites::{banded, half_needed, largest_hubs, legal_of_size, marked};
use std::collections::VecDeque;

/// Which of the frames under way, or of the probes that may open, comes next.
#[derive(Clone, Copy, Debug)]
enum Next {
    Oldest,
    Newest,
    Any,
}

/// When probes open.
#[derive(Clone, Copy, Debug)]
enum Openings {
    BeforeFrames,
    AfterFrames,
    Between,
}

#[derive(Clone, Copy, Debug)]
struct Order {
    next: Next,
    openings: Openings,
    /// Frames are lost and sent again, repeated, and late.
    lossy: bool,
    restarts: bool,
}

const ORDERS: usize = 15;

/// With the first of them no probe restarts.
const UNWIPED: usize = 12;

/// The first nine differ in the first two, the next in the third, and the last in restarts.
fn order(place: usize) -> Order {
    let nexts = [Next::Oldest, Next::Newest, Next::Any];
    let openings = [
        Openings::BeforeFrames,
        Openings::AfterFrames,
        Openings::Between,
    ];
    Order {
        next: nexts[place % 3],
        openings: openings[place / 3 % 3],
        lossy: place % 2 == 1 || place == 8,
        restarts: place >= UNWIPED,
    }
}

fn take<T>(from: &mut VecDeque<T>, next: Next, random: &mut Random) -> Option<T> {
    match next {
        _ if from.is_empty() => None,
        Next::Oldest => from.pop_front(),
        Next::Newest => from.pop_back(),
        Next::Any => from.remove(random.below(from.len())),
    }
}

struct Run<'a> {
    table: &'a Table,
    site: Site,
    order: Order,
    fleet: Fleet,
    used: usize,
    /// The probes that may have something to open.
    openers: VecDeque<u16>,
    under_way: VecDeque<Frame>,
    sent: Vec<Frame>,
    /// The restarts still to come.
    restarts: usize,
    /// The probe that restarted last.
    restarted: Option<u16>,
    /// How often each link's bytes were altered since the last restart.
    changes: Vec<usize>,
}

/// How many of each probe's links are kept.
fn awake(table: &Table, kept: &[bool]) -> Vec<usize> {
    let mut awake = vec![0; table.needs.len()];
    for (link, &kept) in table.links.iter().zip(kept) {
        for end in link.ends() {
            awake[end] += usize::from(kept);
        }
    }
    awake
}

/// What runs reached.
#[derive(Debug, Default)]
struct Reached {
    /// Up to the finish.
    events: usize,
    restarts: usize,
    /// Frames that altered a byte of a finished fleet.
    late: usize,
    /// Openings at the finish by probes that had enough, and by those that had tried every link.
    enough: usize,
    all_tried: usize,
}

impl Reached {
    /// More than so many events, and more than so many openings of each kind at the finish.
    #[track_caller]
    fn assert_over(&self, events: usize, openings: usize) {
        let fewer = self.enough.min(self.all_tried);
        assert!(self.events > events && fewer > openings, "{self:?}");
    }

    /// At least so many restarts, and so many frames that came too late.
    #[track_caller]
    fn assert_restarted(&self, restarts: usize, late: usize) {
        assert!(self.restarts >= restarts && self.late >= late, "{self:?}");
    }
}

impl Run<'_> {
    fn fresh(table: &Table, order: Order) -> Run<'_> {
        Run {
            table,
            site: Site::of_legal(table.clone()),
            order,
            fleet: Fleet::fresh(table),
            used: 0,
            openers: (0..table.needs.len() as u16).collect(),
            under_way: VecDeque::new(),
            sent: Vec::new(),
            restarts: if order.restarts { 5 } else { 0 },
            restarted: None,
            changes: vec![0; table.links.len()],
        }
    }

    /// A truly sent frame, an opening or a restart is accepted, with an entry free for it.
    #[track_caller]
    fn hear(&mut self, frame: Frame) -> What {
        let before = self.fleet.record().to_vec();
        let line = frame.line();
        let befell = self.fleet.event_on(&self.site, &line, self.used);
        let entry = befell.expect("an opening, a restart or a truly sent frame");
        self.used += 1;
        match entry.what {
            What::Restarted => self.changes.fill(0),
            _ => self.count_changes(&before),
        }
        let may_open = matches!(
            entry.what,
            What::Opened(_) | What::Learnt(_) | What::Restarted
        );
        if may_open {
            self.openers.push_back(entry.probe);
        }
        if let Some(frame) = frame_after(entry, self.table) {
            self.under_way.push_back(frame);
            self.sent.push(frame);
        }
        entry.what
    }

    /// No link has more than four since the last restart.
    #[track_caller]
    fn count_changes(&mut self, before: &[u8]) {
        let links = before.chunks_exact(BYTES);
        let links = links.zip(self.fleet.record().chunks_exact(BYTES));
        for (place, (before, after)) in links.enumerate() {
            if before != after {
                self.changes[place] += changes(before, after);
                assert!(self.changes[place] <= 4);
            }
        }
    }

    /// A probe restarts; what may still be sent to it is sent again.
    #[track_caller]
    fn restart(&mut self, random: &mut Random) {
        self.restarts -= 1;
        let frame = any_restart(self.table, random);
        self.restarted = Some(frame.to);
        assert_eq!(self.hear(frame), What::Restarted);
        let record = self.fleet.record();
        let again = |sent: &&Frame| sent.to == frame.to && self.site.may_be_sent(**sent, record);
        self.under_way.extend(self.sent.iter().filter(again));
    }

    /// A frame may be lost, and is then sent again; an old one may come before it.
    fn next_frame(&mut self, random: &mut Random) -> Option<Frame> {
        let frame = take(&mut self.under_way, self.order.next, random)?;
        if self.order.lossy && random.one_in(4) {
            self.under_way.push_front(frame);
            return Some(random.pick(&self.sent));
        }
        Some(frame)
    }

    fn next_opening(&mut self, random: &mut Random) -> Option<Frame> {
        let probe = take(&mut self.openers, self.order.next, random)?;
        Some(opening(self.table, probe))
    }

    /// None once nothing is under way and no probe has anything to open.
    fn next(&mut self, random: &mut Random) -> Option<Frame> {
        let opening_first = match self.order.openings {
            Openings::BeforeFrames => true,
            Openings::AfterFrames => false,
            Openings::Between => random.one_in(2),
        };
        match opening_first {
            true => self
                .next_opening(random)
                .or_else(|| self.next_frame(random)),
            false => self
                .next_frame(random)
                .or_else(|| self.next_opening(random)),
        }
    }

    /// Runs to the finish; asks now and then whether it has come. Where probes restart, all but the
    /// last may do so on the way; each one left does so behind a finish, and the run goes on.
    #[track_caller]
    fn finish(&mut self, random: &mut Random) {
        while let Some(frame) = self.next(random) {
            if random.one_in(1 + self.table.links.len() / 16) {
                assert!(self.fleet.finished().is_ok());
            }
            self.hear(frame);
            if self.restarts > 1 && random.one_in(1 + self.table.links.len()) {
                self.restart(random);
            }
        }
        assert_eq!(self.fleet.finished(), Ok(true));
        if self.restarts > 0 {
            self.restart(random);
            self.finish(random);
        }
    }

    /// Some of the frames sent, and some of those to the probe that restarted last.
    fn old_frames(&self, random: &mut Random) -> Vec<Frame> {
        let to_it = |frame: &&Frame| Some(frame.to) == self.restarted;
        let to_it: Vec<Frame> = self.sent.iter().filter(to_it).copied().collect();
        let mut old = Vec::new();
        for sent in [&self.sent, &to_it] {
            old.extend((0..sent.len().min(20)).map(|_| random.pick(sent)));
        }
        old
    }

    /// Old frames and openings leave the fleet finished, and where no probe restarted they change
    /// nothing. A probe has enough where the plan keeps no more of its links than its counted need.
    #[track_caller]
    fn late(&mut self, kept: &[bool], reached: &mut Reached, random: &mut Random) {
        for frame in self.old_frames(random) {
            let altered = !matches!(self.hear(frame), What::NoChange(_));
            assert!(self.order.restarts || !altered);
            assert_eq!(self.fleet.finished(), Ok(true));
            reached.late += usize::from(altered);
        }
        let awake = awake(self.table, kept).into_iter();
        for (probe, (awake, need)) in awake.zip(self.table.counted_needs()).enumerate() {
            let opened = self.hear(opening(self.table, probe as u16));
            if awake > need {
                assert_eq!(opened, What::AllTried);
                reached.all_tried += 1;
            } else {
                assert_eq!(opened, What::Enough);
                reached.enough += 1;
            }
        }
    }

    /// Both ends rest a link exactly when the plan does not keep it, and every counted need is met.
    #[track_caller]
    fn assert_planned(&self, kept: &[bool]) {
        for (bytes, kept) in self.fleet.record().chunks_exact(BYTES).zip(kept) {
            assert_eq!(rested(bytes), [!kept; 2]);
        }
        let met = |(awake, need): (&usize, usize)| *awake >= need;
        let awake = awake(self.table, kept);
        assert!(awake.iter().zip(self.table.counted_needs()).all(met));
    }
}

/// In each of these orders. Where no probe restarts, the same record comes out.
#[track_caller]
fn run_all(table: &Table, orders: &[usize], reached: &mut Reached, random: &mut Random) {
    let kept = plan(table).kept;
    assert_eq!(slse(table).kept, kept);
    let mut records = Vec::new();
    for &place in orders {
        let mut run = Run::fresh(table, order(place));
        if random.one_in(2) {
            run.openers.make_contiguous().reverse();
        }
        let restarts = run.restarts;
        run.finish(random);
        reached.events += run.used;
        reached.restarts += restarts - run.restarts;
        run.late(&kept, reached, random);
        run.assert_planned(&kept);
        if !run.order.restarts {
            records.push(run.fleet.record().to_vec());
        }
    }
    assert!(records.iter().all(|record| *record == records[0]));
}

fn all_orders() -> Vec<usize> {
    (0..ORDERS).collect()
}

/// For M1 to M8: at the finish so many probes have enough, and so many have tried every link.
const AT_THE_FINISH: [[usize; 2]; 8] = [
    [4, 0],
    [2, 2],
    [1, 0],
    [2, 0],
    [1, 1],
    [2, 1],
    [2, 1],
    [4, 0],
];

#[test]
fn marked_sites() {
    let random = &mut Random::new(46);
    for (place, probes) in AT_THE_FINISH.into_iter().enumerate() {
        let mut reached = Reached::default();
        run_all(&marked(place), &all_orders(), &mut reached, random);
        assert!(reached.events >= ORDERS);
        let said = [reached.enough, reached.all_tried];
        assert_eq!(said, probes.map(|count| ORDERS * count));
    }
}

#[test]
fn small_sites() {
    let (mut reached, mut with_short) = (Reached::default(), 0);
    each_seed(47, 600, |random| {
        let probes = 1 + random.below(9);
        let links = random.below(probes * (probes - 1) / 2 + 1);
        let table = legal_of_size(probes, links, random);
        run_all(&table, &all_orders(), &mut reached, random);
        with_short += usize::from(table.has_short());
    });
    reached.assert_over(100_000, 5_000);
    reached.assert_restarted(5_000, 500);
    assert!(with_short > 100, "{with_short}");
}

#[test]
fn sites_of_many_kinds() {
    let mut reached = Reached::default();
    for seed in 0..60 {
        let random = &mut Random::new(48 << 32 | seed);
        let table = match seed % 4 {
            0 => banded(random),
            _ => any_table(random),
        };
        if table.links.len() <= 600 {
            run_all(&table, &all_orders(), &mut reached, random);
        }
    }
    reached.assert_over(100_000, 1_000);
    reached.assert_restarted(300, 100);
}

#[track_caller]
fn run_largest(table: Table, random: &mut Random) {
    assert_eq!([table.needs.len(), table.links.len()], [256, 2048]);
    let mut reached = Reached::default();
    let orders = [0, 1, 2, 3, 4, 5, 6, 7, 8, 9, ORDERS - 1];
    run_all(&table, &orders, &mut reached, random);
    reached.assert_over(10 * 4096, 10);
    reached.assert_restarted(5, 1);
}

#[test]
fn largest_site() {
    let random = &mut Random::new(49);
    let any = legal_of_size(256, 2048, random);
    run_largest(half_needed(any, 65_536, random), random);
}

#[test]
fn largest_site_with_hubs() {
    let random = &mut Random::new(50);
    run_largest(half_needed(largest_hubs(FULL), 3, random), random);
}
