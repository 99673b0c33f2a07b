//! Random scripts for a table: frames arrive, are lost, repeated or late, and probes restart, among
//! other lines.

use crate::ends::{other_end, Entry, Frame, What};
use crate::events::{damage_frame, damage_line};
use crate::random::Random;
use crate::reference::Table;
use crate::script::{Script, LOG};

/// The frame that may be sent once this has befallen the probe.
pub fn frame_after(entry: Entry, table: &Table) -> Option<Frame> {
    let from = entry.probe;
    let (kind, to) = match entry.what {
        What::Opened(link) => (1, other_end(table.links[link], from)?),
        What::Refused(link) => (2, other_end(table.links[link], from)?),
        What::Displacing { displaced, .. } => (2, displaced),
        _ => return None,
    };
    let number = table.number;
    Some(Frame {
        kind,
        number,
        from,
        to,
    })
}

pub fn opening(table: &Table, probe: u16) -> Frame {
    Frame {
        kind: 0,
        number: table.number,
        from: probe,
        to: probe,
    }
}

/// A restart is told from an opening by its kind alone.
pub fn restart(table: &Table, probe: u16) -> Frame {
    Frame {
        kind: 3,
        ..opening(table, probe)
    }
}

pub fn any_restart(table: &Table, random: &mut Random) -> Frame {
    restart(table, random.below(table.needs.len()) as u16)
}

pub fn any_opening(table: &Table, random: &mut Random) -> Frame {
    opening(table, random.below(table.needs.len()) as u16)
}

/// An offer or a refusal on a link, whether it was sent or not; an opening where there is no link.
pub fn any_frame(table: &Table, random: &mut Random) -> Frame {
    if table.links.is_empty() {
        return any_opening(table, random);
    }
    let link = table.links[random.below(table.links.len())];
    let (from, to) = random.pick(&[(link.low, link.high), (link.high, link.low)]);
    Frame {
        kind: random.pick(&[1, 2]),
        number: table.number,
        from,
        to,
    }
}

/// A line that is no frame's: empty, of another length, or of any bytes.
pub fn any_bytes(random: &mut Random) -> Vec<u8> {
    let length = random.pick(&[0, 0, 1, 2, 12, 13, 14, 14, 15, 16, 30, 200]);
    let (digits, any) = (b"0123456789abcdef", random.one_in(2));
    let mut byte = || match any {
        true => random.byte(),
        false => random.pick(digits),
    };
    let mut line: Vec<u8> = (0..length).map(|_| byte()).collect();
    line.push(b'\n');
    line
}

/// The frame's line damaged in its numbers or its bytes, or any bytes; closed by a line feed.
fn damaged(mut frame: Frame, table: &Table, random: &mut Random) -> Vec<u8> {
    let mut line = match random.below(4) {
        0 => return any_bytes(random),
        1 => {
            damage_frame(&mut frame, table, random);
            return frame.line();
        }
        _ => frame.line(),
    };
    damage_line(&mut line, random);
    if !line.ends_with(b"\n") {
        line.push(b'\n');
    }
    line
}

/// What the next line is.
#[derive(Clone, Copy, Debug, PartialEq)]
pub enum Sort {
    Opening,
    /// A restart; the frames that were ever sent to the probe are then under way once more.
    Restart,
    /// A frame under way.
    Arriving,
    /// An opening, and a frame under way never arrives.
    Lost,
    /// A frame that was sent at some time, heard already or not.
    Repeated,
    /// A frame on any link, mostly one that nobody sent.
    Unsent,
    Damaged,
}

/// The sort of each line is one of these; the ones listed more often come more often.
pub type Mix = Vec<Sort>;

/// Nothing is lost, and every line is accepted.
pub fn all_accepted() -> Mix {
    let [opening, arriving] = [vec![Sort::Opening; 4], vec![Sort::Arriving; 8]];
    [opening, arriving, vec![Sort::Repeated]].concat()
}

pub fn any_mix(random: &mut Random) -> Mix {
    let sorts = [
        (Sort::Opening, 8),
        (Sort::Restart, 1),
        (Sort::Arriving, 8),
        (Sort::Lost, 2),
        (Sort::Repeated, 3),
        (Sort::Unsent, 2),
        (Sort::Damaged, 2),
    ];
    let mut mix = vec![Sort::Opening, Sort::Arriving];
    for (sort, most) in sorts {
        mix.extend(vec![sort; random.below(most + 1)]);
    }
    mix
}

/// The frames that were sent, and those of them that are under way.
pub struct Channel {
    script: Script,
    mix: Mix,
    sent: Vec<Frame>,
    due: Vec<Frame>,
}

impl Channel {
    pub fn over(table: &Table, mix: Mix) -> Channel {
        Channel {
            script: Script::fresh(table.clone()),
            mix,
            sent: Vec::new(),
            due: Vec::new(),
        }
    }

    /// Takes a frame out of those under way: the newest, the oldest or any.
    fn take(&mut self, random: &mut Random) -> Option<Frame> {
        let count = self.due.len();
        if count == 0 {
            return None;
        }
        let any = random.below(count);
        let place = random.pick(&[0, any, any, count - 1]);
        Some(self.due.remove(place))
    }

    fn choose(&mut self, random: &mut Random) -> Vec<u8> {
        let table = &self.script.site.table;
        let opening = any_opening(table, random);
        let restart = any_restart(table, random);
        let any = any_frame(table, random);
        let old = match self.sent.is_empty() {
            true => opening,
            false => random.pick(&self.sent),
        };
        match random.pick(&self.mix) {
            Sort::Opening => opening.line(),
            Sort::Restart => restart.line(),
            Sort::Arriving => self.take(random).unwrap_or(opening).line(),
            Sort::Lost => {
                self.take(random);
                opening.line()
            }
            Sort::Repeated => old.line(),
            Sort::Unsent => any.line(),
            Sort::Damaged => damaged(random.pick(&[opening, restart, any, old]), table, random),
        }
    }

    /// The next line; some where a damaged one has a line feed inside.
    pub fn next(&mut self, random: &mut Random) -> Vec<Vec<u8>> {
        let text = self.choose(random);
        let lines = text.split_inclusive(|&byte| byte == b'\n');
        let lines: Vec<Vec<u8>> = lines.map(<[u8]>::to_vec).collect();
        for line in &lines {
            if let Ok(entry) = self.script.line(line) {
                self.send_after(entry);
            }
        }
        lines
    }

    fn send_after(&mut self, entry: Entry) {
        if entry.what == What::Restarted {
            let to_it = |frame: &&Frame| frame.to == entry.probe;
            self.due.extend(self.sent.iter().filter(to_it));
        }
        if let Some(frame) = frame_after(entry, &self.script.site.table) {
            if !self.sent.contains(&frame) {
                self.sent.push(frame);
            }
            self.due.push(frame);
        }
    }

    pub fn accepted(&self) -> usize {
        self.script.used
    }
}

/// So many lines, or a few more.
pub fn any_script(table: &Table, lines: usize, mix: Mix, random: &mut Random) -> Vec<u8> {
    let mut channel = Channel::over(table, mix);
    let next = |_| channel.next(random).concat();
    (0..lines).flat_map(next).collect()
}

/// A script that fills the log with its last line, every line accepted.
pub fn full_script(table: &Table, random: &mut Random) -> Vec<u8> {
    let mut channel = Channel::over(table, all_accepted());
    let mut text = Vec::new();
    while channel.accepted() < LOG {
        text.extend(channel.next(random).concat());
    }
    text
}
