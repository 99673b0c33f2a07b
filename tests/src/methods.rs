//! 01's two methods for a legal table, over counted needs, apart from the definition, to time the
//! library against.

use crate::reference::{counted_need, Link, Plan, Table};
use std::cmp::Reverse;
use std::collections::BinaryHeap;
use std::ops::Range;

/// Cost, then place: of two links the dearer has the larger key, since a legal table's links rise.
type Key = u32;

fn place(key: Key) -> usize {
    key as usize % (1 << 16)
}

/// The keys from cheapest to dearest.
fn rising(links: &[Link]) -> Vec<Key> {
    let key = |(place, link): (usize, &Link)| (link.cost as Key) << 16 | place as Key;
    let mut keys: Vec<Key> = links.iter().enumerate().map(key).collect();
    keys.sort_unstable();
    keys
}

/// S-LSE: from cheapest up adding, from dearest down removing.
pub fn slse(table: &Table) -> Plan {
    let order = rising(&table.links);
    let mut cover = Cover::none(table);
    cover.add_wanted(order.iter().map(|&key| place(key)));
    cover.remove_spare(order.iter().rev().map(|&key| place(key)));
    Plan::keeping(cover.added, table)
}

/// The added links, and for each probe how many more of them it has than its counted need.
pub struct Cover<'a> {
    links: &'a [Link],
    pub added: Vec<bool>,
    over: Vec<i32>,
}

impl Cover<'_> {
    pub fn none(table: &Table) -> Cover<'_> {
        let counted = table.counted_needs().into_iter();
        Cover {
            links: &table.links,
            added: vec![false; table.links.len()],
            over: counted.map(|need| -(need as i32)).collect(),
        }
    }

    /// Adds each link that then has an end with fewer added links than its counted need.
    pub fn add_wanted(&mut self, order: impl Iterator<Item = usize>) {
        for place in order {
            let [low, high] = self.links[place].ends();
            if self.over[low] < 0 || self.over[high] < 0 {
                self.added[place] = true;
                self.over[low] += 1;
                self.over[high] += 1;
            }
        }
    }

    /// Removes each added link whose two ends then have more added links than their counted needs.
    pub fn remove_spare(&mut self, order: impl Iterator<Item = usize>) {
        for place in order {
            let [low, high] = self.links[place].ends();
            if self.added[place] && self.over[low] > 0 && self.over[high] > 0 {
                self.added[place] = false;
                self.over[low] -= 1;
                self.over[high] -= 1;
            }
        }
    }
}

/// By turns: a link is rested when each end holds the other's offer.
pub fn turns(table: &Table) -> Plan {
    let mut site = Site::fresh(table);
    for probe in 0..table.needs.len() {
        site.turn(probe);
    }
    let mut holders = vec![0; table.links.len()];
    for Reverse(key) in site.probes.iter().flat_map(|probe| &probe.held) {
        holders[place(*key)] += 1;
    }
    let kept = holders.iter().map(|&holders| holders < 2).collect();
    Plan::keeping(kept, table)
}

struct Probe {
    /// Where its links not yet tried stand in the site's list.
    untried: Range<usize>,
    spare: usize,
    standing: usize,
    held: BinaryHeap<Reverse<Key>>,
}

impl Probe {
    fn would_take(&self, key: Key) -> bool {
        let cheapest = self.held.peek();
        self.held.len() < self.spare || cheapest.is_some_and(|&Reverse(held)| key > held)
    }
}

struct Site<'a> {
    links: &'a [Link],
    probes: Vec<Probe>,
    /// Probe after probe, its own links from dearest to cheapest.
    own: Vec<Key>,
}

impl Site<'_> {
    /// Nothing tried and nothing held.
    fn fresh(table: &Table) -> Site<'_> {
        let mut start = 0;
        let probe = |(degree, &need): (usize, &u16)| {
            let spare = degree - counted_need(need, degree);
            let untried = start..start;
            start += degree;
            Probe {
                untried,
                spare,
                standing: 0,
                held: BinaryHeap::with_capacity(spare + 1),
            }
        };
        let degrees = table.degrees().into_iter();
        let mut probes: Vec<Probe> = degrees.zip(&table.needs).map(probe).collect();
        let mut own = vec![0; start];
        for key in rising(&table.links).into_iter().rev() {
            for end in table.links[place(key)].ends() {
                own[probes[end].untried.end] = key;
                probes[end].untried.end += 1;
            }
        }
        Site {
            links: &table.links,
            probes,
            own,
        }
    }

    fn other_end(&self, key: Key, probe: usize) -> usize {
        let [low, high] = self.links[place(key)].ends();
        low + high - probe
    }

    /// The probe's dearest link not yet tried whose other end would take it. An end that would
    /// not take a link never will, so one passed over is done with.
    fn next_offer(&mut self, probe: usize) -> Option<Key> {
        while let Some(next) = self.probes[probe].untried.next() {
            let key = self.own[next];
            if self.probes[self.other_end(key, probe)].would_take(key) {
                return Some(key);
            }
        }
        None
    }

    fn turn(&mut self, probe: usize) {
        while self.probes[probe].standing < self.probes[probe].spare && self.offer(probe) {}
    }

    /// Makes the probe's next offer, if one is left to make.
    fn offer(&mut self, probe: usize) -> bool {
        let Some(key) = self.next_offer(probe) else {
            return false;
        };
        let end = self.other_end(key, probe);
        self.probes[probe].standing += 1;
        self.probes[end].held.push(Reverse(key));
        if self.probes[end].held.len() > self.probes[end].spare {
            self.displace(end);
        }
        true
    }

    /// Drops the cheapest offer held; the probe that made it offers again.
    fn displace(&mut self, end: usize) {
        if let Some(Reverse(key)) = self.probes[end].held.pop() {
            let displaced = self.other_end(key, end);
            self.probes[displaced].standing -= 1;
            self.offer(displaced);
        }
    }
}
