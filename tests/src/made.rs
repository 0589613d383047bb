//! Made inputs: traces, summaries and sessions that no trace has, least shares, and plans.

use crate::plain::plans::{Plan, MAX_PARTS};
use crate::plain::session::{rights_over, COUNT, COUNTS, FIRSTS, READS, SLOT, SLOTS};
use crate::plain::{full_session, MAX_EXTENTS};
use crate::random::Random;
use std::collections::HashSet;

/// All traces over these extents, up to a length.
pub fn all_traces(longest: usize, extents: &[u32]) -> Vec<Vec<u32>> {
    let mut all = vec![Vec::new()];
    let mut shorter = 0;
    for _ in 0..longest {
        let level = shorter..all.len();
        shorter = all.len();
        for place in level {
            for extent in extents {
                let longer = [all[place].as_slice(), &[*extent]].concat();
                all.push(longer);
            }
        }
    }
    all
}

/// The number of the extent at a place of a list, by one of six rules.
fn numbered(random: &mut Random, rule: usize, place: usize) -> u32 {
    let (half, odd) = (place as u32 / 2, place % 2 == 1);
    match rule {
        0 => place as u32,
        1 => random.word(),
        2 => random.below(1 << 20) as u32 * 4096,
        3 => random.below(1 << 22) as u32 * 1024,
        4 => random.below(1 << 20) as u32 * 4096 + half,
        _ if odd => u32::MAX - half,
        _ => half,
    }
}

/// So many different extents: small, spread, multiples of 4,096 or of 1,024, pairs that agree modulo 4,096, or from
/// both ends of the numbers.
pub fn extents(random: &mut Random, count: usize) -> Vec<u32> {
    let rule = random.below(6);
    let mut seen = HashSet::new();
    let mut list = Vec::new();
    while list.len() < count {
        let extent = numbered(random, rule, list.len());
        if seen.insert(extent) {
            list.push(extent);
        }
    }
    random.shuffled(&list)
}

/// So many different extents that fall to one place of a table by the leading digits of their products with 2,654,435,761
/// modulo 2^32, which are 0, 1, 2 and so on.
pub fn together(count: usize) -> Vec<u32> {
    (0..count as u32).map(|product| product.wrapping_mul(244_002_641)).collect()
}

/// A number below `bound`, the small ones more often.
pub fn skewed(random: &mut Random, bound: usize) -> usize {
    let bound = 1 + random.below(bound);
    let bound = 1 + random.below(bound);
    random.below(bound)
}

/// A trace of so many reads over these extents: uniform, skewed, a scan, with repeats, or in phases.
pub fn trace_over(random: &mut Random, extents: &[u32], reads: usize) -> Vec<u32> {
    let (shape, v) = (random.below(5), extents.len());
    let mut last = 0;
    let mut place = |random: &mut Random, read: usize| {
        last = match shape {
            0 => random.below(v),
            1 => skewed(random, v),
            2 => read % v,
            3 if !random.one_in(4) => last,
            3 => random.below(v),
            _ => (read / 40 * 7 + random.below(6)) % v,
        };
        last
    };
    (0..reads).map(|read| extents[place(random, read)]).collect()
}

/// A trace of up to so many reads over up to so many extents.
pub fn trace(random: &mut Random, most_reads: usize, most_extents: usize) -> Vec<u32> {
    let v = 1 + random.below(most_extents);
    let extents = extents(random, v);
    let reads = random.below(most_reads + 1);
    trace_over(random, &extents, reads)
}

/// A trace of so many reads that has all of these extents at its front or at its end, and else reads the first few.
pub fn trace_of_all(random: &mut Random, extents: &[u32], few: usize, reads: usize) -> Vec<u32> {
    let others = trace_over(random, &extents[..few], reads - extents.len());
    if random.one_in(2) {
        [extents, &others].concat()
    } else {
        [&others, extents].concat()
    }
}

/// The smallest extent that a trace does not have.
pub fn another(trace: &[u32]) -> u32 {
    (0..).find(|extent| !trace.contains(extent)).expect("another extent")
}

/// Numbers whose sum is `total`.
fn split(random: &mut Random, total: usize, count: usize) -> Vec<u32> {
    let mut left = total;
    let mut numbers: Vec<u32> = Vec::new();
    for place in 0..count {
        let number = if place + 1 == count { left } else { random.below(left + 1) };
        left -= number;
        numbers.push(number as u32);
    }
    random.shuffled(&numbers)
}

/// A well-formed summary over these extents with so many reads that are not cold, whether or not a trace has it.
pub fn summary_over(random: &mut Random, extents: &[u32], warm: usize) -> Vec<u32> {
    let v = extents.len();
    let warm = if v == 0 { 0 } else { warm };
    let counts = split(random, warm, v);
    let (firsts, recents) = (random.shuffled(extents), random.shuffled(extents));
    [vec![(v + warm) as u32, v as u32], firsts, recents, counts].concat()
}

/// A well-formed summary of up to so many extents, whether or not a trace has it.
pub fn summary(random: &mut Random, most_extents: usize) -> Vec<u32> {
    let v = random.below(most_extents + 1);
    let extents = extents(random, v);
    let warm = random.below(5000);
    summary_over(random, &extents, warm)
}

/// Least shares of one customer or more: all 0, small ones, or such as add up to at most the store, to exactly the store,
/// or to one more.
pub fn leasts(random: &mut Random, store: u32, customers: usize) -> Vec<u32> {
    let mut exact = split(random, store as usize, customers);
    match random.below(5) {
        0 => vec![0; customers],
        1 => (0..customers).map(|_| random.below(3) as u32).collect(),
        2 => exact.iter().map(|least| random.below(*least as usize + 1) as u32).collect(),
        3 => exact,
        _ => {
            exact[random.below(customers)] += 1;
            exact
        }
    }
}

/// What the two forms of a session have in common: the words before the sums, the leaves, and the next slot.
struct Common {
    front: Vec<u32>,
    leaves: Vec<u32>,
    next: u32,
}

impl Common {
    /// Of a sound session with these extents in slots at random and so many reads that are not cold.
    fn over(random: &mut Random, extents: &[u32], warm: usize, next: usize) -> Self {
        let v = extents.len();
        let warm = if v == 0 { 0 } else { warm };
        let below: Vec<usize> = (0..next).collect();
        let (mut front, mut leaves) = (vec![0; COUNT], vec![0; SLOTS]);
        for (slot, extent) in random.shuffled(&below).iter().zip(extents) {
            front[SLOT][*slot] = *extent;
            leaves[*slot] = 1;
        }
        front[READS] = (v + warm) as u32;
        front[FIRSTS][..v].copy_from_slice(&random.shuffled(extents));
        front[COUNTS][..v].copy_from_slice(&split(random, warm, v));
        Common { front, leaves, next: next as u32 }
    }

    /// Of a sound session with up to so many extents.
    fn any(random: &mut Random, most_extents: usize) -> Self {
        let v = random.below(most_extents + 1);
        let extents = extents(random, v);
        let next = if random.one_in(3) { SLOTS } else { v + random.below(SLOTS - v) };
        let warm = random.below(5000);
        Common::over(random, &extents, warm, next)
    }

    /// The session with a count and right-hand sums alone.
    fn session(&self) -> Vec<u32> {
        let count = self.leaves.iter().sum();
        [&self.front[..], &[count], &rights_over(&self.leaves), &[self.next]].concat()
    }

    /// The session with all sums.
    fn full_session(&self) -> Vec<u32> {
        [&self.front[..], &full_session::sums_over(&self.leaves), &[self.next]].concat()
    }
}

/// A sound session with these extents and so many reads that are not cold, whether or not a trace has it.
pub fn session_over(random: &mut Random, extents: &[u32], warm: usize, next: usize) -> Vec<u32> {
    Common::over(random, extents, warm, next).session()
}

/// The same with all sums.
pub fn full_session_over(random: &mut Random, extents: &[u32], warm: usize, next: usize) -> Vec<u32> {
    Common::over(random, extents, warm, next).full_session()
}

/// A sound session, whether or not a trace has it.
pub fn session(random: &mut Random) -> Vec<u32> {
    let most = random.of(&[4, 30, MAX_EXTENTS]);
    Common::any(random, most).session()
}

/// The same with all sums.
pub fn full_session(random: &mut Random) -> Vec<u32> {
    let most = random.of(&[4, 30, MAX_EXTENTS]);
    Common::any(random, most).full_session()
}

/// A plan of this depth, with small segs.
pub fn plan(random: &mut Random, depth: usize) -> Plan {
    if depth == 0 {
        return Plan::Seg(random.below(6) as u64);
    }
    let parts = if random.one_in(8) { MAX_PARTS } else { 2 + random.below(3) };
    let deepest = random.below(parts);
    let mut inner = Vec::new();
    for part in 0..parts {
        let shallow = random.below(depth.min(3));
        inner.push(plan(random, if part == deepest { depth - 1 } else { shallow }));
    }
    Plan::Join(inner)
}

/// A plan of three levels of joins of 16 parts, some of whose segs are of 10 reads, so that its text is so long.
pub fn plan_of_length(bytes: usize) -> Plan {
    let level = |inner: &Plan| Plan::Join(vec![inner.clone(); MAX_PARTS]);
    let three = level(&level(&level(&Plan::Seg(0))));
    let four = |parts: usize| Plan::Join([vec![three.clone()], vec![level(&level(&Plan::Seg(0))); parts]].concat());
    let parts = (1..MAX_PARTS).rev().find(|parts| four(*parts).text().len() <= bytes).expect("a plan short enough");
    let mut plan = four(parts);
    let mut left = bytes - plan.text().len();
    lengthen(&mut plan, &mut left);
    assert_eq!((plan.text().len(), left), (bytes, 0));
    plan
}

/// Makes each of the first so many segs of a plan one digit longer.
fn lengthen(plan: &mut Plan, left: &mut usize) {
    match plan {
        Plan::Seg(reads) if *left > 0 => {
            *reads = 10;
            *left -= 1;
        }
        Plan::Seg(_) => {}
        Plan::Join(parts) => parts.iter_mut().for_each(|part| lengthen(part, left)),
    }
}
