//! Summaries to damage, and summaries that break one clause of well-formed words each.

use crate::made;
use crate::plain::{summary, MAX_EXTENTS, MAX_READS};
use crate::random::Random;

/// Summaries to damage: of traces, and that no trace has; without extents, with few, with all that a log may have, and
/// with two fewer, so that two reads of others have the last numbers.
pub fn bases() -> Vec<Vec<u32>> {
    let (mut random, all) = (Random::new(61), MAX_EXTENTS as u32);
    let mut bases =
        vec![vec![0, 0], summary::of(&[4]), summary::of(&[7, 3, 7, 9, 3, 3, 9]), summary::of(&[0, 1, 0, 2, 2])];
    bases.extend((0..8).map(|_| made::summary(&mut random, 12)));
    let apart: Vec<u32> = (0..60).map(|place| place * 4096).collect();
    bases.push(made::summary_over(&mut random, &apart, 30));
    bases.push(summary::of(&(0..all).chain(100..200).collect::<Vec<u32>>()));
    let extents = made::extents(&mut random, MAX_EXTENTS);
    bases.push(made::summary_over(&mut random, &extents, MAX_READS as usize - MAX_EXTENTS));
    bases.push(made::summary_over(&mut random, &(1000..998 + all).collect::<Vec<u32>>(), 77));
    bases
}

/// Words of one extent more than a log may have, well formed but for that.
fn too_many_extents() -> Vec<u32> {
    let extents: Vec<u32> = (0..=MAX_EXTENTS as u32).collect();
    let count = extents.len() as u32;
    [&[count, count], &extents[..], &extents, &vec![0; extents.len()]].concat()
}

/// A well-formed summary of two extents or more with one clause of well-formed words broken at a time, and what breaks it.
pub fn each_clause_broken(base: &[u32]) -> Vec<(&'static str, Vec<u32>)> {
    let v = base[1] as usize;
    let (firsts, recents, counts) = (2, 2 + v, 2 + 2 * v);
    let changed = |changes: &[(usize, u32)]| {
        let mut words = base.to_vec();
        changes.iter().for_each(|(place, word)| words[*place] = *word);
        words
    };
    let second = base[recents..counts].iter().position(|extent| *extent == base[firsts + 1]).expect("R has all of F");
    let more = MAX_READS as u32 + 1 - base[0];
    let half = 1 << 31;
    vec![
        ("no words", Vec::new()),
        ("L alone", base[..1].to_vec()),
        ("L and v alone", base[..2].to_vec()),
        ("a word too few", base[..base.len() - 1].to_vec()),
        ("a word too many", [base, &[0]].concat()),
        ("v one less", changed(&[(1, base[1] - 1)])),
        ("v one more", changed(&[(1, base[1] + 1)])),
        ("v far more", changed(&[(1, u32::MAX)])),
        ("too many extents", too_many_extents()),
        ("too many reads", changed(&[(0, MAX_READS as u32 + 1), (counts, base[counts] + more)])),
        ("an extent twice in F and in R", changed(&[(firsts + 1, base[firsts]), (recents + second, base[firsts])])),
        ("an extent twice in R", changed(&[(recents + 1, base[recents])])),
        ("another extent in R", changed(&[(recents, made::another(&base[firsts..recents]))])),
        ("L one less", changed(&[(0, base[0] - 1)])),
        ("L one more", changed(&[(0, base[0] + 1)])),
        ("a count one more", changed(&[(base.len() - 1, base[base.len() - 1] + 1)])),
        (
            "counts that add up modulo 2^32",
            changed(&[(counts, base[counts] + half), (counts + 1, base[counts + 1] + half)]),
        ),
    ]
}
