//! The lists that a hinted call is asked with: the one that is of use, and such as are near it or far from it. The answer is the same with all of them.

use crate::batches::shuffle;
use crate::generator::Random;
use crate::links::{keys_and_places, Bytes};

/// All kinds of hints; a run must meet each with 0 and 7 to 11.
pub const KINDS: [&str; 18] = [
    "the plain call",
    "no numbers",
    "right",
    "right but for its last number",
    "right but for some number",
    "right and a number more",
    "a number in place of another",
    "two numbers swapped",
    "a number one off",
    "random numbers",
    "all 2^32-1",
    "the files in reversed order",
    "equal keys by falling place",
    "rising files too",
    "in the order of the files",
    "falling keys",
    "one record for all",
    "of the batch before the damage",
];

pub const PLAIN: &str = KINDS[0];
pub const EMPTY: &str = KINDS[1];
pub const RIGHT: &str = KINDS[2];
/// The one that slovdrim_order makes; it is no kind of its own, since it has to be the right one.
pub const OWN: &str = "the library's own";

/// The keys of a file's records and where they begin.
pub type Part = Vec<(Vec<u64>, u32)>;

pub fn rises(part: &Part) -> bool {
    part.windows(2).all(|w| w[0].0 < w[1].0)
}

fn places(parts: &[Part]) -> Vec<u32> {
    parts.iter().flatten().map(|(_, place)| *place).collect()
}

/// The hint that is of use: for each of the files 2 to 10 whose keys do not strictly rise, all its records by rising key and then by place.
pub fn right(batch: &Bytes) -> Option<Vec<u32>> {
    let mut parts = keys_and_places(batch)?;
    parts.retain(|p| !rises(p));
    parts.iter_mut().for_each(|p| p.sort());
    Some(places(&parts))
}

/// Hints that are no use, each with its kind. Where a kind makes no difference to the right one, it is left out.
pub fn wrong(r: &mut Random, batch: &Bytes, before: &[u32]) -> Vec<(&'static str, Vec<u32>)> {
    let parts = keys_and_places(batch).unwrap_or_default();
    let mut unsorted: Vec<Part> = parts.iter().filter(|p| !rises(p)).cloned().collect();
    let in_file_order = places(&unsorted);
    unsorted.iter_mut().for_each(|p| p.sort());
    let right = places(&unsorted);
    // where there is no right one, one of the batch before the damage is changed
    let near: Vec<u32> = if parts.is_empty() { before.to_vec() } else { right.clone() };
    let n = near.len();
    let mut all: Vec<(&'static str, Vec<u32>)> = Vec::new();
    let mut changed = |r: &mut Random, kind: &'static str, change: &dyn Fn(&mut Random, &mut Vec<u32>)| {
        let mut hint = near.clone();
        change(r, &mut hint);
        all.push((kind, hint));
    };
    if n > 0 {
        changed(r, KINDS[3], &|_, h| h.truncate(n - 1));
        changed(r, KINDS[4], &|r, h| {
            h.remove(r.below(n));
        });
        changed(r, KINDS[8], &|r, h| {
            let at = r.below(n);
            h[at] = if r.one_in(2) { h[at].wrapping_add(1) } else { h[at].wrapping_sub(1) };
        });
    }
    changed(r, KINDS[5], &|r, h| {
        let at = if r.one_in(2) { n } else { r.below(n + 1) };
        let number = if n > 0 { h[r.below(n)] } else { r.below(100) as u32 };
        h.insert(at, number);
    });
    if n > 1 {
        changed(r, KINDS[6], &|r, h| {
            let (at, from) = (r.below(n), r.below(n));
            h[at] = h[if from == at { (at + 1) % n } else { from }];
        });
        changed(r, KINDS[7], &|r, h| {
            let at = r.below(n - 1);
            let other = if r.one_in(2) { at + 1 } else { r.below(n) };
            h.swap(at, other);
        });
    }
    changed(r, KINDS[9], &|r, h| {
        let wide = r.one_in(3);
        let count = if r.one_in(2) { n } else { r.below(2 * n + 5) };
        *h = (0..count).map(|_| if wide { r.next() as u32 } else { r.below(2000) as u32 }).collect();
    });
    changed(r, KINDS[10], &|_, h| *h = vec![u32::MAX; n.max(3)]);
    changed(r, KINDS[15], &|_, h| h.reverse());
    changed(r, KINDS[16], &|r, h| *h = vec![if n > 0 { h[r.below(n)] } else { 0 }; n.max(2)]);
    changed(r, KINDS[17], &|_, h| *h = before.to_vec());
    let mut turned = unsorted.clone();
    turned.reverse();
    all.push((KINDS[11], places(&turned)));
    let mut falling = unsorted;
    falling.iter_mut().for_each(|p| p.sort_by(|a, b| a.0.cmp(&b.0).then(b.1.cmp(&a.1))));
    all.push((KINDS[12], places(&falling)));
    let mut every = parts;
    every.iter_mut().for_each(|p| p.sort());
    all.push((KINDS[13], places(&every)));
    all.push((KINDS[14], in_file_order));
    all.retain(|(_, hint)| *hint != right && !hint.is_empty());
    shuffle(r, &mut all);
    all
}
