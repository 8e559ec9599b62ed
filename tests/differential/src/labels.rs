//! New label: 01's cases as 02's F-6 changes them, its 45 splits, every two small fractions, and random ones, against arithmetic in 128 bits.

use crate::calls::{answer_of, count_of};
use crate::random::Random;
use crate::tally::Tally;
use reference::console;
use reference::label::{Label, UNASSIGNED};

type Triple = [Label; 3];

/// What New label gives: a label, or a number.
type Outcome = Result<Label, u32>;

/// A fraction m/d, and a label (s, m, d), in whole numbers.
type Fraction = (i128, i128);
type Whole = (i128, i128, i128);

const LIMIT: u32 = u32::MAX;

const fn l(s: u64, m: u32, d: u32) -> Label {
    Label::new(s, m, d)
}

/// 01's cases (A; C; V), of which 02 changes the last two.
const CASES: [(Triple, Outcome); 12] = [
    ([l(0, 1, 1), l(0, 1, 1), l(1, 0, 1)], Ok(l(1, 1, 2))),
    ([l(1, 2, 3), l(1, 2, 3), l(1, 1, 2)], Ok(l(1, 3, 5))),
    ([l(0, 1, 1), l(1, 2, 3), l(1, 3, 5)], Ok(l(1, 5, 8))),
    ([l(1, 2, 3), l(1, 3, 4), l(1, 5, 8)], Ok(l(1, 2, 3))),
    ([l(1, 1, 2), l(0, 1, 1), l(2, 0, 1)], Ok(l(2, 1, 2))),
    ([l(1, 1, 2), l(0, 1, 1), l(1, 2, 4)], Err(112)),
    ([l(2, 1, 2), l(0, 1, 1), l(1, 0, 1)], Err(112)),
    ([l(0, 1, 1), l(2, 1, 2), l(1, 0, 1)], Err(113)),
    ([l(0, 1, 1), l(0, 1, 1), l(1, 1, 4_294_967_294)], Ok(l(1, 2, 4_294_967_295))),
    ([l(0, 1, 1), l(0, 1, 1), l(1, 1, 4_294_967_295)], Err(114)),
    ([l(1, 2, 3), l(1, 2, 3), l(1, 1, 4_294_967_292)], Ok(l(1, 1, 2))),
    ([l(1, 2, 3), l(1, 2, 3), l(1, 1, 4_294_967_293)], Ok(l(1, 1, 2))),
];

/// What a split can meet: the sums of its ends' parts, as 01 had it, beside what 02 asks for.
const SUMS: &str = "a split that is the sums, in other numbers or the same";
const SIMPLER: &str = "a split that is simpler than the sums";
const SIMPLER_FITS: &str = "a split that fits where the sums do not";
const LARGEST: &str = "a split with the denominator 4,294,967,295";
const ONE_OVER: &str = "114 of a split whose denominator would be 4,294,967,296";
const NO_SPLIT: &str = "114 of a split";
const NO_NEXT: &str = "114 of q + 1";

/// What the tests of New label have to meet.
pub const NAMED: [&str; 7] = [SUMS, SIMPLER, SIMPLER_FITS, LARGEST, ONE_OVER, NO_SPLIT, NO_NEXT];

/// A result of srp_new_label; its label has the advertised s.
fn outcome_of(result: u64, advertised: Label) -> Outcome {
    match count_of(result) {
        0 => Err(answer_of(result)),
        d => Ok(l(advertised.s, answer_of(result), d)),
    }
}

fn smaller(x: Fraction, y: Fraction) -> bool {
    x.0 * y.1 < y.0 * x.1
}

/// The fraction with the least denominator strictly between two that are at most 1: down the tree of all fractions from 0/1 and 1/1. Every
/// fraction strictly between `left` and `right` has a denominator at least as large as the two of theirs together, since these are neighbours:
/// (right's m)·(left's d) − (left's m)·(right's d) = 1.
fn down_the_tree(x: Fraction, y: Fraction) -> Fraction {
    let (mut left, mut right): (Fraction, Fraction) = ((0, 1), (1, 1));
    loop {
        assert!(right.0 * left.1 - left.0 * right.1 == 1 && !smaller(x, left) && !smaller(right, y));
        let middle = (left.0 + right.0, left.1 + right.1);
        // Steps to one side, all at once: as many as leave it outside.
        if !smaller(x, middle) {
            let steps = (x.0 * left.1 - left.0 * x.1) / (right.0 * x.1 - x.0 * right.1);
            left = (left.0 + steps * right.0, left.1 + steps * right.1);
        } else if !smaller(middle, y) {
            let steps = (right.0 * y.1 - y.0 * right.1) / (y.0 * left.1 - left.0 * y.1);
            right = (right.0 + steps * left.0, right.1 + steps * left.1);
        } else {
            return middle;
        }
    }
}

/// The rule in 128 bits, on s, m and d as whole numbers, and what it meets.
fn in_128_bits(labels: Triple) -> (Outcome, Vec<&'static str>) {
    let [a, c, v]: [Whole; 3] = labels.map(|label| (label.s.into(), label.m.into(), label.d.into()));
    let in_range = |(s, m, d): Whole| (s, m, d) == (0, 1, 1) || s > 0 && m < d;
    let above = |x: Whole, y: Whole| x.0 < y.0 || x.0 == y.0 && smaller((y.1, y.2), (x.1, x.2));
    let fitting = |(m, d): Fraction| match u32::try_from(d) {
        Ok(d) => Ok(l(labels[2].s, m as u32, d)),
        Err(_) => Err(114),
    };
    if !(in_range(a) && in_range(c) && in_range(v)) {
        (Err(1), vec![])
    } else if !above(a, v) {
        (Err(112), vec![])
    } else if !above(c, v) {
        (Err(113), vec![])
    } else if a.0 < v.0 && c.0 < v.0 {
        let next = fitting((v.1 + 1, v.2 + 1));
        (next, if next.is_err() { vec![NO_NEXT] } else { vec![] })
    } else if a.0 == v.0 && above(c, a) {
        (Ok(labels[0]), vec![])
    } else {
        let simplest = down_the_tree((v.1, v.2), (c.1, c.2));
        let sums = (c.1 + v.1, c.2 + v.2);
        (fitting(simplest), met_by(simplest, sums))
    }
}

fn met_by(simplest: Fraction, sums: Fraction) -> Vec<&'static str> {
    let limit = i128::from(LIMIT);
    let equal = !smaller(simplest, sums) && !smaller(sums, simplest);
    let met = [
        (equal, SUMS),
        (!equal, SIMPLER),
        (simplest.1 <= limit && sums.1 > limit, SIMPLER_FITS),
        (simplest.1 == limit, LARGEST),
        (simplest.1 == limit + 1, ONE_OVER),
        (simplest.1 > limit, NO_SPLIT),
    ];
    met.into_iter().filter(|(met, _)| *met).map(|(_, name)| name).collect()
}

/// The library, the Rust build and the rule in 128 bits on one triple.
fn check(tally: &mut Tally, labels: Triple) -> Result<Outcome, String> {
    let [own, cached, advertised] = labels;
    let library = library::new_label(own, cached, advertised);
    let reference = console::new_label(own, cached, advertised);
    let (wanted, met) = in_128_bits(labels);
    let (outcome, second) = (outcome_of(library, advertised), outcome_of(reference, advertised));
    if library != reference || outcome != wanted {
        return Err(format!("{labels:?}: the library gives {outcome:?}, the Rust build {second:?}, 128 bits {wanted:?}"));
    }
    tally.count(outcome.err().unwrap_or(0));
    met.into_iter().for_each(|name| tally.count_named(name, 1));
    Ok(outcome)
}

/// 01's cases and the 45 splits.
pub fn check_cases() -> Result<Tally, String> {
    let mut tally = Tally::default();
    for (labels, wanted) in CASES {
        let outcome = check(&mut tally, labels)?;
        if outcome != wanted {
            return Err(format!("{labels:?} gives {outcome:?}, and 01 and 02 say {wanted:?}"));
        }
    }
    check_splits(&mut tally)?;
    Ok(tally)
}

/// "From 0/1 and 1/1, splitting the newest two each time works 45 times (denominator 2,971,215,073); the 46th doesn't fit." 1/1 is the
/// unassigned label's fraction. The higher of the two is cached and the lower one advertised, at a station that has no label.
fn check_splits(tally: &mut Tally) -> Result<(), String> {
    let (mut before, mut newest) = (l(1, 0, 1), UNASSIGNED);
    let mut splits = 0;
    let last = loop {
        let (higher, lower) = if newest.above(before) { (newest, before) } else { (before, newest) };
        match check(tally, [UNASSIGNED, higher, lower])? {
            Ok(label) => (before, newest, splits) = (newest, label, splits + 1),
            Err(number) => break number,
        }
    };
    let denominator = newest.d;
    if (splits, denominator, last) != (45, 2_971_215_073, 114) {
        return Err(format!("{splits} splits with the last denominator {denominator}, then {last}"));
    }
    Ok(())
}

/// Ends of a split up to this denominator are met, every two of them.
const SMALL: u32 = 40;

/// Every two fractions with small denominators, in lowest terms or not, and of each split the definition itself: "strictly between", and none
/// with a smaller denominator is.
pub fn check_small() -> Result<Tally, String> {
    let mut tally = Tally::default();
    let fractions = || (1..=SMALL).flat_map(|d| (0..d).map(move |m| l(1, m, d)));
    for v in fractions() {
        for c in fractions() {
            let outcome = check(&mut tally, [UNASSIGNED, c, v])?;
            let strictly_between = |m: u32, d: u32| m * v.d > v.m * d && m * c.d < c.m * d;
            let least = |d: u32| (1..d).all(|d| (0..=d).all(|m| !strictly_between(m, d)));
            let as_defined = match outcome {
                Ok(Label { m, d, .. }) => strictly_between(m, d) && least(d),
                Err(number) => number == 113 && c.m * v.d <= v.m * c.d,
            };
            if !as_defined {
                return Err(format!("{c:?} and {v:?} are split into {outcome:?}"));
            }
        }
    }
    Ok(tally)
}

/// A number of 32 bits, mostly near an end of them or near half.
fn near_an_end(random: &mut Random) -> u32 {
    let near = random.of(&[0, 1, 2, LIMIT / 3, LIMIT / 2, LIMIT]);
    match random.below(6) {
        0 => random.number() as u32,
        1 => near.wrapping_add(random.below(5) as u32),
        _ => near.wrapping_sub(random.below(5) as u32),
    }
}

/// A label, mostly in range, of which the s are near each other.
fn some_label(random: &mut Random) -> Label {
    let s = random.of(&[0, 1, 1, 1, 2, u64::MAX - 1, u64::MAX]);
    if s == 0 && !random.percent(5) {
        return l(0, 1, 1);
    }
    let (mut m, mut d) = (near_an_end(random), near_an_end(random));
    if m > d && !random.percent(2) {
        (m, d) = (d, m);
    }
    if m == d && m > 0 && !random.percent(5) {
        m -= 1;
    }
    l(s, m, d)
}

/// A fraction next to another: one more or less in a part, or the same value in other numbers.
fn beside(random: &mut Random, label: Label) -> Label {
    let Label { s, m, d } = label;
    match random.below(6) {
        0 => l(s, m.wrapping_add(1), d),
        1 => l(s, m, d.wrapping_sub(1)),
        2 => l(s, m, d.wrapping_add(1)),
        3 => l(s, m.wrapping_mul(2), d.wrapping_mul(2)),
        4 => l(s, m / 2, d / 2),
        _ => label,
    }
}

/// Two fractions as cached and advertised label, the higher and the lower, at a station without a label, or with one that makes a split.
fn to_split(random: &mut Random, x: (u32, u32), y: (u32, u32)) -> Triple {
    let (x, y) = (l(1, x.0, x.1), l(1, y.0, y.1));
    let (c, v) = if x.above(y) { (x, y) } else { (y, x) };
    let own = random.of(&[UNASSIGNED, c, l(1, LIMIT - 1, LIMIT)]);
    [own, c, v]
}

/// A fraction smaller than 1 with this denominator.
fn some_fraction(random: &mut Random, d: u32) -> (u32, u32) {
    (random.below(d as usize) as u32, d)
}

/// Any denominator from 2 on, each length as likely as another.
fn some_denominator(random: &mut Random) -> u32 {
    (random.number() as u32 >> random.below(31)).max(2)
}

/// Two fractions whose denominators sum to the last number that fits, or nearly.
fn at_the_limit(random: &mut Random) -> Triple {
    let q = random.between(2, LIMIT as usize - 2) as u32;
    let d = (LIMIT - q).wrapping_add(random.below(3) as u32).wrapping_sub(1).max(1);
    let (x, y) = (some_fraction(random, q), some_fraction(random, d));
    to_split(random, x, y)
}

/// The same fraction in other numbers, now and then.
fn rescaled(random: &mut Random, (m, d): (u32, u32)) -> (u32, u32) {
    let times = if random.percent(70) { 1 } else { random.between(1, (LIMIT / d) as usize) as u32 };
    (m * times, d * times)
}

/// Neighbours: between them there is nothing simpler than their sums. Down the tree of fractions by runs up to a length, left and right in turns,
/// as far as their denominators allow, or less far. Runs of 1 lead to Fibonacci's numbers, the deepest.
fn neighbours(random: &mut Random) -> Triple {
    let longest = random.of(&[1, 2, 10, 100_000]);
    let any = some_denominator(random);
    let until = random.of(&[2, any, LIMIT / 2, LIMIT]);
    let (mut left, mut right): ((u64, u64), (u64, u64)) = ((0, 1), (1, 1));
    let limit = u64::from(LIMIT);
    for turn in 0.. {
        if left.1 + right.1 >= u64::from(until) {
            break;
        }
        let (end, other) = if turn % 2 == 0 { (&mut left, right) } else { (&mut right, left) };
        let steps = random.between(1, longest).min(((limit - end.1) / other.1) as usize) as u64;
        *end = (end.0 + steps * other.0, end.1 + steps * other.1);
        if steps == 0 {
            break;
        }
    }
    let [x, y] = [left, right].map(|(m, d)| (m as u32, d as u32));
    // 1/1 is no label's fraction.
    let y = if y == (1, 1) { (x.0 + 1, x.1 + 2) } else { y };
    let (x, y) = (rescaled(random, x), rescaled(random, y));
    to_split(random, x, y)
}

/// The two beside a fraction whose denominator is the last that fits, or one of the next: m/d is all that lies between of denominators up to d.
fn beside_the_limit(random: &mut Random) -> Triple {
    let d = i128::from(LIMIT) - 2 + random.below(5) as i128;
    let m = 1 + random.below(d as usize - 1) as i128;
    // Extended Euclid: b·m is 1 more than a multiple of d, where the two have no common divisor.
    let (mut r, mut b) = ((d, m), (0i128, 1i128));
    while r.1 != 0 {
        let k = r.0 / r.1;
        (r, b) = ((r.1, r.0 - k * r.1), (b.1, b.0 - k * b.1));
    }
    let b = b.0.rem_euclid(d);
    let a = (b * m - r.0) / d;
    let [x, y] = [(a, b), (m - a, d - b)].map(|(m, d)| (m as u32, d as u32));
    if r.0 != 1 || y.0 == y.1 {
        return at_the_limit(random);
    }
    let (x, y) = (rescaled(random, x), rescaled(random, y));
    to_split(random, x, y)
}

/// A small fraction, and one whose parts are near the ends of their numbers.
fn small_and_large(random: &mut Random) -> Triple {
    let d = random.between(2, 9) as u32;
    let small = some_fraction(random, d);
    let d = LIMIT - random.below(9) as u32;
    let m = random.of(&[0, 1, 2, d / 3, d / 2, d / 2 + 1, d - 2, d - 1]);
    to_split(random, small, (m, d))
}

/// Random triples.
pub fn check_random(case: usize, triples: usize) -> Result<Tally, String> {
    let mut random = Random::new(case as u64);
    let mut tally = Tally::default();
    for _ in 0..triples {
        let labels = match random.below(8) {
            0 => at_the_limit(&mut random),
            1 => [some_label(&mut random), some_label(&mut random), some_label(&mut random)],
            2 => {
                let advertised = some_label(&mut random);
                let cached = beside(&mut random, advertised);
                [beside(&mut random, cached), cached, advertised]
            }
            3 => neighbours(&mut random),
            4 => beside_the_limit(&mut random),
            5 => small_and_large(&mut random),
            6 => {
                let (q, d) = (some_denominator(&mut random), some_denominator(&mut random));
                let (x, y) = (some_fraction(&mut random, q), some_fraction(&mut random, d));
                to_split(&mut random, x, y)
            }
            _ => {
                // Near each other: what lies between is large.
                let d = some_denominator(&mut random);
                let (m, d) = some_fraction(&mut random, d);
                let off = random.between(1, 9) as u32;
                let near = random.of(&[(m.saturating_sub(off), d), (m, d.saturating_add(off)), (m, d.saturating_sub(off).max(m + 1))]);
                to_split(&mut random, (m, d), near)
            }
        };
        let _ = check(&mut tally, labels)?;
    }
    Ok(tally)
}
