//! 01, "Labels".

/// A label (s, m/d).
#[repr(C, packed)]
#[derive(Clone, Copy, PartialEq, Eq, Debug)]
pub struct Label {
    pub s: u64,
    pub m: u32,
    pub d: u32,
}

pub const UNASSIGNED: Label = Label { s: 0, m: 1, d: 1 };

/// The numbers that New label gives where it takes no label.
pub const OWN_NOT_ABOVE: u32 = 112;
pub const CACHED_NOT_ABOVE: u32 = 113;
pub const DOES_NOT_FIT: u32 = 114;

impl Label {
    pub const fn new(s: u64, m: u32, d: u32) -> Label {
        Label { s, m, d }
    }

    /// "Unassigned is (0, 1/1); every other label has s > 0 and m < d."
    pub fn in_range(self) -> bool {
        self == UNASSIGNED || self.s > 0 && self.m < self.d
    }

    /// "Label X is above Y if X's s is smaller, or both s are equal and Y's fraction is smaller by whole products." A product of two
    /// numbers of 32 bits fits 64.
    pub fn above(self, other: Label) -> bool {
        self.s < other.s || self.s == other.s && u64::from(other.m) * u64::from(self.d) < u64::from(self.m) * u64::from(other.d)
    }
}

/// How a split finds its fraction.
#[derive(Clone, Copy, PartialEq, Eq, Debug)]
pub enum Split {
    /// 01: "(v, (m+p)/(d+q))". The way of networks before they go over.
    Mediant,
    /// 02, F-6: "the fraction strictly between V's and C's with the least denominator".
    Simplest,
}

type Fraction = (u64, u64);

/// "114 is given for a split if and only if no fraction strictly between has a denominator of at most 4,294,967,295", and for q+1 over it.
/// The numerator is not over the denominator, so it fits where this does.
fn fitting(s: u64, (m, d): Fraction) -> Result<Label, u32> {
    match (u32::try_from(m), u32::try_from(d)) {
        (Ok(m), Ok(d)) => Ok(Label { s, m, d }),
        _ => Err(DOES_NOT_FIT),
    }
}

/// The fraction with the least denominator strictly between two, of which the first is smaller, by their continued fractions: the terms that
/// both have, and then the least that lies between what is left of them. Left of the higher one may be m/0, which has no whole part: every
/// number is below it.
pub fn simplest_between(low: Fraction, high: Fraction) -> Fraction {
    let ((mut p, mut q), (mut m, mut d)) = (low, high);
    // The last two convergents of what is between.
    let (mut before, mut last) = ((0, 1), (1, 0));
    loop {
        let whole = p / q;
        let between = (whole + 1) * d < m;
        let term = whole + u64::from(between);
        (before, last) = (last, (term * last.0 + before.0, term * last.1 + before.1));
        if between {
            return last;
        }
        ((p, q), (m, d)) = ((d, m - whole * d), (q, p - whole * q));
    }
}

/// New label from own label A, cached label C, advertised label V, all in range.
pub fn new_label(split: Split, own: Label, cached: Label, advertised: Label) -> Result<Label, u32> {
    let (a, c, v) = (own, cached, advertised);
    if !a.above(v) {
        return Err(OWN_NOT_ABOVE);
    }
    if !c.above(v) {
        return Err(CACHED_NOT_ABOVE);
    }
    let fraction = |label: Label| (u64::from(label.m), u64::from(label.d));
    let ((m, d), (p, q)) = (fraction(c), fraction(v));
    if a.s < v.s && c.s < v.s {
        return fitting(v.s, (p + 1, q + 1));
    }
    if a.s == v.s && c.above(a) {
        return Ok(a);
    }
    fitting(
        v.s,
        match split {
            Split::Mediant => (m + p, d + q),
            Split::Simplest => simplest_between((p, q), (m, d)),
        },
    )
}

#[cfg(test)]
mod tests {
    use super::*;

    const LIMIT: u64 = u32::MAX as u64;

    fn smaller(x: Fraction, y: Fraction) -> bool {
        u128::from(x.0) * u128::from(y.1) < u128::from(y.0) * u128::from(x.1)
    }

    fn is_between(x: Fraction, f: Fraction, y: Fraction) -> bool {
        smaller(x, f) && smaller(f, y)
    }

    /// The numerators are tried for each denominator from 1 on: the first that is over x is the only one to try.
    fn by_trying(x: Fraction, y: Fraction) -> Fraction {
        (1..).map(|d| (x.0 * d / x.1 + 1, d)).find(|&f| is_between(x, f, y)).unwrap()
    }

    /// Whether f is strictly between, and every other fraction there has a denominator at least as large: of a smaller denominator none is
    /// nearer to f than the two with (f's m)·b − (f's d)·a = 1 and −1, and these are not strictly between.
    fn is_simplest(x: Fraction, f: Fraction, y: Fraction) -> bool {
        let (m, d) = (i128::from(f.0), i128::from(f.1));
        // Extended Euclid: b is the inverse of m, if it has one.
        let (mut r, mut b) = ((d, m.rem_euclid(d)), (0, 1));
        while r.1 != 0 {
            let k = r.0 / r.1;
            (r, b) = ((r.1, r.0 - k * r.1), (b.1, b.0 - k * b.1));
        }
        let b = b.0.rem_euclid(d);
        let (left, right) = (((m * b - 1) / d, b), (m - (m * b - 1) / d, d - b));
        let fraction = |(m, d): (i128, i128)| (m as u64, d as u64);
        is_between(x, f, y) && r.0 == 1 && d > 1 && !smaller(x, fraction(left)) && !smaller(fraction(right), y)
    }

    fn check(x: Fraction, y: Fraction) {
        assert!(smaller(x, y));
        let f = simplest_between(x, y);
        assert!(is_simplest(x, f, y), "{f:?} between {x:?} and {y:?}");
        if f.1 < 1000 {
            assert_eq!(f, by_trying(x, y), "between {x:?} and {y:?}");
        }
    }

    /// Every two fractions of these denominators, not in lowest terms either: those smaller than 1 and 1/1.
    #[test]
    fn small_ends() {
        let fractions = || (1..=24).flat_map(|d| (0..=d).map(move |m| (m, d)));
        let mut pairs = 0;
        for x in fractions() {
            for y in fractions().filter(|&y| smaller(x, y)) {
                check(x, y);
                pairs += 1;
            }
        }
        assert_eq!(pairs, 51_532);
    }

    /// Large ends: any, the two beside a fraction, near each other, and the same in other numbers.
    #[test]
    fn large_ends() {
        let mut seed = 1u64;
        let mut below = |limit: u64| {
            seed = seed.wrapping_mul(6_364_136_223_846_793_005).wrapping_add(1_442_695_040_888_963_407);
            (seed >> 16) % limit
        };
        for _ in 0..200_000 {
            let [x, any] = [(); 2].map(|()| {
                let d = 2 + (below(LIMIT - 1) >> below(24));
                (below(d), d)
            });
            let times = LIMIT / x.1;
            for y in [any, (x.0 + 1, x.1), (x.0, x.1 - 1), (x.0 * times + 1, x.1 * times)] {
                if smaller(x, y) {
                    check(x, y);
                } else if smaller(y, x) {
                    check(y, x);
                }
            }
        }
    }

    /// Fibonacci's numbers have the longest search.
    #[test]
    fn fibonacci() {
        let (mut a, mut b) = ((0, 1), (1, 1));
        while a.1 + b.1 <= 2 * LIMIT {
            let (low, high) = if smaller(a, b) { (a, b) } else { (b, a) };
            check(low, high);
            (a, b) = (b, (a.0 + b.0, a.1 + b.1));
        }
    }
}
