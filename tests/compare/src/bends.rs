//! The bend once more, in fractions and in floats, and counts of which two differences tie, or nearly do.

use std::cmp::Ordering;

use crate::ledger::{Counts, FULL, MONTHS, NONE};
use crate::random::Random;

/// The share of the dismissed in the later months less that in the months up to one and with it.
struct Difference {
    month: usize,
    over: i128,
    under: i128,
    /// The same as it comes out in 64-bit floats: by a share less a share, and by the one division.
    float: f64,
    quotient: f64,
}

impl Difference {
    /// What it is compared by with another, in floats.
    fn products(&self, other: &Difference) -> f64 {
        self.over as f64 * other.under as f64
    }

    fn compare(&self, other: &Difference) -> Ordering {
        (self.over * other.under).cmp(&(other.over * self.under))
    }
}

/// The differences of the months with a finding on both sides. With l of L dismissed up to a month and t of T in all
/// that is (t L - l T) / (L (T - L)).
fn differences(counts: &Counts) -> Vec<Difference> {
    let sum = |months: &[(usize, usize)]| months.iter().fold((0, 0), |sum, one| (sum.0 + one.0, sum.1 + one.1));
    let (all, all_dismissed) = sum(counts);
    let mut differences = Vec::new();
    for month in 1..=MONTHS {
        let (early, early_dismissed) = sum(&counts[..month]);
        if early == 0 || early == all {
            continue;
        }
        let [t, whole, l, part] = [all_dismissed, all, early_dismissed, early].map(|count| count as i128);
        let share = |dismissed: usize, findings: usize| dismissed as f64 / findings as f64;
        let (over, under) = (t * part - l * whole, part * (whole - part));
        differences.push(Difference {
            month,
            over,
            under,
            quotient: over as f64 / under as f64,
            float: share(all_dismissed - early_dismissed, all - early) - share(early_dismissed, early),
        });
    }
    differences
}

/// What there is to say of the bend of some counts.
#[derive(Default)]
pub struct Standing {
    pub bend: Option<usize>,
    /// The sign of the largest difference.
    pub sign: Option<Ordering>,
    /// Another month with a finding of its own has the same difference.
    pub tie: bool,
    /// A smaller difference is the same float, by shares; and by the one division and in products too.
    pub near: bool,
    pub nearest: bool,
    /// In floats another month comes out.
    pub floats_err: bool,
    /// Comparing takes products of more than 32 bits.
    pub wide: bool,
}

pub fn standing(counts: &Counts) -> Standing {
    let all = differences(counts);
    // Of the largest the last from behind is the earliest.
    let Some(best) = all.iter().rev().max_by(|a, b| a.compare(b)) else {
        return Standing::default();
    };
    let floats = all.iter().rev().max_by(|a, b| a.float.total_cmp(&b.float)).map(|difference| difference.month);
    let others = || all.iter().filter(|other| other.month != best.month && counts[other.month - 1].0 > 0);
    let near = || others().filter(|other| other.float == best.float && other.compare(best) == Ordering::Less);
    let wide = |other: &Difference| (best.over * other.under).abs().max((other.over * best.under).abs()) >= 1 << 32;
    Standing {
        bend: Some(best.month),
        sign: Some(best.over.cmp(&0)),
        tie: others().any(|other| other.compare(best) == Ordering::Equal),
        near: near().next().is_some(),
        nearest: near().any(|other| other.quotient == best.quotient && other.products(best) == best.products(other)),
        floats_err: floats != Some(best.month),
        wide: others().any(wide),
    }
}

/// Counts of a few months with a few findings each.
pub fn few(random: &mut Random, most_months: usize, most: usize) -> Counts {
    let mut counts = NONE;
    for _ in 0..1 + random.below(most_months) {
        let findings = 1 + random.below(most);
        let dismissed = match random.below(4) {
            0 => 0,
            1 => findings,
            _ => random.below(findings + 1),
        };
        counts[random.below(MONTHS)] = (findings, dismissed);
    }
    counts
}

/// Counts of a few months that stand as is wanted.
pub fn search(random: &mut Random, wanted: impl Fn(&Standing) -> bool) -> Counts {
    loop {
        let counts = few(random, 5, 9);
        if wanted(&standing(&counts)) {
            return counts;
        }
    }
}

/// Three months, of which the first two tie: the outer ones have as many findings as each other, and the one between
/// them the rate of all.
pub fn symmetric(random: &mut Random, most: usize) -> Counts {
    let outer = 1 + random.below(most);
    let (first, last) = (random.below(outer + 1), random.below(outer + 1));
    let middle = (1..=2 * outer).find(|middle| (first + last) * middle % (2 * outer) == 0).unwrap();
    let mut counts = NONE;
    let months = some_months(random, 3);
    counts[months[0]] = (outer, first);
    counts[months[1]] = (middle, (first + last) * middle / (2 * outer));
    counts[months[2]] = (outer, last);
    counts
}

/// So many of the twelve months, 0 to 11, ascending.
pub fn some_months(random: &mut Random, count: usize) -> Vec<usize> {
    let mut months: Vec<usize> = (0..MONTHS).collect();
    while months.len() > count {
        months.remove(random.below(months.len()));
    }
    months
}

/// Counts of which the largest difference and another are the same float and not the same number, `nearest`; the later
/// is ahead where that is wanted. Each of the two outer stretches of months has at least `outer` findings.
///
/// Stretches of a, b and c findings, with l dismissed in the first, m in the first two and t in all T, have their ends
/// N / (a (b + c) (a + b) c) apart, N = - t a b (a + b) - T l (a + b) c + T m a (b + c). For a small N this gives l
/// modulo a and m modulo a + b, which are primes here; then t is known, if there is one. Inside the stretches the rate
/// is even, so that no difference there is larger.
pub fn near_tie(random: &mut Random, outer: usize, later_ahead: bool) -> Counts {
    loop {
        let a = prime_from(outer + random.below(outer / 8));
        let both = prime_from(a + 1 + random.below(FULL - 100));
        let inverses = [inverses(a), inverses(both)];
        for c in outer..outer + outer / 8 {
            let stretches = [a, both - a, c].map(|findings| findings as i64);
            if let Some(dismissed) = near_tie_of(stretches, &inverses, later_ahead) {
                let counts = spread(random, &[(a, dismissed[0]), (both - a, dismissed[1]), (c, dismissed[2])]);
                if standing(&counts).nearest {
                    return counts;
                }
            }
        }
    }
}

/// The dismissed of three stretches whose ends are apart by less than floats can tell, if there are such.
fn near_tie_of([a, b, c]: [i64; 3], inverses: &[Vec<i64>; 2], later_ahead: bool) -> Option<[usize; 3]> {
    let (both, all) = (a + b, a + b + c);
    let of_first = inverses[0][(all * both % a * c % a) as usize];
    let of_both = inverses[1][(all * a % both * (b + c) % both) as usize];
    // The differences are below 1, where floats stand up to 2^-53 apart.
    let most = 1 + a * (b + c) / 2_000_000 * (both * c) / 2_000_000_000;
    for apart in (1..=most).map(|apart| if later_ahead { -apart } else { apart }) {
        let (l, m) = ((-apart * of_first).rem_euclid(a), (apart * of_both).rem_euclid(both));
        if of_first == 0 || of_both == 0 || m < l || m - l > b {
            continue;
        }
        let over = all * (m * a * (b + c) - l * both * c) - apart;
        let t = over / (a * b * both);
        if t * a * b * both == over && m <= t && t - m <= c {
            return Some([l, m - l, t - m].map(|dismissed| dismissed as usize));
        }
    }
    None
}

fn prime_from(least: usize) -> usize {
    let is_prime = |number: &usize| (2..).take_while(|by| by * by <= *number).all(|by| number % by != 0);
    (least..).find(is_prime).unwrap()
}

/// The number that makes 1 of each number modulo a prime; 0 for 0.
fn inverses(prime: usize) -> Vec<i64> {
    let mut inverses = vec![0, 1];
    for number in 2..prime {
        inverses.push((prime - prime / number) as i64 * inverses[prime % number] % prime as i64);
    }
    inverses
}

/// Near ties among few findings, as such go: stretches of findings and dismissed ones that were searched for as in
/// `near_tie`. The later end is ahead in the first two, the earlier one in the others.
const NEAR_TIES: [[(usize, usize); 3]; 4] = [
    [(9_371, 5_565), (2_880, 2_269), (9_611, 9_473)],
    [(9_619, 6_925), (3_622, 2_936), (9_157, 8_224)],
    [(9_391, 3_089), (3_568, 2_313), (9_627, 9_371)],
    [(9_221, 753), (2_018, 918), (9_376, 7_813)],
];

pub fn known_near_tie(random: &mut Random, later_ahead: bool) -> Counts {
    let which = random.below(2) + if later_ahead { 0 } else { 2 };
    spread(random, &NEAR_TIES[which])
}

/// Stretches of findings and dismissed ones, each evenly over as many months as it takes.
fn spread(random: &mut Random, stretches: &[(usize, usize)]) -> Counts {
    let needed = |stretch: &(usize, usize)| stretch.0.div_ceil(FULL);
    let months = some_months(random, stretches.iter().map(needed).sum());
    let mut months = months.into_iter();
    let mut counts = NONE;
    for stretch in stretches {
        let (findings, dismissed, parts) = (stretch.0, stretch.1, needed(stretch));
        let mut before = (0, 0);
        for part in 1..=parts {
            let upto = (findings * part / parts, dismissed * part / parts);
            counts[months.next().unwrap()] = (upto.0 - before.0, upto.1 - before.1);
            before = upto;
        }
    }
    counts
}
