//! Tables that are near the line between accepted and refused: primes near 2^32, squares of primes, and figures that are no generators.

use super::Aimed;
use crate::case::Figure::{Bytes, Word};
use crate::model::group::Group;
use crate::model::table;
use crate::source::group_of;
use std::collections::BTreeSet;

/// q is 0, 1, 2 or another even number, or p is.
const EVEN: [(u32, u32); 16] = [
    (0, 0),
    (0, 3),
    (1, 3),
    (2, 3),
    (4, 3),
    (7, 0),
    (7, 1),
    (2, 1),
    (3, 2),
    (7, 2),
    (23, 2),
    (4_294_967_291, 2),
    (13, 4),
    (13, 6),
    (16, 5),
    (4_294_967_294, 2_147_483_647),
];

/// p is prime and q divides p - 1, but q is no prime: squares, products of two primes, the Carmichael numbers 561, 1105 and
/// so on, pseudoprimes to the base 2, and squares and products near the largest q.
const COMPOSITE_Q: [(u32, u32); 24] = [
    (19, 9),
    (109, 27),
    (31, 15),
    (43, 21),
    (101, 25),
    (71, 35),
    (197, 49),
    (67, 33),
    (727, 121),
    (683, 341),
    (1123, 561),
    (4421, 1105),
    (6917, 1729),
    (4931, 2465),
    (16_927, 2821),
    (2003, 91),
    (2003, 1001),
    (4_280_561_477, 1_070_140_369),
    (4_273_759_877, 1_068_439_969),
    (4_285_527_959, 2_142_763_979),
    (4_282_751_219, 2_141_375_609),
    (4_294_967_291, 95),
    (4_294_967_291, 113_025_455),
    (4_294_967_291, 429_496_729),
];

/// q is an odd prime that divides p - 1, but p is no prime: squares, Carmichael numbers, products of primes near 2^16, and
/// the odd numbers near 2^32 that are none.
const COMPOSITE_P: [(u32, u32); 26] = [
    (25, 3),
    (49, 3),
    (121, 5),
    (15, 7),
    (21, 5),
    (27, 13),
    (341, 17),
    (561, 5),
    (561, 7),
    (1105, 23),
    (1729, 3),
    (2465, 11),
    (2821, 47),
    (6601, 11),
    (8911, 11),
    (4_215_885_697, 751),
    (4_199_529_601, 563),
    // 65,521 and 65,519 squared, and their product, which is 2q + 1.
    (4_293_001_441, 181),
    (4_292_739_361, 47),
    (4_292_870_399, 2_146_435_199),
    // 65,537 times 65,521, and 65,551 times 65,521, which is above 65,535 squared.
    (4_294_049_777, 1871),
    (4_294_967_071, 143_165_569),
    (4_294_836_225, 151),
    (4_294_967_295, 2_147_483_647),
    (4_294_967_293, 331),
    (4_294_967_289, 3),
];

/// Both are prime, but q does not divide p - 1.
const NO_DIVISOR: [(u32, u32); 12] = [
    (31, 7),
    (31, 31),
    (31, 37),
    (3, 3),
    (5, 3),
    (7, 5),
    (2003, 17),
    (2039, 1009),
    (4_294_967_291, 3),
    (4_294_967_291, 4_294_967_291),
    (4_294_967_279, 22_605_091),
    (31, 4_294_967_291),
];

/// Accepted: every odd prime that divides p - 1, and q at both ends.
const PROPER: [(u32, u32); 32] = [
    (7, 3),
    (11, 5),
    (13, 3),
    (19, 3),
    (23, 11),
    (29, 7),
    (31, 3),
    (31, 5),
    (37, 3),
    (43, 3),
    (43, 7),
    (53, 13),
    (101, 5),
    (2003, 7),
    (2003, 11),
    (2003, 13),
    (65_521, 13),
    (65_539, 11),
    (262_147, 43_691),
    (4_294_967_291, 5),
    (4_294_967_291, 19),
    (4_294_967_291, 22_605_091),
    (4_294_967_279, 7),
    (4_294_967_279, 17),
    (4_294_967_279, 18_046_081),
    (4_294_967_231, 13_854_733),
    (4_294_967_197, 3),
    (4_294_967_197, 2521),
    (4_294_967_189, 5449),
    (4_294_967_161, 647),
    (4_294_967_143, 2_476_913),
    (4_294_967_087, 2_147_483_543),
];

/// The largest p below 2^32 with p = 2q + 1.
pub const EIGHT_LARGE: [(u32, u32); 8] = [
    (4_294_960_079, 2_147_480_039),
    (4_294_960_919, 2_147_480_459),
    (4_294_961_183, 2_147_480_591),
    (4_294_961_843, 2_147_480_921),
    (4_294_962_719, 2_147_481_359),
    (4_294_963_787, 2_147_481_893),
    (4_294_965_887, 2_147_482_943),
    (4_294_967_087, 2_147_483_543),
];

/// A power in a group of a table.
fn power(groups: &[Group], number: u32, base: u32, exponent: u32, label: String) -> Aimed {
    let case = vec![
        Bytes(table::bytes(groups)),
        Word(number),
        Word(base),
        Word(exponent),
    ];
    Aimed::new("power", label, case)
}

/// p and q with generators where there are two figures whose power q is 1, so that nothing else is refused.
fn with_generators((p, q): (u32, u32)) -> Group {
    if p > 2 && q > 2 && (p - 1).is_multiple_of(q) {
        group_of((p, q))
    } else {
        let (g, h) = (2, 4);
        Group { p, q, g, h }
    }
}

/// Figures that are no generators: at the ends of the range, at least p, of another order, and negatives of elements.
fn strangers(group: &Group) -> BTreeSet<u32> {
    let &Group { p, q, g, h } = group;
    let mut figures = BTreeSet::from([0, 1, p, p - 1, p - g, p - h, u32::MAX]);
    figures.extend([p.checked_add(1), p.checked_add(g)].into_iter().flatten());
    let roots = (2..).map(|base| group.power(base, q)).filter(|&v| v != 1);
    figures.extend(roots.take(2));
    figures.extend((2..p).filter(|&v| !group.is_element(v)).take(3));
    figures
}

/// Both ends of the exponents in a group of each p and q.
fn moduli() -> Vec<Aimed> {
    let mut cases = Vec::new();
    let refused = [&EVEN[..], &COMPOSITE_Q, &COMPOSITE_P, &NO_DIVISOR].concat();
    for (p, q) in [&PROPER[..], &EIGHT_LARGE[..7], &refused].concat() {
        let group = with_generators((p, q));
        for exponent in [q.wrapping_sub(1), q] {
            let label = format!("p {p}, q {q}, exponent {exponent}");
            cases.push(power(&[group], 1, group.g, exponent, label));
        }
    }
    cases
}

/// A figure that is no generator for g, for h and for both.
fn generators() -> Vec<Aimed> {
    let mut cases = Vec::new();
    for moduli in [
        (7, 3),
        (31, 5),
        (2003, 13),
        (1_000_003, 166_667),
        (4_294_967_291, 22_605_091),
    ] {
        let group = group_of(moduli);
        for figure in strangers(&group) {
            for (g, h) in [(figure, group.h), (group.g, figure), (figure, figure)] {
                let label = format!("p {}, g {g}, h {h}", group.p);
                cases.push(power(&[Group { g, h, ..group }], 1, group.g, 1, label));
            }
        }
    }
    cases
}

/// The first and the last of the most groups, and a fault in each place.
fn places() -> Vec<Aimed> {
    let mut cases = Vec::new();
    let eight = EIGHT_LARGE.map(group_of);
    for number in [1, 8, 9] {
        let label = format!("group {number} of eight large ones");
        let Group { q, h, .. } = eight[7];
        cases.push(power(&eight, number, h, q - 1, label));
    }
    let small = group_of((31, 5));
    for k in 0..8 {
        for (what, wrong) in [
            ("no prime", Group { p: 25, ..small }),
            ("with h 1", Group { h: 1, ..small }),
        ] {
            let mut groups = [small; 8];
            groups[k] = wrong;
            let label = format!("group {} of eight is {what}", k + 1);
            cases.push(power(&groups, 1, 2, 1, label));
        }
    }
    cases
}

pub fn all() -> Vec<Aimed> {
    [moduli(), generators(), places()].concat()
}
