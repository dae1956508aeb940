//! Draw values and radii by which two plots have one rank.

/// A draw value and a radius by which two plots have one rank; and the two, the lower first.
pub type Tie = (u32, u8, [u32; 2]);

/// All that there are among the most plots by elements of group 2.
pub const OF_GROUP_2: [Tie; 5] = [
    (211, 15, [1630, 1857]),
    (810, 10, [1583, 1853]),
    (919, 15, [2768, 3780]),
    (920, 15, [2009, 3269]),
    (1820, 10, [1156, 2210]),
];

/// Some by elements of group 3: neighbours, with the first plot and with the last, at the start of the list and at its end, and two in
/// one list.
pub const OF_GROUP_3: [Tie; 15] = [
    (306_994_111, 10, [6, 8]),
    (3_155_779_517, 10, [2, 8]),
    (2_843_039_503, 10, [8, 9]),
    (1_520_794_127, 10, [13, 14]),
    (2_728_092_835, 15, [2, 7]),
    (64_604_065, 15, [1, 10]),
    (1_845_123_131, 10, [1, 16]),
    (1_875_712, 10, [19, 39]),
    (2878, 10, [2840, 3279]),
    (83_885, 10, [1953, 2809]),
    (36_678, 15, [2786, 3844]),
    (1_409_928, 15, [517, 4096]),
    (1_365_324, 15, [1837, 1838]),
    (1_361_701, 10, [3816, 4002]),
    (1_361_701, 10, [404, 2033]),
];

/// No tie, but nearly one: by this element of group 3 the lower of the two has the smaller rank, by 1.
pub const NEAR: Tie = (3_087_829_865, 10, [1, 5]);
