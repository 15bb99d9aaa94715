//! lines SEED N: prints N random sheet lines, the same ones for the same seed.
//!
//! Most calls fit, so that every primitive often succeeds; then each part is
//! spoilt with a small chance, and some lines are damaged in their bytes. The
//! generator does not know the answers. For an odd seed the last newline is
//! missing.

use std::io::{self, BufWriter, Write};

const LEAST: i64 = i32::MIN as i64;
const LARGEST: i64 = i32::MAX as i64;
/// What an operand of a sheet line holds.
const ROOM: i64 = 1_024;
const LONGEST_LINE: usize = 16_384;
const PRIMITIVES: [i64; 16] = [11, 12, 13, 14, 15, 21, 22, 23, 24, 25, 26, 27, 28, 29, 30, 31];

fn main() {
    let arguments: Vec<u64> =
        std::env::args().skip(1).filter_map(|word| word.parse().ok()).collect();
    let [seed, line_count] = arguments[..] else {
        eprintln!("usage: lines SEED N");
        std::process::exit(2);
    };
    let mut random = Random { state: seed };
    let mut output = BufWriter::new(io::stdout().lock());
    for line_number in 1..=line_count {
        let mut line = line(&mut random);
        if line_number < line_count || seed % 2 == 0 {
            line.push(b'\n');
        }
        if output.write_all(&line).is_err() {
            return;
        }
    }
}

// ---------------------------------------------------------------------------
// Randomness: splitmix64

struct Random {
    state: u64,
}

impl Random {
    fn next(&mut self) -> u64 {
        self.state = self.state.wrapping_add(0x9e37_79b9_7f4a_7c15);
        let mut z = self.state;
        z = (z ^ (z >> 30)).wrapping_mul(0xbf58_476d_1ce4_e5b9);
        z = (z ^ (z >> 27)).wrapping_mul(0x94d0_49bb_1331_11eb);
        z ^ (z >> 31)
    }

    /// From `low` to `high`, both included.
    fn between(&mut self, low: i64, high: i64) -> i64 {
        assert!(low <= high);
        low + (self.next() % (high - low + 1) as u64) as i64
    }

    /// True that many times in a thousand.
    fn chance(&mut self, per_thousand: i64) -> bool {
        self.between(1, 1000) <= per_thousand
    }

    fn pick<T: Copy>(&mut self, items: &[T]) -> T {
        items[self.between(0, items.len() as i64 - 1) as usize]
    }

    fn shuffle<T>(&mut self, items: &mut [T]) {
        for i in (1..items.len()).rev() {
            items.swap(i, self.between(0, i as i64) as usize);
        }
    }

    fn signed(&mut self, size: i64) -> i64 {
        if self.chance(500) {
            size
        } else {
            -size
        }
    }
}

// ---------------------------------------------------------------------------
// Arrays

#[derive(Clone)]
struct Array {
    lengths: Vec<i64>,
    elements: Vec<i64>,
}

impl Array {
    fn rank(&self) -> usize {
        self.lengths.len()
    }
}

fn count(lengths: &[i64]) -> i64 {
    if lengths.contains(&0) {
        return 0;
    }
    lengths.iter().fold(1, |count: i64, &length| count.saturating_mul(length))
}

fn scalar(element: i64) -> Array {
    Array { lengths: vec![], elements: vec![element] }
}

fn vector(elements: Vec<i64>) -> Array {
    Array { lengths: vec![elements.len() as i64], elements }
}

/// One element as a scalar or as a vector of one.
fn single(random: &mut Random, element: i64) -> Array {
    if random.chance(600) {
        scalar(element)
    } else {
        vector(vec![element])
    }
}

/// A vector, or of a list of one element sometimes a scalar.
fn list(random: &mut Random, elements: Vec<i64>) -> Array {
    if elements.len() == 1 {
        single(random, elements[0])
    } else {
        vector(elements)
    }
}

/// Numbers at the edges of something.
fn edge(random: &mut Random) -> i64 {
    random.pick(&EDGES)
}

#[rustfmt::skip]
const EDGES: [i64; 28] = [
    LEAST, LEAST, LEAST + 1, LARGEST, LARGEST, LARGEST - 1, -1, 0, 1, 2, 8, 9,
    1_023, 1_024, 1_025, -1_024, -1_025, 16_383, 16_384, 16_385, -16_384, -16_385,
    256, 257, 65_536, 65_537, 1 << 24, 1 << 30,
];

/// An array of the lengths; its elements are all of one kind.
fn array(random: &mut Random, lengths: Vec<i64>) -> Array {
    let kind = random.between(1, 10);
    let elements = (0..count(&lengths))
        .map(|_| match kind {
            1 => random.between(LEAST, LARGEST),
            2 => random.pick(&[LEAST, LARGEST, 0, -1]),
            3 => random.between(0, 1),
            4 => random.between(-3, 3),
            5 => random.between(0, 99),
            _ => random.between(0, 9),
        })
        .collect();
    Array { lengths, elements }
}

/// Lengths of at least 1 with that rank and at most that count.
fn full_lengths(random: &mut Random, rank: i64, longest: i64, largest_count: i64) -> Vec<i64> {
    let mut room = largest_count;
    let mut lengths = Vec::new();
    for _ in 0..rank {
        let length = random.between(1, longest.min(room));
        room /= length;
        lengths.push(length);
    }
    random.shuffle(&mut lengths);
    lengths
}

/// Lengths as an operand may have them: small, large, empty, all ranks.
fn lengths(random: &mut Random) -> Vec<i64> {
    let rank = random.pick(&[0, 0, 1, 1, 1, 1, 2, 2, 2, 2, 3, 3, 3, 4, 4, 5, 6, 7, 8, 8]);
    let mut lengths = if random.chance(25) {
        full_lengths(random, rank, ROOM, ROOM)
    } else if random.chance(100) {
        full_lengths(random, rank, 12, 120)
    } else {
        full_lengths(random, rank, if rank < 3 { 6 } else { 3 }, 24)
    };
    if rank > 0 && random.chance(100) {
        // An empty array, sometimes with large lengths beside the zero.
        if random.chance(300) {
            for length in lengths.iter_mut() {
                if random.chance(500) {
                    *length = random.pick(&[ROOM, ROOM - 1, 512, 100, 17, 16, 4]);
                }
            }
        }
        let empty_axis = random.between(0, rank - 1) as usize;
        lengths[empty_axis] = 0;
    }
    lengths
}

fn any_array(random: &mut Random) -> Array {
    let lengths = lengths(random);
    array(random, lengths)
}

#[rustfmt::skip]
const LENGTHS_AT_A_LIMIT: [(i64, i64); 17] = [
    (32, 32), (25, 41), (512, 2), (341, 3), (342, 3), (513, 2), (64, 17), (40, 40), (60, 100),
    (128, 128), (113, 145), (128, 129), (129, 127), (1_024, 16), (1_024, 17), (150, 150), (200, 100),
];

/// Two lengths whose product lies at a limit, on either side of it.
fn lengths_at_a_limit(random: &mut Random) -> (i64, i64) {
    let (a, b) = random.pick(&LENGTHS_AT_A_LIMIT);
    if random.chance(500) {
        (a, b)
    } else {
        (b, a)
    }
}

// ---------------------------------------------------------------------------
// Calls that fit

#[derive(Clone)]
struct Call {
    number: i64,
    origin: i64,
    axis: i64,
    left: Array,
    right: Array,
}

/// An axis of the array, from zero; 0 for a scalar.
fn axis_of(random: &mut Random, array: &Array) -> i64 {
    random.between(0, (array.rank() as i64 - 1).max(0))
}

fn fitting_call(random: &mut Random, number: i64) -> Call {
    let g = random.between(0, 1);
    let (k, left, right) = match number {
        13 => (None, any_left(random), interval_right(random)),
        14 => {
            let right = any_array(random);
            (Some(axis_of(random, &right)), any_left(random), right)
        }
        21 => {
            let numbers = reshape_lengths(random);
            (None, list(random, numbers), any_array(random))
        }
        22 => catenate(random),
        23 => {
            let right = any_array(random);
            let numbers = take_numbers(random, &right);
            (None, list(random, numbers), right)
        }
        24 => {
            let right = any_array(random);
            let numbers = drop_numbers(random, &right);
            (None, list(random, numbers), right)
        }
        25 => {
            let right = any_array(random);
            let amount = if random.chance(200) { edge(random) } else { random.between(-9, 9) };
            (Some(axis_of(random, &right)), single(random, amount), right)
        }
        26 => {
            let right = any_array(random);
            let targets = targets(random, right.rank() as i64);
            (None, list(random, targets.iter().map(|t| t + g).collect()), right)
        }
        27 => compress(random),
        28 => expand(random),
        29 => {
            let left_count =
                if random.chance(30) { random.between(0, ROOM) } else { random.between(0, 12) };
            let left_lengths = if random.chance(30) { vec![] } else { vec![left_count] };
            (None, array(random, left_lengths), any_array(random))
        }
        30 => (None, any_array(random), any_array(random)),
        31 => select(random, g),
        _ => (None, any_left(random), any_array(random)),
    };
    // Where K is not looked at it may be anything.
    let axis = match k {
        Some(k) => k + g,
        None if random.chance(700) => random.between(0, 3),
        None => edge(random),
    };
    Call { number, origin: g, axis, left, right }
}

/// An L that is not looked at.
fn any_left(random: &mut Random) -> Array {
    if random.chance(500) {
        scalar(0)
    } else {
        any_array(random)
    }
}

fn interval_right(random: &mut Random) -> Array {
    let n = match random.between(1, 100) {
        1..=70 => random.between(0, 40),
        71..=76 => random.between(0, 1_024),
        77..=82 => random.between(1_025, 16_384),
        83..=88 => random.between(16_385, LARGEST),
        89..=94 => random.between(LEAST, -1),
        _ => edge(random),
    };
    single(random, n)
}

fn reshape_lengths(random: &mut Random) -> Vec<i64> {
    if !random.chance(180) {
        return lengths(random);
    }
    match random.between(1, 6) {
        1 => {
            let (a, b) = lengths_at_a_limit(random);
            vec![a, b]
        }
        2 => vec![edge(random)],
        3 => {
            // Nine lengths and more.
            let rank = random.between(9, 12);
            let least = if random.chance(800) { 0 } else { -1 };
            (0..rank).map(|_| random.between(least, 2)).collect()
        }
        4 => {
            // Large lengths beside a zero.
            let rank = random.between(2, 8);
            let mut lengths: Vec<i64> = (0..rank)
                .map(|_| random.pick(&[16_384, 16_384, 16_384, 1_024, 16_385, 1]))
                .collect();
            lengths[random.between(0, rank - 1) as usize] = 0;
            lengths
        }
        5 => {
            // Powers of two: products that are 0 in 32 or 64 bits.
            let rank = random.between(2, 8);
            (0..rank).map(|_| 1 << random.between(0, 14)).collect()
        }
        _ => {
            let rank = random.between(1, 4);
            (0..rank).map(|_| random.between(-2, 6)).collect()
        }
    }
}

fn catenate(random: &mut Random) -> (Option<i64>, Array, Array) {
    if random.chance(50) {
        // A scalar beside an empty axis makes elements, up to a limit.
        let (a, b) = lengths_at_a_limit(random);
        let k = random.between(0, 2);
        let mut lengths = vec![a, b];
        lengths.insert(k as usize, 0);
        let (higher, other) = (array(random, lengths), array(random, vec![]));
        return on_either_side(random, k, higher, other);
    }
    // The operand of higher rank, and its axis.
    let mut higher_lengths = lengths(random);
    if random.chance(40) {
        // A result at the limit of the room.
        higher_lengths = vec![random.pick(&[ROOM - 1, ROOM, 1_000])];
    }
    let higher = array(random, higher_lengths.clone());
    let k = axis_of(random, &higher);
    let rank = higher.rank() as i64;
    let other_lengths: Vec<i64> = match random.between(1, 100) {
        _ if rank == 0 => vec![],
        1..=40 => {
            // Equal ranks, any length along k that leaves the count small enough.
            let mut lengths = higher_lengths;
            lengths[k as usize] = 1;
            let most = ROOM / count(&lengths).max(1);
            let usual = if most > 6 && random.chance(950) { 6 } else { most };
            lengths[k as usize] = random.between(0, usual);
            lengths
        }
        41..=70 => {
            // Ranks one apart.
            let mut lengths = higher_lengths;
            lengths.remove(k as usize);
            if count(&lengths) > ROOM {
                vec![]
            } else {
                lengths
            }
        }
        71..=93 => vec![],
        // One element, which only a scalar may be repeated from.
        94..=96 => vec![1; random.between(1, rank) as usize],
        _ => lengths(random),
    };
    let other = array(random, other_lengths);
    on_either_side(random, k, higher, other)
}

fn on_either_side(
    random: &mut Random,
    k: i64,
    one: Array,
    other: Array,
) -> (Option<i64>, Array, Array) {
    if random.chance(500) {
        (Some(k), one, other)
    } else {
        (Some(k), other, one)
    }
}

fn take_numbers(random: &mut Random, right: &Array) -> Vec<i64> {
    if right.rank() == 2 && random.chance(150) {
        let (a, b) = lengths_at_a_limit(random);
        return vec![random.signed(a), random.signed(b)];
    }
    let mut read_lengths = right.lengths.clone();
    if right.rank() == 0 {
        let rank = if random.chance(100) { random.between(9, 12) } else { random.between(0, 8) };
        read_lengths = vec![1; rank as usize];
    }
    let mut room = ROOM;
    let mut numbers = Vec::new();
    for length in read_lengths {
        let wanted = if random.chance(650) { length } else { random.between(0, length + 2) };
        let size = wanted.min(room);
        room /= size.max(1);
        numbers.push(random.signed(size));
    }
    if !numbers.is_empty() && random.chance(80) {
        let spoilt = random.between(0, numbers.len() as i64 - 1) as usize;
        numbers[spoilt] = edge(random);
    }
    numbers
}

fn drop_numbers(random: &mut Random, right: &Array) -> Vec<i64> {
    if right.rank() == 0 {
        let rank = if random.chance(200) { random.between(9, 12) } else { random.between(0, 8) };
        return (0..rank).map(|_| random.pick(&[0, 0, 0, 0, 0, 1, -1])).collect();
    }
    let mut numbers = Vec::new();
    for &length in &right.lengths {
        let size = match random.between(1, 10) {
            1 => random.between(0, length + 2),
            2..=6 => random.between(0, length / 2),
            _ => 0,
        };
        let number = random.signed(size);
        numbers.push(if random.chance(30) { edge(random) } else { number });
    }
    numbers
}

/// Result axes from zero: a permutation, or some axes sent together.
fn targets(random: &mut Random, rank: i64) -> Vec<i64> {
    let result_rank = if random.chance(600) { rank } else { random.between(rank.min(1), rank) };
    let mut targets: Vec<i64> = (0..result_rank).collect();
    while (targets.len() as i64) < rank {
        targets.push(random.between(0, result_rank - 1));
    }
    random.shuffle(&mut targets);
    targets
}

/// Zeros and ones with that many ones, in any order.
fn mask(random: &mut Random, ones: i64, zeros: i64) -> Vec<i64> {
    let mut mask = vec![1; ones as usize];
    mask.extend(vec![0; zeros as usize]);
    random.shuffle(&mut mask);
    mask
}

fn any_mask(random: &mut Random, count: i64) -> Vec<i64> {
    (0..count).map(|_| random.between(0, 1)).collect()
}

fn compress(random: &mut Random) -> (Option<i64>, Array, Array) {
    if random.chance(80) {
        // An axis of length 1 repeated until the result is at a limit.
        let (ones, others) = lengths_at_a_limit(random);
        let zeros = random.between(0, 3).min(ROOM - ones);
        let left = vector(mask(random, ones, zeros));
        let first = random.chance(500);
        let right = array(random, if first { vec![1, others] } else { vec![others, 1] });
        return (Some(if first { 0 } else { 1 }), left, right);
    }
    let mut lengths = lengths(random);
    let rank = lengths.len() as i64;
    let k = random.between(0, (rank - 1).max(0));
    if rank > 0 && random.chance(200) {
        lengths[k as usize] = 1;
    }
    if count(&lengths) > ROOM {
        lengths = vec![1, 3];
    }
    let k = k.min((lengths.len() as i64 - 1).max(0));
    let length = lengths.get(k as usize).copied().unwrap_or(1);
    let left_count = match random.between(1, 100) {
        1..=20 => 1,
        _ if length == 1 => random.between(0, 12),
        _ => length,
    };
    let elements = any_mask(random, left_count);
    let left = list(random, elements);
    let right = array(random, lengths);
    (Some(k), left, right)
}

fn expand(random: &mut Random) -> (Option<i64>, Array, Array) {
    if random.chance(80) {
        // Many zeros, until the result is at a limit.
        let (places, others) = lengths_at_a_limit(random);
        let length = random.between(0, 2).min(places).min(ROOM / others);
        let left = vector(mask(random, length, places - length));
        let first = random.chance(500);
        let right = array(random, if first { vec![length, others] } else { vec![others, length] });
        return (Some(if first { 0 } else { 1 }), left, right);
    }
    if random.chance(40) {
        // One element, which only a scalar is repeated from.
        let rank = random.between(0, 2);
        let right = array(random, vec![1; rank as usize]);
        let left_count = random.between(0, 6);
        let elements = any_mask(random, left_count);
        return (Some(axis_of(random, &right)), list(random, elements), right);
    }
    let right = any_array(random);
    let k = axis_of(random, &right);
    let zeros = if random.chance(300) { 0 } else { random.between(0, 4) };
    let elements = match right.lengths.get(k as usize) {
        None => {
            let left_count = random.between(0, 8);
            any_mask(random, left_count)
        }
        Some(&length) => mask(random, length, zeros.min(ROOM - length)),
    };
    (Some(k), list(random, elements), right)
}

fn select(random: &mut Random, g: i64) -> (Option<i64>, Array, Array) {
    if random.chance(80) {
        // Many positions, until the result is at a limit.
        let (positions, others) = lengths_at_a_limit(random);
        let length = random.between(1, 2).min((ROOM / others).max(1));
        let left = (0..positions).map(|_| random.between(0, length - 1) + g).collect();
        let first = random.chance(500);
        let right = array(random, if first { vec![length, others] } else { vec![others, length] });
        return (Some(if first { 0 } else { 1 }), vector(left), right);
    }
    let mut lengths = lengths(random);
    if lengths.is_empty() && random.chance(800) {
        lengths = vec![random.between(1, 6)];
    }
    let right = array(random, lengths);
    let k = axis_of(random, &right);
    let length = right.lengths.get(k as usize).copied().unwrap_or(1);
    if length == 0 && random.chance(800) {
        return (Some(k), vector(vec![]), right);
    }
    let last = (length - 1).max(0);
    if random.chance(400) {
        let position = random.between(0, last) + g;
        return (Some(k), scalar(position), right);
    }
    let positions = random.between(0, 6);
    let left = (0..positions).map(|_| random.between(0, last) + g).collect();
    (Some(k), vector(left), right)
}

// ---------------------------------------------------------------------------
// Calls spoilt: each part with that chance

fn spoil(random: &mut Random, call: &mut Call, per_thousand: i64) {
    if random.chance(per_thousand) {
        call.axis = match random.between(1, 4) {
            1 => call.origin - 1,
            2 => call.origin + call.left.rank().max(call.right.rank()).max(1) as i64,
            3 => call.origin + random.between(-2, 9),
            _ => edge(random),
        };
    }
    if random.chance(per_thousand / 2) {
        call.origin = if random.chance(500) { random.pick(&[-1, 2]) } else { edge(random) };
    }
    if random.chance(per_thousand / 4) {
        call.number =
            if random.chance(500) { random.pick(&[0, 10, 16, 20, 32, -11]) } else { edge(random) };
    }
    if random.chance(per_thousand) {
        raise_rank(random, &mut call.left);
    }
    if random.chance(per_thousand / 4) {
        raise_rank(random, &mut call.right);
    }
    if random.chance(per_thousand) {
        change_count(random, &mut call.left);
    }
    if random.chance(per_thousand / 4) {
        change_count(random, &mut call.right);
    }
    if random.chance(per_thousand) {
        change_element(random, &mut call.left);
    }
    if random.chance(per_thousand / 4) {
        change_element(random, &mut call.right);
    }
    if random.chance(per_thousand / 2) {
        call.left = any_array(random);
    }
    if random.chance(per_thousand / 2) {
        call.right = any_array(random);
    }
    if random.chance(per_thousand / 4) {
        std::mem::swap(&mut call.left, &mut call.right);
    }
}

/// The same elements with lengths of 1 added.
fn raise_rank(random: &mut Random, array: &mut Array) {
    for _ in 0..random.pick(&[1, 2, 2, 2, 3, 8]) {
        if array.rank() < 8 {
            let axis = random.between(0, array.rank() as i64) as usize;
            array.lengths.insert(axis, 1);
        }
    }
}

/// One length longer or shorter by one; a scalar becomes a vector.
fn change_count(random: &mut Random, old: &mut Array) {
    let mut lengths = old.lengths.clone();
    if lengths.is_empty() {
        lengths = vec![random.pick(&[0, 2])];
    } else {
        let axis = random.between(0, lengths.len() as i64 - 1) as usize;
        lengths[axis] = (lengths[axis] + random.pick(&[-1, 1])).clamp(0, ROOM);
    }
    if count(&lengths) > ROOM {
        return;
    }
    let mut elements = old.elements.clone();
    while (elements.len() as i64) < count(&lengths) {
        elements.push(random.between(0, 1));
    }
    elements.truncate(count(&lengths) as usize);
    *old = Array { lengths, elements };
}

fn change_element(random: &mut Random, array: &mut Array) {
    if array.elements.is_empty() {
        return;
    }
    let index = random.between(0, array.elements.len() as i64 - 1) as usize;
    array.elements[index] = match random.between(1, 3) {
        1 => edge(random),
        2 => array.elements[index].saturating_add(random.pick(&[-1, 1])).clamp(LEAST, LARGEST),
        _ => random.between(-2, 9),
    };
}

// ---------------------------------------------------------------------------
// Lines

fn numbers_of(call: &Call) -> Vec<i64> {
    let mut numbers = vec![call.number, call.origin, call.axis];
    for operand in [&call.left, &call.right] {
        numbers.push(operand.rank() as i64);
        numbers.extend(&operand.lengths);
        numbers.extend(&operand.elements);
    }
    numbers
}

fn printed(numbers: &[i64]) -> Vec<u8> {
    let words: Vec<String> = numbers.iter().map(|number| number.to_string()).collect();
    words.join(" ").into_bytes()
}

fn line(random: &mut Random) -> Vec<u8> {
    let number = random.pick(&PRIMITIVES);
    if random.chance(1) {
        return line_near_the_longest(random, number);
    }
    let mut call = fitting_call(random, number);
    if random.chance(450) {
        let per_thousand = if random.chance(200) { 300 } else { 70 };
        spoil(random, &mut call, per_thousand);
    }
    match random.between(1, 1000) {
        1..=30 => bad_shape(random, &call),
        31..=100 => damaged_numbers(random, numbers_of(&call)),
        101..=160 => damaged_bytes(random, printed(&numbers_of(&call))),
        _ => printed(&numbers_of(&call)),
    }
}

/// A line within a few bytes of 16,384, good but for its length.
fn line_near_the_longest(random: &mut Random, number: i64) -> Vec<u8> {
    let wanted = (LONGEST_LINE as i64 + random.between(-2, 3)) as usize;
    let left_count = random.between(500, 860);
    let right_count = 1_365 - left_count;
    let call = Call {
        number,
        origin: 1,
        axis: 1,
        left: vector(vec![LEAST; left_count as usize]),
        right: vector(vec![LEAST; right_count as usize]),
    };
    let mut numbers = numbers_of(&call);
    // Numbers at the end, which are R's elements, lose digits.
    let mut last = numbers.len() - 1;
    while printed(&numbers).len() > wanted {
        if numbers[last] > -10 {
            last -= 1;
        } else {
            numbers[last] /= 10;
        }
    }
    printed(&numbers)
}

/// A rank, length or count that a line may not have, the rest of the line fitting.
fn bad_shape(random: &mut Random, call: &Call) -> Vec<u8> {
    let mut call = call.clone();
    let changes_left = random.chance(500);
    let operand = if changes_left { &mut call.left } else { &mut call.right };
    operand.lengths = match random.between(1, 6) {
        1 => vec![1; random.between(9, 10) as usize],
        2 => vec![random.pick(&[1_025, 1_026, 16_384, LARGEST]), 0],
        3 => vec![0, random.pick(&[-1, -2, 1_025, LEAST])],
        4 => vec![random.pick(&[-1, LEAST, -1_024])],
        5 => random.pick(&[[1_025, 1], [25, 41], [2, 513], [32, 33]]).to_vec(),
        // Counts that are 0 in 32 or in 64 bits, and others.
        _ => {
            let rank = random.pick(&[4, 4, 7, 7, 3, 8]);
            let mut lengths = vec![1_024; rank];
            lengths[rank - 1] = random.pick(&[4, 16, 16, 1, 1_024]);
            random.shuffle(&mut lengths);
            lengths
        }
    };
    let count = count(&operand.lengths);
    let elements = if (0..=1_056).contains(&count) { count } else { random.pick(&[0, 0, 1]) };
    operand.elements = vec![1; elements as usize];
    printed(&numbers_of(&call))
}

/// The numbers changed in a way that mostly makes a bad line.
fn damaged_numbers(random: &mut Random, mut numbers: Vec<i64>) -> Vec<u8> {
    let index = random.between(0, numbers.len() as i64 - 1) as usize;
    match random.between(1, 6) {
        1 => numbers.truncate(index),
        2 => {
            numbers.pop();
        }
        3 => numbers.push(random.between(-1, 2)),
        4 => {
            numbers.remove(index);
        }
        5 => numbers.insert(index, random.between(0, 2)),
        _ => {
            numbers[index] = random.pick(&[
                LARGEST + 1,
                LEAST - 1,
                1 << 32,
                (1 << 32) + 1,
                9_999_999_999,
                -9_999_999_999,
                i64::MAX,
                i64::MIN,
                -1,
                9,
                1_025,
            ]);
        }
    }
    printed(&numbers)
}

/// One place of the line changed, never into a newline.
fn damaged_bytes(random: &mut Random, mut line: Vec<u8>) -> Vec<u8> {
    let mut any_byte = random.between(0, 255) as u8;
    if any_byte == b'\n' {
        any_byte = 0;
    }
    let common_byte = random.pick(b"0123456789-- +\t\r\0.,ax");
    let byte = if random.chance(300) { any_byte } else { common_byte };
    let index = random.between(0, line.len() as i64 - 1) as usize;
    // Where a number begins.
    let starts: Vec<usize> = (0..line.len()).filter(|&i| i == 0 || line[i - 1] == b' ').collect();
    let start = random.pick(&starts);
    let zeros: Vec<usize> = starts.iter().copied().filter(|&i| line[i] == b'0').collect();
    match random.between(1, 12) {
        1..=3 => line[index] = byte,
        4 => line.insert(index, byte),
        5 => {
            line.remove(index);
        }
        6 => line.truncate(index),
        7 => line.insert(start, random.pick(b"00+- \t")),
        8 => {
            let zero = if zeros.is_empty() { start } else { random.pick(&zeros) };
            line.insert(zero, b'-');
        }
        9 => line.push(random.pick(b"  \t\r\0")),
        10 => line.insert(0, random.pick(b"  \t\0-+0")),
        11 => {
            // A leading zero after a minus sign, or before a number.
            let at = if line[start] == b'-' { start + 1 } else { start };
            line.insert(at, b'0');
        }
        _ => line.clear(),
    }
    line
}
