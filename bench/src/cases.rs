//! What is timed: every primitive on a planner's block, on 16,384 elements of rank 3, and on one vector.

use crate::buffer::Buffer;
use crate::kernel::{Call, Operand, Shape, MAX_COUNT};

/// Bays, rows and tiers of a block of containers.
const BLOCK: &[usize] = &[30, 10, 5];
const LARGE: &[usize] = &[32, 16, 32];
const VECTOR: &[usize] = &[MAX_COUNT];
const SHAPES: [&[usize]; 3] = [BLOCK, LARGE, VECTOR];

/// With G = 1, as APL starts.
const G: i32 = 1;

/// What the kernel is held to.
#[derive(Clone, Copy, PartialEq)]
pub enum Beside {
    Copy,
    Rust,
}

/// A goal: at most so many times what the kernel is held to.
#[derive(Clone, Copy, PartialEq)]
pub struct Goal {
    pub name: &'static str,
    pub beside: Beside,
    pub most: f64,
}

const fn goal(name: &'static str, beside: Beside, most: f64) -> Goal {
    Goal { name, beside, most }
}

const LONG_RUNS: Goal = goal("reverse, catenate, take, drop, rotate, select: runs of 128 or more", Beside::Copy, 1.3);
const SHORT_RUNS: Goal = goal("reverse, catenate, take, drop, rotate, select: shorter runs", Beside::Rust, 1.0);
const REVERSED_LINES: Goal = goal("reverse along the last axis", Beside::Copy, 2.5);
const TRANSPOSE: Goal = goal("transpose and transpose by L", Beside::Rust, 1.0);
const TRANSPOSE_COPY: Goal = goal("transpose and transpose by L", Beside::Copy, 10.0);
const MASKS: Goal = goal("compress and expand", Beside::Rust, 1.0);
const LOOKUPS: Goal = goal("index of and member: 16,384 in 16,384", Beside::Copy, 50.0);
const SMALL: Goal = goal("a block of 30 x 10 x 5: the whole call", Beside::Rust, 1.3);

pub const GOALS: [Goal; 8] = [LONG_RUNS, SHORT_RUNS, REVERSED_LINES, TRANSPOSE, TRANSPOSE_COPY, MASKS, LOOKUPS, SMALL];

/// Lengths and elements.
struct Array(Vec<usize>, Vec<i32>);

pub struct Case {
    pub primitive: &'static str,
    pub size: usize,
    pub shape: String,
    pub what: String,
    pub goals: Vec<Goal>,
    pub call: Call,
}

pub fn all() -> Vec<Case> {
    let mut cases = Vec::new();
    for lengths in SHAPES {
        whole(lengths, &mut cases);
        for axis in 0..lengths.len() {
            along(lengths, axis, &mut cases);
        }
    }
    transposes(&mut cases);
    lookups(&mut cases);
    cases.sort_by_key(|case| case.call.number);
    cases
}

/// Primitives that look at no axis.
fn whole(lengths: &[usize], cases: &mut Vec<Case>) {
    let n = count(lengths) as i32;
    cases.push(one("11 shape", lengths, "", 0, array(lengths)));
    cases.push(one("12 ravel", lengths, "", 0, array(lengths)));
    cases.push(one("13 interval", lengths, "", 0, list(vec![n])));
    let l = list(lengths.iter().map(|&n| n as i32).collect());
    cases.push(two("21 reshape", lengths, "of as many", 0, l, array(&[n as usize])));
    let l = list(lengths.iter().map(|&n| n as i32).collect());
    cases.push(two("21 reshape", lengths, "of 30 repeated", 0, l, array(&[30])));
}

/// Primitives that look at an axis, on this one.
fn along(lengths: &[usize], axis: usize, cases: &mut Vec<Case>) {
    let n = lengths[axis];
    let inner = count(&lengths[axis + 1..]);
    let last = inner == 1;
    let name = if lengths.len() == 1 { "only axis" } else { ["first axis", "middle axis", "last axis"][axis] };
    let mut push = |primitive, what: &str, run: usize, l, r| {
        let what = if what.is_empty() { name.to_string() } else { format!("{name}, {what}") };
        let mut case = two(primitive, lengths, &what, axis, l, r);
        case.goals = goals(case.call.number, count(lengths), run, last);
        cases.push(case);
    };
    push("14 reverse", "", inner, scalar(0), array(lengths));

    let half = with(lengths, axis, n / 2);
    push("22 catenate", "two halves", n / 2 * inner, array(&half), array(&half));

    let mut whole: Vec<i32> = lengths.iter().map(|&n| n as i32).collect();
    let part = (n * 2 / 3) as i32;
    for (what, number) in [("two thirds", part), ("two thirds from the end", -part)] {
        whole[axis] = number;
        push("23 take", what, part as usize * inner, list(whole.clone()), array(lengths));
    }
    whole[axis] = n as i32;
    push("23 take", "half zeros", n / 2 * inner, list(whole.clone()), array(&half));
    let mut none = vec![0; lengths.len()];
    none[axis] = (n / 3) as i32;
    push("24 drop", "a third", (n - n / 3) * inner, list(none), array(lengths));

    for amount in [1, (n / 3).max(2) as i32, -1] {
        let cut = amount.unsigned_abs() as usize;
        push("25 rotate", &format!("by {amount}"), cut.min(n - cut) * inner, scalar(amount), array(lengths));
    }
    for (what, bits) in [("all ones", ones(n)), ("alternating", alternating(n)), ("random", random_bits(n))] {
        let kept = bits.iter().filter(|&&bit| bit == 1).count();
        let shorter = with(lengths, axis, kept);
        push("27 compress", what, inner, list(bits.clone()), array(lengths));
        push("28 expand", what, inner, list(bits), array(&shorter));
    }
    let mut random = Random::new();
    let positions = (0..n).map(|_| G + random.below(n)).collect();
    push("31 select", "random positions", inner, list(positions), array(lengths));
    let positions = (0..n as i32).step_by(2).map(|i| G + i).collect();
    push("31 select", "every second position", inner, list(positions), array(lengths));
}

fn transposes(cases: &mut Vec<Case>) {
    for lengths in [BLOCK, LARGE, VECTOR, &[128, 128]] {
        cases.push(one("15 transpose", lengths, "", 0, array(lengths)));
    }
    for lengths in [BLOCK, LARGE] {
        for sent in [[1, 3, 2], [2, 1, 3], [2, 3, 1], [3, 1, 2], [1, 1, 2]] {
            let what = format!("by {} {} {}", sent[0], sent[1], sent[2]);
            cases.push(two("26 transpose by", lengths, &what, 0, list(sent.to_vec()), array(lengths)));
        }
    }
    // Short lines on many axes, where the walk costs more than the elements.
    let mut case = one("15 transpose", &[4; 7], "", 0, array(&[4; 7]));
    case.goals = vec![];
    cases.push(case);
}

/// As many looked up as are looked at: 1,500 in 1,500 and 16,384 in 16,384.
fn lookups(cases: &mut Vec<Case>) {
    for lengths in [BLOCK, VECTOR] {
        let n = count(lengths);
        let mut random = Random::new();
        let mut draw = |below: usize| (0..n).map(|_| random.below(below)).collect::<Vec<i32>>();
        let different: Vec<i32> = (0..n as i32).map(|i| i.wrapping_mul(0x9E37_79B1_u32 as i32)).collect();
        let backwards: Vec<i32> = different.iter().rev().copied().collect();
        let apart = |first: i32| (0..n as i32).map(|i| first + i * 65_536).collect::<Vec<i32>>();
        let chain = |first: usize| (first..first + n).map(in_one_chain).collect::<Vec<i32>>();
        for (what, within, wanted) in [
            ("random", draw(n), draw(n)),
            ("random, wide", draw(1 << 31), draw(1 << 31)),
            ("all different", different, backwards),
            ("in order", (0..n as i32).collect(), (0..n as i32).collect()),
            ("all alike", vec![7; n], vec![7; n]),
            ("all alike, missing", vec![7; n], vec![8; n]),
            ("65,536 apart", apart(0), apart(0)),
            ("65,536 apart, missing", apart(0), apart(1)),
            (WORST, chain(0), chain(0)),
            (WORST_MISSING, chain(0), chain(n)),
        ] {
            let shaped = |elements| Array(lengths.to_vec(), elements);
            let (a, b) = (within.clone(), wanted.clone());
            let mut pair = [
                two("29 index of", lengths, what, 0, list(within), shaped(wanted)),
                two("30 member", lengths, what, 0, shaped(b), list(a)),
            ];
            for case in &mut pair {
                if what == WORST || what == WORST_MISSING {
                    case.goals = vec![];
                }
            }
            cases.extend(pair);
        }
    }
}

const WORST: &str = "worst: one chain";
const WORST_MISSING: &str = "worst: one chain, missing";

/// Different values that `lookups` puts into one chain: the middle bits of their product with its factor are all 0.
fn in_one_chain(low: usize) -> i32 {
    const INVERSE: u32 = 0x144C_BC89;
    ((low as u32).wrapping_mul(INVERSE) ^ 0x8000_0000) as i32
}

/// The goals of a primitive, by the size, the shortest run, and whether the axis is the last.
fn goals(number: i32, size: usize, run: usize, last: bool) -> Vec<Goal> {
    match number {
        _ if size < MAX_COUNT => vec![SMALL],
        14 if last => vec![REVERSED_LINES],
        14 | 22..=25 | 31 if run >= 128 => vec![LONG_RUNS],
        14 | 22..=25 | 31 => vec![SHORT_RUNS],
        15 | 26 => vec![TRANSPOSE, TRANSPOSE_COPY],
        27 | 28 => vec![MASKS],
        29 | 30 => vec![LOOKUPS],
        _ => vec![],
    }
}

fn one(primitive: &'static str, lengths: &[usize], what: &str, axis: usize, r: Array) -> Case {
    two(primitive, lengths, what, axis, scalar(0), r)
}

/// A primitive's name starts with its number.
fn two(primitive: &'static str, lengths: &[usize], what: &str, axis: usize, l: Array, r: Array) -> Case {
    let number = primitive[..2].parse().expect("a number of two digits");
    let operand = |a: Array, quarter| Operand { shape: Shape::new(&a.0), elements: Buffer::new(&a.1, quarter) };
    Case {
        primitive,
        size: count(lengths),
        shape: lengths.iter().map(usize::to_string).collect::<Vec<_>>().join(" x "),
        what: what.to_string(),
        goals: goals(number, count(lengths), 0, false),
        call: Call { number, g: G, k: G + axis as i32, l: operand(l, 1), r: operand(r, 2) },
    }
}

fn count(lengths: &[usize]) -> usize {
    lengths.iter().product()
}

fn with(lengths: &[usize], axis: usize, n: usize) -> Vec<usize> {
    let mut changed = lengths.to_vec();
    changed[axis] = n;
    changed
}

fn scalar(element: i32) -> Array {
    Array(vec![], vec![element])
}

fn list(elements: Vec<i32>) -> Array {
    Array(vec![elements.len()], elements)
}

/// An array of random elements.
fn array(lengths: &[usize]) -> Array {
    let mut random = Random::new();
    Array(lengths.to_vec(), (0..count(lengths)).map(|_| random.below(1 << 31)).collect())
}

fn ones(n: usize) -> Vec<i32> {
    vec![1; n]
}

fn alternating(n: usize) -> Vec<i32> {
    (0..n as i32).map(|i| (i + 1) % 2).collect()
}

fn random_bits(n: usize) -> Vec<i32> {
    let mut random = Random::new();
    (0..n).map(|_| random.below(2)).collect()
}

/// Marsaglia's xorshift, the same numbers in every run.
pub struct Random(u64);

impl Random {
    pub fn new() -> Random {
        Random(88_172_645_463_325_252)
    }

    pub fn below(&mut self, bound: usize) -> i32 {
        self.0 ^= self.0 << 13;
        self.0 ^= self.0 >> 7;
        self.0 ^= self.0 << 17;
        ((self.0 >> 33) as usize % bound) as i32
    }
}
