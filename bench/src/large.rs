//! Random calls on large arrays, with lengths and left operands at the edges of the kernel's fast paths.

use crate::buffer::Buffer;
use crate::cases::Random;
use crate::kernel::{Call, Operand, Shape, MAX_COUNT};

/// Around the lengths of runs, blocks, groups and masks that the kernel treats in its own way.
const LENGTHS: [usize; 23] =
    [1, 2, 3, 5, 7, 8, 9, 15, 16, 17, 31, 32, 33, 63, 64, 65, 127, 128, 129, 512, 1023, 1025, 4096];

/// Mostly one that the kernel accepts.
pub fn call(random: &mut Random) -> Call {
    let number = 11 + random.below(21);
    // 13 takes one element.
    let lengths = if number == 13 { vec![1] } else { lengths(random) };
    let axis = random.below(lengths.len()) as usize;
    let g = random.below(2);
    let count = lengths.iter().product();
    let bound = [3, 1 << 10, MAX_COUNT + 2, 1 << 31][random.below(4) as usize];
    let elements: Vec<i32> = (0..count).map(|_| random.below(bound)).collect();
    let (l_lengths, l) = left(random, number, g, axis, &lengths);
    let operand = |lengths: &[usize], elements: &[i32], quarter| Operand {
        shape: Shape::new(lengths),
        elements: Buffer::new(elements, quarter),
    };
    Call { number, g, k: g + axis as i32, l: operand(&l_lengths, &l, 1), r: operand(&lengths, &elements, 2) }
}

/// Of rank 1 to 4.
fn lengths(random: &mut Random) -> Vec<usize> {
    let mut lengths: Vec<usize> = Vec::new();
    let rank = 1 + random.below(4) as usize;
    while lengths.len() < rank {
        let n = LENGTHS[random.below(LENGTHS.len()) as usize];
        if n * lengths.iter().product::<usize>() <= MAX_COUNT {
            lengths.push(n);
        }
    }
    lengths
}

/// Lengths and elements of the left operand that a primitive asks for beside an array of such lengths.
fn left(random: &mut Random, number: i32, g: i32, axis: usize, lengths: &[usize]) -> (Vec<usize>, Vec<i32>) {
    let n = lengths[axis];
    let list = |elements: Vec<i32>| (vec![elements.len()], elements);
    match number {
        21 => list(lengths.iter().rev().map(|&n| n as i32).collect()),
        22 => {
            let mut other = lengths.to_vec();
            other[axis] = n.min(random.below(4) as usize);
            let count: usize = other.iter().product();
            (other, (0..count as i32).collect())
        }
        23 | 24 => list(lengths.iter().map(|&n| near(random, n)).collect()),
        25 => (vec![], vec![near(random, n)]),
        26 => list(sent(random, g, lengths.len())),
        27 => list(bits(random, n)),
        28 => list(opened(random, n)),
        29 | 30 => list((0..n).map(|_| random.below(1 << 10)).collect()),
        31 => list((0..random.below(40)).map(|_| g + random.below(n)).collect()),
        _ => (vec![], vec![0]),
    }
}

/// A number of either sign around 0, around n or anywhere below n, and now and then an extreme.
fn near(random: &mut Random, n: usize) -> i32 {
    let n = n as i32;
    match random.below(8) {
        0 => i32::MIN,
        1 => i32::MAX,
        2 | 3 => random.below(5) - 2,
        4 | 5 => n + random.below(5) - 2,
        _ => random.below(2 * n as usize + 1) - n,
    }
}

/// An axis of the result for each axis: all of them in some order, or some sent together.
fn sent(random: &mut Random, g: i32, rank: usize) -> Vec<i32> {
    let mut sent: Vec<i32> = (0..rank as i32).map(|t| g + t).collect();
    for i in (1..rank).rev() {
        sent.swap(i, random.below(i + 1) as usize);
    }
    if random.below(3) == 0 {
        let last = g + rank as i32 - 1;
        sent.iter_mut().filter(|t| **t == last).for_each(|t| *t = g);
    }
    sent
}

/// A mask of n places: ones in one of so many, neighbours alike or not.
fn bits(random: &mut Random, n: usize) -> Vec<i32> {
    let (one_in, alike) = (1 + random.below(3) as usize, 1 + random.below(3) as usize);
    (0..n.div_ceil(alike)).flat_map(|_| vec![i32::from(random.below(one_in) == 0); alike]).take(n).collect()
}

/// A mask with n ones, zeros before some of them and after the last.
fn opened(random: &mut Random, n: usize) -> Vec<i32> {
    let zeros = 1 + random.below(3) as usize;
    let mut bits: Vec<i32> = (0..n).flat_map(|_| [vec![0; random.below(zeros) as usize], vec![1]].concat()).collect();
    bits.extend(vec![0; random.below(zeros) as usize]);
    bits.truncate(MAX_COUNT);
    bits
}
