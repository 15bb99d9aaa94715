//! The kernel's calls in straightforward Rust: slices and iterators, the same tests and replies, the same output buffer.

use crate::kernel::{Answer, Call, Operand, Shape, MAX_COUNT, MAX_RANK};
use std::collections::{HashMap, HashSet};

const NUMBER: usize = 1;
const FORM: usize = 2;
const ORIGIN: usize = 3;
const RANK: usize = 4;
const AXIS: usize = 5;
const LENGTH: usize = 6;
const DOMAIN: usize = 7;
const INDEX: usize = 8;
const LIMIT: usize = 9;
const SPACE: usize = 10;

/// What passed its tests, or a refusal's number.
type Tested<T> = Result<T, usize>;

#[inline(never)]
pub fn answer(call: &Call, out: &mut [i32]) -> Answer {
    match reply(call, out) {
        Ok(shape) => Answer { number: 0, shape },
        Err(number) => Answer { number, shape: Shape::new(&[]) },
    }
}

fn reply(call: &Call, out: &mut [i32]) -> Tested<Shape> {
    let l = match call.number {
        11..=15 => None,
        21..=31 => Some(form(&call.l)?),
        _ => return Err(NUMBER),
    };
    let r = form(&call.r)?;
    test(call.g == 0 || call.g == 1, ORIGIN)?;
    let (g, k) = (call.g, i64::from(call.k) - i64::from(call.g));
    match (call.number, l) {
        (11, _) => shape_of(r, out),
        (12, _) => ravel(r, out),
        (13, _) => interval(g, r, out),
        (14, _) => reverse(k, r, out),
        (15, _) => transpose(r, out),
        (21, Some(l)) => reshape(l, r, out),
        (22, Some(l)) => catenate(k, l, r, out),
        (23, Some(l)) => take(l, r, out),
        (24, Some(l)) => drop(l, r, out),
        (25, Some(l)) => rotate(k, l, r, out),
        (26, Some(l)) => transpose_by(g, l, r, out),
        (27, Some(l)) => compress(k, l, r, out),
        (28, Some(l)) => expand(k, l, r, out),
        (29, Some(l)) => index_of(g, l, r, out),
        (30, Some(l)) => member(l, r, out),
        (31, Some(l)) => select(g, k, l, r, out),
        _ => Err(NUMBER),
    }
}

/// An operand of good form: as many elements as its lengths count.
#[derive(Clone, Copy)]
struct Array<'a> {
    lengths: &'a [usize],
    elements: &'a [i32],
}

// Tests that several primitives share.

fn test(passed: bool, refusal: usize) -> Tested<()> {
    if passed {
        Ok(())
    } else {
        Err(refusal)
    }
}

fn count(lengths: &[usize]) -> usize {
    lengths.iter().fold(1, |count: usize, &n| count.saturating_mul(n))
}

fn is_good_shape(lengths: &[usize]) -> bool {
    lengths.len() <= MAX_RANK && lengths.iter().all(|&n| n <= MAX_COUNT) && count(lengths) <= MAX_COUNT
}

fn form(operand: &Operand) -> Tested<Array<'_>> {
    let lengths = operand.shape.lens.get(..operand.shape.rank).ok_or(FORM)?;
    test(is_good_shape(lengths), FORM)?;
    let elements = operand.elements.get(..count(lengths)).ok_or(FORM)?;
    Ok(Array { lengths, elements })
}

fn list(array: Array<'_>) -> Tested<&[i32]> {
    test(array.lengths.len() <= 1, RANK)?;
    Ok(array.elements)
}

fn axis(k: i64, rank: usize) -> Tested<usize> {
    usize::try_from(k).ok().filter(|&k| k < rank).ok_or(AXIS)
}

/// A scalar under a primitive that takes an axis is read as a vector of one.
fn as_vector(r: Array<'_>) -> Array<'_> {
    if r.lengths.is_empty() {
        Array { lengths: &[1], elements: r.elements }
    } else {
        r
    }
}

/// LIMIT and SPACE: the result's shape, and the part of the output buffer that it fills.
fn room<'a>(lengths: &[usize], out: &'a mut [i32]) -> Tested<(Shape, &'a mut [i32])> {
    test(is_good_shape(lengths), LIMIT)?;
    let out = out.get_mut(..count(lengths)).ok_or(SPACE)?;
    Ok((Shape::new(lengths), out))
}

fn with_length(lengths: &[usize], axis: usize, n: usize) -> Vec<usize> {
    let mut changed = lengths.to_vec();
    changed[axis] = n;
    changed
}

fn inner(lengths: &[usize], axis: usize) -> usize {
    count(&lengths[axis + 1..])
}

fn mask(list: &[i32]) -> Tested<()> {
    test(list.iter().all(|&m| m == 0 || m == 1), DOMAIN)
}

// The primitives.

fn shape_of(r: Array, out: &mut [i32]) -> Tested<Shape> {
    let (shape, out) = room(&[r.lengths.len()], out)?;
    for (slot, &n) in out.iter_mut().zip(r.lengths) {
        *slot = n as i32;
    }
    Ok(shape)
}

fn ravel(r: Array, out: &mut [i32]) -> Tested<Shape> {
    let (shape, out) = room(&[r.elements.len()], out)?;
    out.copy_from_slice(r.elements);
    Ok(shape)
}

fn interval(g: i32, r: Array, out: &mut [i32]) -> Tested<Shape> {
    let &[n] = list(r)? else { return Err(LENGTH) };
    let n = usize::try_from(n).map_err(|_| DOMAIN)?;
    let (shape, out) = room(&[n], out)?;
    for (slot, number) in out.iter_mut().zip(g..) {
        *slot = number;
    }
    Ok(shape)
}

fn reverse(k: i64, r: Array, out: &mut [i32]) -> Tested<Shape> {
    let vector = as_vector(r);
    let axis = axis(k, vector.lengths.len())?;
    let (shape, out) = room(r.lengths, out)?;
    if out.is_empty() {
        return Ok(shape);
    }
    let inner = inner(vector.lengths, axis);
    let block = vector.lengths[axis] * inner;
    for (from, to) in r.elements.chunks_exact(block).zip(out.chunks_exact_mut(block)) {
        if inner == 1 {
            for (slot, &element) in to.iter_mut().zip(from.iter().rev()) {
                *slot = element;
            }
        } else {
            for (slot, row) in to.chunks_exact_mut(inner).zip(from.chunks_exact(inner).rev()) {
                slot.copy_from_slice(row);
            }
        }
    }
    Ok(shape)
}

fn transpose(r: Array, out: &mut [i32]) -> Tested<Shape> {
    let sent: Vec<usize> = (0..r.lengths.len()).rev().collect();
    send(&sent, r, out)
}

fn reshape(l: Array, r: Array, out: &mut [i32]) -> Tested<Shape> {
    let lengths = list(l)?.iter().map(|&n| usize::try_from(n).map_err(|_| DOMAIN));
    let lengths = lengths.collect::<Tested<Vec<usize>>>()?;
    let (shape, out) = room(&lengths, out)?;
    if r.elements.is_empty() {
        out.fill(0);
    } else {
        for run in out.chunks_mut(r.elements.len()) {
            run.copy_from_slice(&r.elements[..run.len()]);
        }
    }
    Ok(shape)
}

fn catenate(k: i64, l: Array, r: Array, out: &mut [i32]) -> Tested<Shape> {
    let (l, r) = if l.lengths.is_empty() && r.lengths.is_empty() { (as_vector(l), as_vector(r)) } else { (l, r) };
    let (lower, higher) = if l.lengths.len() < r.lengths.len() { (l, r) } else { (r, l) };
    let rank = higher.lengths.len();
    test(lower.lengths.is_empty() || rank - lower.lengths.len() <= 1, RANK)?;
    let axis = axis(k, rank)?;
    let (before, after) = (&higher.lengths[..axis], &higher.lengths[axis + 1..]);
    // The length along the axis, if all others agree.
    let extent = |side: Array| -> Tested<usize> {
        if side.lengths.len() == rank {
            test(side.lengths[..axis] == *before && side.lengths[axis + 1..] == *after, LENGTH)?;
            return Ok(side.lengths[axis]);
        }
        test(side.lengths.is_empty() || *side.lengths == [before, after].concat(), LENGTH)?;
        Ok(1)
    };
    let (left, right) = (extent(l)?, extent(r)?);
    let (shape, out) = room(&with_length(higher.lengths, axis, left + right), out)?;
    if out.is_empty() {
        return Ok(shape);
    }
    let inner = count(after);
    let put = |side: Array, block: usize, to: &mut [i32]| {
        if side.lengths.is_empty() {
            to.fill(side.elements[0]);
        } else {
            to.copy_from_slice(&side.elements[block * to.len()..][..to.len()]);
        }
    };
    for (block, to) in out.chunks_exact_mut((left + right) * inner).enumerate() {
        let (front, back) = to.split_at_mut(left * inner);
        put(l, block, front);
        put(r, block, back);
    }
    Ok(shape)
}

/// What 23 and 24 copy along one axis: `kept` positions, from `from` in R to `to` in the result.
struct Window {
    length: usize,
    result: usize,
    from: usize,
    to: usize,
    kept: usize,
}

fn taken(number: i32, length: usize) -> Window {
    let result = number.unsigned_abs() as usize;
    let kept = result.min(length);
    let (from, to) = if number < 0 { (length - kept, result - kept) } else { (0, 0) };
    Window { length, result, from, to, kept }
}

fn dropped(number: i32, length: usize) -> Window {
    let kept = length.saturating_sub(number.unsigned_abs() as usize);
    let from = if number < 0 { 0 } else { length - kept };
    Window { length, result: kept, from, to: 0, kept }
}

fn take(l: Array, r: Array, out: &mut [i32]) -> Tested<Shape> {
    cut(taken, l, r, out)
}

fn drop(l: Array, r: Array, out: &mut [i32]) -> Tested<Shape> {
    cut(dropped, l, r, out)
}

fn cut(window: fn(i32, usize) -> Window, l: Array, r: Array, out: &mut [i32]) -> Tested<Shape> {
    let numbers = list(l)?;
    let ones;
    let lengths = if r.lengths.is_empty() {
        ones = vec![1; numbers.len()];
        &ones
    } else {
        r.lengths
    };
    test(numbers.len() == lengths.len(), LENGTH)?;
    test(lengths.len() <= MAX_RANK, LIMIT)?;
    let windows: Vec<Window> = numbers.iter().zip(lengths).map(|(&number, &n)| window(number, n)).collect();
    let results: Vec<usize> = windows.iter().map(|w| w.result).collect();
    let (shape, out) = room(&results, out)?;
    if windows.iter().any(|w| w.kept < w.result) {
        out.fill(0);
    }
    copy_windows(&windows, r.elements, out);
    Ok(shape)
}

fn copy_windows(windows: &[Window], r: &[i32], out: &mut [i32]) {
    match windows {
        [] => out.copy_from_slice(r),
        [w] => out[w.to..][..w.kept].copy_from_slice(&r[w.from..][..w.kept]),
        [w, rest @ ..] => {
            let row: usize = rest.iter().map(|w| w.length).product();
            let slot: usize = rest.iter().map(|w| w.result).product();
            for i in 0..w.kept {
                let from = &r[(w.from + i) * row..][..row];
                copy_windows(rest, from, &mut out[(w.to + i) * slot..][..slot]);
            }
        }
    }
}

fn rotate(k: i64, l: Array, r: Array, out: &mut [i32]) -> Tested<Shape> {
    let amounts = list(l)?;
    let vector = as_vector(r);
    let axis = axis(k, vector.lengths.len())?;
    let &[amount] = amounts else { return Err(LENGTH) };
    let (shape, out) = room(r.lengths, out)?;
    if out.is_empty() {
        return Ok(shape);
    }
    let (n, inner) = (vector.lengths[axis], inner(vector.lengths, axis));
    let cut = i64::from(amount).rem_euclid(n as i64) as usize * inner;
    for (from, to) in r.elements.chunks_exact(n * inner).zip(out.chunks_exact_mut(n * inner)) {
        let (front, back) = from.split_at(cut);
        to[..back.len()].copy_from_slice(back);
        to[back.len()..].copy_from_slice(front);
    }
    Ok(shape)
}

fn transpose_by(g: i32, l: Array, r: Array, out: &mut [i32]) -> Tested<Shape> {
    let numbers = list(l)?;
    let rank = r.lengths.len();
    test(numbers.len() == rank, LENGTH)?;
    let sent = numbers.iter().map(|&t| usize::try_from(i64::from(t) - i64::from(g)).map_err(|_| DOMAIN));
    let sent = sent.collect::<Tested<Vec<usize>>>()?;
    test(sent.iter().all(|&t| t < rank), DOMAIN)?;
    let result_rank = sent.iter().max().map_or(0, |&t| t + 1);
    test((0..result_rank).all(|t| sent.contains(&t)), DOMAIN)?;
    send(&sent, r, out)
}

/// Axis i of R goes to axis `sent[i]`: a length and a stride for each axis of the result.
fn send(sent: &[usize], r: Array, out: &mut [i32]) -> Tested<Shape> {
    let result_rank = sent.iter().max().map_or(0, |&t| t + 1);
    let mut lengths = vec![usize::MAX; result_rank];
    let mut strides = vec![0; result_rank];
    let mut stride = 1;
    for (&t, &n) in sent.iter().zip(r.lengths).rev() {
        lengths[t] = lengths[t].min(n);
        strides[t] += stride;
        stride *= n;
    }
    let (shape, out) = room(&lengths, out)?;
    if !out.is_empty() {
        walk(&lengths, &strides, r.elements, out);
    }
    Ok(shape)
}

fn walk(lengths: &[usize], strides: &[usize], r: &[i32], out: &mut [i32]) {
    match (lengths, strides) {
        ([_, rest @ ..], [stride, later @ ..]) if !rest.is_empty() => {
            let row: usize = rest.iter().product();
            for (i, slot) in out.chunks_exact_mut(row).enumerate() {
                walk(rest, later, &r[i * stride..], slot);
            }
        }
        (_, [stride]) => {
            for (slot, &element) in out.iter_mut().zip(r.iter().step_by(*stride)) {
                *slot = element;
            }
        }
        _ => out[0] = r[0],
    }
}

fn compress(k: i64, l: Array, r: Array, out: &mut [i32]) -> Tested<Shape> {
    let bits = list(l)?;
    let r = as_vector(r);
    let axis = axis(k, r.lengths.len())?;
    let n = r.lengths[axis];
    test(bits.len() == 1 || n == 1 || bits.len() == n, LENGTH)?;
    mask(bits)?;
    let all;
    let bits = if bits.len() == 1 {
        all = vec![bits[0]; n];
        &all
    } else {
        bits
    };
    let ones = bits.iter().filter(|&&bit| bit == 1).count();
    let (shape, out) = room(&with_length(r.lengths, axis, ones), out)?;
    if out.is_empty() {
        return Ok(shape);
    }
    let inner = inner(r.lengths, axis);
    let blocks = r.elements.chunks_exact(n * inner).zip(out.chunks_exact_mut(ones * inner));
    for (from, to) in blocks {
        if n == 1 {
            to.chunks_exact_mut(inner).for_each(|slot| slot.copy_from_slice(from));
        } else if inner == 1 {
            let kept = from.iter().zip(bits).filter(|(_, &bit)| bit == 1);
            for (slot, (&element, _)) in to.iter_mut().zip(kept) {
                *slot = element;
            }
        } else {
            let kept = from.chunks_exact(inner).zip(bits).filter(|(_, &bit)| bit == 1);
            for (slot, (row, _)) in to.chunks_exact_mut(inner).zip(kept) {
                slot.copy_from_slice(row);
            }
        }
    }
    Ok(shape)
}

fn expand(k: i64, l: Array, r: Array, out: &mut [i32]) -> Tested<Shape> {
    let bits = list(l)?;
    let vector = as_vector(r);
    let axis = axis(k, vector.lengths.len())?;
    mask(bits)?;
    let ones = bits.iter().filter(|&&bit| bit == 1).count();
    let repeated;
    let elements = if r.lengths.is_empty() {
        repeated = vec![r.elements[0]; ones];
        &repeated
    } else {
        test(ones == vector.lengths[axis], LENGTH)?;
        r.elements
    };
    let (shape, out) = room(&with_length(vector.lengths, axis, bits.len()), out)?;
    if out.is_empty() {
        return Ok(shape);
    }
    let inner = inner(vector.lengths, axis);
    for (block, to) in out.chunks_exact_mut(bits.len() * inner).enumerate() {
        let from = &elements[block * ones * inner..][..ones * inner];
        if inner == 1 {
            let mut elements = from.iter();
            for (slot, &bit) in to.iter_mut().zip(bits) {
                *slot = if bit == 1 { *elements.next().expect("an element for each one") } else { 0 };
            }
        } else {
            let mut rows = from.chunks_exact(inner);
            for (slot, &bit) in to.chunks_exact_mut(inner).zip(bits) {
                if bit == 1 {
                    slot.copy_from_slice(rows.next().expect("a row for each one"));
                } else {
                    slot.fill(0);
                }
            }
        }
    }
    Ok(shape)
}

fn index_of(g: i32, l: Array, r: Array, out: &mut [i32]) -> Tested<Shape> {
    test(l.lengths.len() == 1, RANK)?;
    let (shape, out) = room(r.lengths, out)?;
    let mut first = HashMap::with_capacity(l.elements.len());
    for (&element, position) in l.elements.iter().zip(g..) {
        first.entry(element).or_insert(position);
    }
    let missing = g + l.elements.len() as i32;
    for (slot, element) in out.iter_mut().zip(r.elements) {
        *slot = first.get(element).copied().unwrap_or(missing);
    }
    Ok(shape)
}

fn member(l: Array, r: Array, out: &mut [i32]) -> Tested<Shape> {
    let (shape, out) = room(l.lengths, out)?;
    let present: HashSet<&i32> = r.elements.iter().collect();
    for (slot, element) in out.iter_mut().zip(l.elements) {
        *slot = i32::from(present.contains(element));
    }
    Ok(shape)
}

fn select(g: i32, k: i64, l: Array, r: Array, out: &mut [i32]) -> Tested<Shape> {
    let positions = list(l)?;
    test(!r.lengths.is_empty(), RANK)?;
    let axis = axis(k, r.lengths.len())?;
    let n = r.lengths[axis];
    let within = |&p: &i32| (0..n as i64).contains(&(i64::from(p) - i64::from(g)));
    test(positions.iter().all(within), INDEX)?;
    let (before, after) = (&r.lengths[..axis], &r.lengths[axis + 1..]);
    let lengths = [before, l.lengths, after].concat();
    let (shape, out) = room(&lengths, out)?;
    if out.is_empty() {
        return Ok(shape);
    }
    let inner = count(after);
    let blocks = r.elements.chunks_exact(n * inner).zip(out.chunks_exact_mut(positions.len() * inner));
    for (from, to) in blocks {
        if inner == 1 {
            for (slot, &p) in to.iter_mut().zip(positions) {
                *slot = from[(p - g) as usize];
            }
        } else {
            for (slot, &p) in to.chunks_exact_mut(inner).zip(positions) {
                slot.copy_from_slice(&from[(p - g) as usize * inner..][..inner]);
            }
        }
    }
    Ok(shape)
}
