//! The primitives of 01, one function each, in the paper's order and words.
//!
//! "Several at once: the smallest number wins": each function asks for its
//! refusals in the order of their numbers; 28 alone asks DOMAIN before LENGTH.

use crate::array::{count, is_good_shape, places, Array};

/// "Who can cause which refusal". FORM (2) is not among them: operands read
/// from a sheet line have a good shape and exactly their count of elements.
#[derive(Clone, Copy, Debug, PartialEq)]
pub enum Refusal {
    Number = 1,
    Origin = 3,
    Rank = 4,
    Axis = 5,
    Length = 6,
    Domain = 7,
    Index = 8,
    Limit = 9,
    Space = 10,
}

use Refusal::{Axis, Domain, Index, Length, Limit, Number, Origin, Rank, Space};

type Outcome = Result<Array, Refusal>;

/// "A call has a primitive number, an origin G, an axis number K [...], a left
/// operand L and a right operand R."
pub struct Call {
    pub number: i32,
    pub origin: i32,
    pub axis: i32,
    pub left: Array,
    pub right: Array,
}

/// The answer to a call whose output buffer holds `room` elements.
pub fn call(call: &Call, room: i64) -> Outcome {
    if !matches!(call.number, 11..=15 | 21..=31) {
        return Err(Number);
    }
    if call.origin != 0 && call.origin != 1 {
        return Err(Origin);
    }
    let g = i64::from(call.origin);
    // "k means K − G, the axis counted from zero": in 64 bits nothing wraps.
    let k = i64::from(call.axis) - g;
    let (l, r) = (&call.left, &call.right);
    let result = match call.number {
        11 => shape(r),
        12 => ravel(r),
        13 => interval(g, r)?,
        14 => reverse(k, r)?,
        15 => transpose(r),
        21 => reshape(l, r)?,
        22 => catenate(k, l, r)?,
        23 => take(l, r)?,
        24 => drop(l, r)?,
        25 => rotate(k, l, r)?,
        26 => transpose_by(g, l, r)?,
        27 => compress(k, l, r)?,
        28 => expand(k, l, r)?,
        29 => index_of(g, l, r)?,
        30 => member(l, r),
        31 => select(g, k, l, r)?,
        _ => unreachable!("refused above"),
    };
    result.build(room)
}

/// What a primitive gives if it refuses nothing itself: the result's lengths, and
/// for each place of the result the element that stands there.
struct Wanted<'a> {
    lengths: Vec<i64>,
    element: Box<dyn Fn(&[i64]) -> i32 + 'a>,
}

fn wanted<'a>(lengths: Vec<i64>, element: impl Fn(&[i64]) -> i32 + 'a) -> Wanted<'a> {
    Wanted { lengths, element: Box::new(element) }
}

impl Wanted<'_> {
    /// The two refusals that look at the result, and then its elements.
    fn build(self, room: i64) -> Outcome {
        // "LIMIT: the result would break the shape rule."
        if !is_good_shape(&self.lengths) {
            return Err(Limit);
        }
        // "SPACE: the result's count exceeds the output buffer."
        if count(&self.lengths) > i128::from(room) {
            return Err(Space);
        }
        let elements = places(&self.lengths).iter().map(|place| (self.element)(place)).collect();
        Ok(Array { lengths: self.lengths, elements })
    }
}

// What several primitives ask.

fn refuse_if(refused: bool, refusal: Refusal) -> Result<(), Refusal> {
    if refused {
        Err(refusal)
    } else {
        Ok(())
    }
}

/// "List means rank 0 or 1, else RANK."
fn check_list(array: &Array) -> Result<(), Refusal> {
    refuse_if(!array.is_list(), Rank)
}

/// "AXIS: k is below 0 or not below the rank."
fn check_axis(k: i64, rank: usize) -> Result<usize, Refusal> {
    refuse_if(k < 0 || k >= rank as i64, Axis)?;
    Ok(k as usize)
}

/// "L is a list of 0 and 1, else DOMAIN."
fn check_zeros_and_ones(list: &Array) -> Result<(), Refusal> {
    refuse_if(list.elements.iter().any(|&element| element != 0 && element != 1), Domain)
}

/// "A scalar R under an axis-taking primitive is read as a vector of one."
fn scalar_as_vector(array: &Array) -> Array {
    if array.is_scalar() {
        Array { lengths: vec![1], elements: array.elements.clone() }
    } else {
        array.clone()
    }
}

/// The list with the item at one axis replaced.
fn with(list: &[i64], axis: usize, item: i64) -> Vec<i64> {
    let mut changed = list.to_vec();
    changed[axis] = item;
    changed
}

/// The list without the item at one axis.
fn without(list: &[i64], axis: usize) -> Vec<i64> {
    let mut shorter = list.to_vec();
    shorter.remove(axis);
    shorter
}

// The primitives of one operand.

/// 11: "the vector of R's lengths."
fn shape(r: &Array) -> Wanted<'_> {
    wanted(vec![r.rank() as i64], |place| r.lengths[place[0] as usize] as i32)
}

/// 12: "R's elements as a vector."
fn ravel(r: &Array) -> Wanted<'_> {
    wanted(vec![r.count()], |place| r.elements[place[0] as usize])
}

/// 13: "R is a list (else RANK) of one element (else LENGTH); N below 0 is
/// DOMAIN, above 16,384 LIMIT; result G to G + N − 1."
fn interval(g: i64, r: &Array) -> Result<Wanted<'_>, Refusal> {
    check_list(r)?;
    refuse_if(r.count() != 1, Length)?;
    let n = i64::from(r.elements[0]);
    refuse_if(n < 0, Domain)?;
    Ok(wanted(vec![n], move |place| (g + place[0]) as i32))
}

/// 14: "position i on axis k takes n − 1 − i, n its length. A scalar returns as
/// a scalar."
fn reverse(k: i64, r: &Array) -> Result<Wanted<'_>, Refusal> {
    let vector = scalar_as_vector(r);
    let axis = check_axis(k, vector.rank())?;
    if r.is_scalar() {
        return Ok(wanted(vec![], |_| r.elements[0]));
    }
    let n = r.lengths[axis];
    Ok(wanted(r.lengths.clone(), move |place| r.at(&with(place, axis, n - 1 - place[axis]))))
}

/// 15: "axes in reverse order."
fn transpose(r: &Array) -> Wanted<'_> {
    let lengths = r.lengths.iter().rev().copied().collect();
    wanted(lengths, |place| {
        let place_in_r: Vec<i64> = place.iter().rev().copied().collect();
        r.at(&place_in_r)
    })
}

// The primitives of two operands.

/// 21: "L is a list of lengths; below 0 is DOMAIN; more than 8 of them is LIMIT.
/// Element i is R's element i mod count(R); from an empty R into a result with
/// elements, zeros."
fn reshape<'a>(l: &Array, r: &'a Array) -> Result<Wanted<'a>, Refusal> {
    check_list(l)?;
    refuse_if(l.elements.iter().any(|&length| length < 0), Domain)?;
    let lengths: Vec<i64> = l.elements.iter().map(|&length| i64::from(length)).collect();
    let result_lengths = lengths.clone();
    Ok(wanted(lengths, move |place| {
        if r.count() == 0 {
            return 0;
        }
        // The number i of this place, counted row by row.
        let mut i = 0;
        for axis in 0..place.len() {
            i = i * result_lengths[axis] + place[axis];
        }
        r.elements[(i % r.count()) as usize]
    }))
}

/// 22: "catenate, L before R."
fn catenate<'a>(k: i64, l: &'a Array, r: &'a Array) -> Result<Wanted<'a>, Refusal> {
    // "K is read against the higher rank, two scalars as vectors of one."
    let (l, r) = if l.is_scalar() && r.is_scalar() {
        (scalar_as_vector(l), scalar_as_vector(r))
    } else {
        (l.clone(), r.clone())
    };
    let higher_rank = l.rank().max(r.rank());
    let lower_rank = l.rank().min(r.rank());
    // "Equal ranks [...] Ranks one apart [...] A scalar beside any rank [...]
    // Other ranks are RANK."
    refuse_if(higher_rank - lower_rank > 1 && lower_rank != 0, Rank)?;
    let axis = check_axis(k, higher_rank)?;

    // The lengths on all axes but k, as the operand of higher rank has them.
    let higher = if l.rank() == higher_rank { &l } else { &r };
    let other_lengths = without(&higher.lengths, axis);
    // "Equal ranks: all lengths but axis k agree. Ranks one apart: the lower
    // operand has the higher one's lengths without axis k. A scalar beside any
    // rank is repeated. [...] Other lengths LENGTH."
    let fits = |operand: &Array| {
        if operand.rank() == higher_rank {
            without(&operand.lengths, axis) == other_lengths
        } else {
            operand.is_scalar() || operand.lengths == other_lengths
        }
    };
    refuse_if(!fits(&l) || !fits(&r), Length)?;

    // "[The lower operand] counts as length 1 there. A scalar [...] to length 1
    // along k."
    let length_along_k = |operand: &Array| {
        if operand.rank() == higher_rank {
            operand.lengths[axis]
        } else {
            1
        }
    };
    let left_length = length_along_k(&l);
    let lengths = with(&higher.lengths, axis, left_length + length_along_k(&r));

    let element_of = move |operand: &Array, place: &[i64]| {
        if operand.is_scalar() {
            operand.elements[0]
        } else if operand.rank() == higher_rank {
            operand.at(place)
        } else {
            operand.at(&without(place, axis))
        }
    };
    Ok(wanted(lengths, move |place| {
        if place[axis] < left_length {
            element_of(&l, place)
        } else {
            element_of(&r, &with(place, axis, place[axis] - left_length))
        }
    }))
}

/// 23 and 24: "L is a list with one number for each axis of R, else LENGTH; a
/// scalar R is first read as an array of that many lengths of 1 (above 8 is
/// LIMIT)." The numbers, and R as it is read.
fn one_number_for_each_axis(l: &Array, r: &Array) -> Result<(Vec<i64>, Array), Refusal> {
    check_list(l)?;
    let numbers: Vec<i64> = l.elements.iter().map(|&number| i64::from(number)).collect();
    if r.is_scalar() {
        let ones = Array { lengths: vec![1; numbers.len()], elements: r.elements.clone() };
        refuse_if(!is_good_shape(&ones.lengths), Limit)?;
        return Ok((numbers, ones));
    }
    refuse_if(numbers.len() != r.rank(), Length)?;
    Ok((numbers, r.clone()))
}

/// 23: "The result length is the size of the number without its sign. Positive
/// takes from the front, negative from the end; positions outside R hold 0,
/// after the end for positive, before the start for negative."
fn take<'a>(l: &Array, r: &Array) -> Result<Wanted<'a>, Refusal> {
    let (numbers, r) = one_number_for_each_axis(l, r)?;
    let lengths = numbers.iter().map(|number| number.abs()).collect();
    Ok(wanted(lengths, move |place| {
        let mut place_in_r = Vec::new();
        for axis in 0..r.rank() {
            let (number, length) = (numbers[axis], r.lengths[axis]);
            let position = if number >= 0 {
                place[axis]
            } else {
                // The last position of the result is the last of R.
                length - number.abs() + place[axis]
            };
            if position < 0 || position >= length {
                return 0;
            }
            place_in_r.push(position);
        }
        r.at(&place_in_r)
    }))
}

/// 24: "The result length is the larger of 0 and the length less the number's
/// size. Positive drops from the front, negative from the end."
fn drop<'a>(l: &Array, r: &Array) -> Result<Wanted<'a>, Refusal> {
    let (numbers, r) = one_number_for_each_axis(l, r)?;
    let mut lengths = Vec::new();
    for axis in 0..r.rank() {
        lengths.push((r.lengths[axis] - numbers[axis].abs()).max(0));
    }
    Ok(wanted(lengths, move |place| {
        let mut place_in_r = Vec::new();
        for axis in 0..r.rank() {
            let dropped_from_the_front = numbers[axis].max(0);
            place_in_r.push(dropped_from_the_front + place[axis]);
        }
        r.at(&place_in_r)
    }))
}

/// 25: "L is a list of one amount a, else LENGTH. Position i takes (i + a) mod n,
/// never negative; length 0 is unchanged; a scalar returns as a scalar."
fn rotate<'a>(k: i64, l: &Array, r: &'a Array) -> Result<Wanted<'a>, Refusal> {
    check_list(l)?;
    let vector = scalar_as_vector(r);
    let axis = check_axis(k, vector.rank())?;
    refuse_if(l.count() != 1, Length)?;
    let a = i64::from(l.elements[0]);
    if r.is_scalar() {
        return Ok(wanted(vec![], |_| r.elements[0]));
    }
    let n = r.lengths[axis];
    Ok(wanted(r.lengths.clone(), move |place| {
        let remainder = (place[axis] + a) % n;
        let position = if remainder < 0 { remainder + n } else { remainder };
        r.at(&with(place, axis, position))
    }))
}

/// 26: "L is a list with one element for each axis of R, else LENGTH. Less G,
/// each is 0 to rank − 1, and all of 0 to the largest occur, else DOMAIN. R's
/// axis i goes to result axis t, L's element i less G; axes sent together give
/// the diagonal, of the smallest of their lengths."
fn transpose_by<'a>(g: i64, l: &Array, r: &'a Array) -> Result<Wanted<'a>, Refusal> {
    check_list(l)?;
    refuse_if(l.count() != r.rank() as i64, Length)?;
    let targets: Vec<i64> = l.elements.iter().map(|&element| i64::from(element) - g).collect();
    refuse_if(targets.iter().any(|&t| t < 0 || t >= r.rank() as i64), Domain)?;
    // As many result axes as the largest target asks for; none for a scalar.
    let result_rank = targets.iter().map(|&t| t + 1).max().unwrap_or(0);
    refuse_if((0..result_rank).any(|t| !targets.contains(&t)), Domain)?;

    let mut lengths = Vec::new();
    for t in 0..result_rank {
        let sent_to_t = (0..r.rank()).filter(|&i| targets[i] == t);
        lengths.push(sent_to_t.map(|i| r.lengths[i]).min().expect("t occurs"));
    }
    Ok(wanted(lengths, move |place| {
        let place_in_r: Vec<i64> = targets.iter().map(|&t| place[t as usize]).collect();
        r.at(&place_in_r)
    }))
}

/// 27: "L is a list of 0 and 1, else DOMAIN. One element in L serves the whole
/// axis; an axis of length 1 is repeated to L's count; otherwise count and
/// length agree, else LENGTH. Positions at 1 remain. A scalar R gives a vector."
fn compress<'a>(k: i64, l: &Array, r: &Array) -> Result<Wanted<'a>, Refusal> {
    check_list(l)?;
    let r = scalar_as_vector(r);
    let axis = check_axis(k, r.rank())?;
    let n = r.lengths[axis];
    refuse_if(l.count() != 1 && n != 1 && l.count() != n, Length)?;
    check_zeros_and_ones(l)?;

    // Both made equally long: the mask, and for each of its positions the one on
    // R's axis.
    let mask = if l.count() == 1 { vec![l.elements[0]; n as usize] } else { l.elements.clone() };
    let axis_positions: Vec<i64> = if n == 1 { vec![0; mask.len()] } else { (0..n).collect() };
    let mut remaining = Vec::new();
    for i in 0..mask.len() {
        if mask[i] == 1 {
            remaining.push(axis_positions[i]);
        }
    }
    let lengths = with(&r.lengths, axis, remaining.len() as i64);
    Ok(wanted(lengths, move |place| r.at(&with(place, axis, remaining[place[axis] as usize]))))
}

/// 28: "L is a list of 0 and 1, else DOMAIN; one element is one place and is not
/// repeated. The axis positions go in order to the ones, zeros to the rest. The
/// ones number the axis length, else LENGTH; only a scalar R is repeated."
fn expand<'a>(k: i64, l: &Array, r: &Array) -> Result<Wanted<'a>, Refusal> {
    check_list(l)?;
    let is_repeated = r.is_scalar();
    let r = scalar_as_vector(r);
    let axis = check_axis(k, r.rank())?;
    // "In 28 DOMAIN precedes LENGTH."
    check_zeros_and_ones(l)?;
    let mask = l.elements.clone();
    let ones_before =
        |end: usize| mask[..end].iter().filter(|&&element| element == 1).count() as i64;
    refuse_if(!is_repeated && ones_before(mask.len()) != r.lengths[axis], Length)?;

    // For each position of the result the one on R's axis, if there is one.
    let mut sources = Vec::new();
    for i in 0..mask.len() {
        sources.push(match mask[i] {
            0 => None,
            _ if is_repeated => Some(0),
            _ => Some(ones_before(i)),
        });
    }
    let lengths = with(&r.lengths, axis, mask.len() as i64);
    Ok(wanted(lengths, move |place| match sources[place[axis] as usize] {
        None => 0,
        Some(position) => r.at(&with(place, axis, position)),
    }))
}

/// 29: "L has rank 1, else RANK. Each element of R gives G plus the first
/// position holding it in L, or G plus L's count exactly if no position does.
/// R's shape."
fn index_of<'a>(g: i64, l: &'a Array, r: &'a Array) -> Result<Wanted<'a>, Refusal> {
    refuse_if(l.rank() != 1, Rank)?;
    Ok(wanted(r.lengths.clone(), move |place| {
        let looked_for = r.at(place);
        let mut position = 0;
        while position < l.count() && l.elements[position as usize] != looked_for {
            position += 1;
        }
        (g + position) as i32
    }))
}

/// 30: "L's shape; 1 exactly where L's element occurs in R, else 0."
fn member<'a>(l: &'a Array, r: &'a Array) -> Wanted<'a> {
    wanted(l.lengths.clone(), |place| if r.elements.contains(&l.at(place)) { 1 } else { 0 })
}

/// 31: "R has an axis, else RANK; L is a list of positions, each less G within
/// axis k, else INDEX. A vector L replaces the axis, a scalar L removes it."
fn select<'a>(g: i64, k: i64, l: &'a Array, r: &'a Array) -> Result<Wanted<'a>, Refusal> {
    check_list(l)?;
    refuse_if(r.is_scalar(), Rank)?;
    let axis = check_axis(k, r.rank())?;
    let positions: Vec<i64> = l.elements.iter().map(|&element| i64::from(element) - g).collect();
    refuse_if(positions.iter().any(|&p| p < 0 || p >= r.lengths[axis]), Index)?;

    if l.is_scalar() {
        return Ok(wanted(without(&r.lengths, axis), move |place| {
            let mut place_in_r = place.to_vec();
            place_in_r.insert(axis, positions[0]);
            r.at(&place_in_r)
        }));
    }
    let lengths = with(&r.lengths, axis, l.count());
    Ok(wanted(lengths, move |place| r.at(&with(place, axis, positions[place[axis] as usize]))))
}

/// The exercises of 01, in its order. "Where not named, G and K are 1."
#[cfg(test)]
mod exercises {
    use super::*;

    fn array(lengths: &[i64], elements: &[i32]) -> Array {
        Array { lengths: lengths.to_vec(), elements: elements.to_vec() }
    }

    fn scalar(element: i32) -> Array {
        array(&[], &[element])
    }

    fn vector(elements: &[i32]) -> Array {
        array(&[elements.len() as i64], elements)
    }

    fn run(number: i32, origin: i32, axis: i32, left: Array, right: Array, room: i64) -> Outcome {
        call(&Call { number, origin, axis, left, right }, room)
    }

    fn run_at_1(number: i32, left: Array, right: Array) -> Outcome {
        run(number, 1, 1, left, right, 1_024)
    }

    #[test]
    fn rotate_and_reverse() {
        assert_eq!(run_at_1(25, scalar(-1), vector(&[1, 2, 3, 4])), Ok(vector(&[4, 1, 2, 3])));
        assert_eq!(run_at_1(25, scalar(i32::MIN), vector(&[1, 2, 3])), Ok(vector(&[2, 3, 1])));
        assert_eq!(run_at_1(14, scalar(0), vector(&[1, 2, 3, 4])), Ok(vector(&[4, 3, 2, 1])));
        assert_eq!(run(14, 1, i32::MIN, scalar(0), vector(&[1, 2]), 1_024), Err(Axis));
    }

    #[test]
    fn take_and_drop() {
        assert_eq!(run_at_1(23, scalar(-3), vector(&[5, 6])), Ok(vector(&[0, 5, 6])));
        assert_eq!(run_at_1(24, scalar(-1), vector(&[5, 6, 7])), Ok(vector(&[5, 6])));
        assert_eq!(run_at_1(24, scalar(9), vector(&[5, 6, 7])), Ok(vector(&[])));
    }

    #[test]
    fn transposes() {
        let two_by_three = array(&[2, 3], &[1, 2, 3, 4, 5, 6]);
        assert_eq!(
            run_at_1(15, scalar(0), two_by_three.clone()),
            Ok(array(&[3, 2], &[1, 4, 2, 5, 3, 6]))
        );
        assert_eq!(
            run(26, 0, 1, vector(&[0, 0]), two_by_three.clone(), 1_024),
            Ok(vector(&[1, 5]))
        );
        assert_eq!(run(26, 0, 1, vector(&[1, 1]), two_by_three, 1_024), Err(Domain));
        // "Where candidates and programs stumble": "the opposite permutation".
        let two_by_three_by_four = array(&[2, 3, 4], &(0..24).collect::<Vec<i32>>());
        let turned = run(26, 0, 1, vector(&[1, 2, 0]), two_by_three_by_four, 1_024).unwrap();
        assert_eq!(turned.lengths, [4, 2, 3]);
    }

    #[test]
    fn compress_and_expand() {
        assert_eq!(run_at_1(27, vector(&[1, 1, 0, 1, 0]), scalar(5)), Ok(vector(&[5, 5, 5])));
        assert_eq!(run_at_1(28, vector(&[1, 0, 1]), scalar(5)), Ok(vector(&[5, 0, 5])));
        assert_eq!(run_at_1(28, vector(&[1, 0, 1]), vector(&[5])), Err(Length));
    }

    #[test]
    fn reshape_and_index_of() {
        assert_eq!(run_at_1(21, vector(&[2, 2]), vector(&[])), Ok(array(&[2, 2], &[0, 0, 0, 0])));
        assert_eq!(run_at_1(29, vector(&[7, 8, 7]), vector(&[7, 9])), Ok(vector(&[1, 4])));
    }

    #[test]
    fn limit_and_space() {
        let all = run(13, 1, 1, scalar(0), scalar(16_384), 16_384).unwrap();
        assert_eq!(all, vector(&(1..=16_384).collect::<Vec<i32>>()));
        assert_eq!(run(13, 1, 1, scalar(0), scalar(16_385), 16_384), Err(Limit));
        assert_eq!(run(13, 1, 1, scalar(0), scalar(4), 3), Err(Space));
        assert_eq!(run(13, 1, 1, scalar(0), scalar(4), 4), Ok(vector(&[1, 2, 3, 4])));
    }

    #[test]
    fn rank_8() {
        let rank_8 = array(&[1, 1, 1, 1, 1, 1, 1, 2], &[5, 6]);
        assert_eq!(run_at_1(15, scalar(0), rank_8), Ok(array(&[2, 1, 1, 1, 1, 1, 1, 1], &[5, 6])));
    }
}
