//! One line of a sheet: reading it, and printing its answer.
//! 01: "The sheet program".

use crate::array::{count, Array, LARGEST_RANK};
use crate::primitives::{call, Call, Refusal};

/// "A line [...] over 16,384 bytes without its newline [...] is bad."
const LONGEST_LINE: usize = 16_384;

/// "The program holds 1,024 elements for each operand and for the result."
const ROOM: i64 = 1_024;

/// "`ok`, rank, lengths, elements; or `no` and the refusal; or `bad`. Its parts
/// stand one blank apart."
pub fn answer(line: &[u8]) -> String {
    match read(line) {
        None => "bad".to_string(),
        Some(line_read) => match call(&line_read, ROOM) {
            Err(refusal) => print_refusal(refusal),
            Ok(result) => print_result(&result),
        },
    }
}

fn print_refusal(refusal: Refusal) -> String {
    format!("no {}", refusal as i32)
}

fn print_result(result: &Array) -> String {
    let mut parts = vec!["ok".to_string(), result.rank().to_string()];
    parts.extend(result.lengths.iter().map(|length| length.to_string()));
    parts.extend(result.elements.iter().map(|element| element.to_string()));
    parts.join(" ")
}

/// "Order: number, origin, axis, then L and R." Nothing if the line is bad.
fn read(line: &[u8]) -> Option<Call> {
    if line.len() > LONGEST_LINE {
        return None;
    }
    let mut numbers = read_numbers(line)?.into_iter();
    let number = numbers.next()?;
    let origin = numbers.next()?;
    let axis = numbers.next()?;
    let left = read_operand(&mut numbers)?;
    let right = read_operand(&mut numbers)?;
    if numbers.next().is_some() {
        return None;
    }
    Some(Call { number, origin, axis, left, right })
}

/// "Each as rank, lengths, elements"; bad "with a rank outside 0 to 8, or a
/// length or count outside 0 to 1,024".
fn read_operand(numbers: &mut impl Iterator<Item = i32>) -> Option<Array> {
    let rank = numbers.next()?;
    if rank < 0 || rank > LARGEST_RANK as i32 {
        return None;
    }
    let mut lengths = Vec::new();
    for _ in 0..rank {
        let length = i64::from(numbers.next()?);
        if length < 0 || length > ROOM {
            return None;
        }
        lengths.push(length);
    }
    let count = count(&lengths);
    if count > ROOM as i128 {
        return None;
    }
    let mut elements = Vec::new();
    for _ in 0..count {
        elements.push(numbers.next()?);
    }
    Some(Array { lengths, elements })
}

/// "Decimal numbers in 32 signed bits, one blank between [...] no other byte."
/// An empty line, a blank at an end or two together leave an empty word.
fn read_numbers(line: &[u8]) -> Option<Vec<i32>> {
    line.split(|&byte| byte == b' ').map(read_number).collect()
}

/// "Decimal numbers in 32 signed bits, [...] no leading zeros, no minus zero."
fn read_number(word: &[u8]) -> Option<i32> {
    let (is_negative, digits) = match word.strip_prefix(b"-") {
        Some(digits) => (true, digits),
        None => (false, word),
    };
    if digits.is_empty() || digits.len() > "2147483648".len() {
        return None;
    }
    if digits[0] == b'0' && (digits.len() > 1 || is_negative) {
        return None;
    }
    let mut size: i64 = 0;
    for &digit in digits {
        if !digit.is_ascii_digit() {
            return None;
        }
        size = 10 * size + i64::from(digit - b'0');
    }
    i32::try_from(if is_negative { -size } else { size }).ok()
}
