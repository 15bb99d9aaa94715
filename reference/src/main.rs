//! The sheet program of paper 01, written from the paper alone and kept plain:
//! every element of a result is found by asking what stands at its place.
//! It is held against the proved program; speed is no matter.

mod array;
mod line;
mod primitives;

use std::io::{self, BufRead, BufWriter, Write};

fn main() {
    // A reader of the output that goes away is no reason to complain.
    let _ = answer_all(io::stdin().lock(), BufWriter::new(io::stdout().lock()));
}

/// "Output per line: line number from 1, then" the answer.
fn answer_all(mut input: impl BufRead, mut output: impl Write) -> io::Result<()> {
    let mut line_number: u64 = 0;
    let mut line = Vec::new();
    loop {
        line.clear();
        if input.read_until(b'\n', &mut line)? == 0 {
            return output.flush();
        }
        // "The last newline may be missing."
        if line.last() == Some(&b'\n') {
            line.pop();
        }
        line_number += 1;
        writeln!(output, "{} {}", line_number, line::answer(&line))?;
    }
}

#[cfg(test)]
mod tests {
    use super::answer_all;

    fn answers(input: &[u8]) -> String {
        let mut output = Vec::new();
        answer_all(input, &mut output).unwrap();
        String::from_utf8(output).unwrap()
    }

    #[test]
    fn the_example_of_the_paper() {
        let input = b"25 1 1 0 1 1 4 10 20 30 40\n\
                      26 0 0 1 2 0 0 2 2 3 1 2 3 4 5 6\n\
                      25 2 1 0 1 1 1 7\n\
                      25 1\n";
        let output = "1 ok 1 4 20 30 40 10\n2 ok 1 2 1 5\n3 no 3\n4 bad\n";
        assert_eq!(answers(input), output);
        // "The last newline may be missing."
        assert_eq!(answers(&input[..input.len() - 1]), output);
    }

    #[test]
    fn no_line_and_empty_lines() {
        assert_eq!(answers(b""), "");
        assert_eq!(answers(b"\n"), "1 bad\n");
        assert_eq!(answers(b"\n\n12 1 1 0 0 0 7"), "1 bad\n2 bad\n3 ok 1 1 7\n");
    }
}
