//! The report of the program `replay`: document 02, order 8, sentence by sentence.

use super::header;
use super::reply::error_reply;
use std::fmt::Write;

/// "inputs have at most 1,000,000 lines"
pub const MOST_LINES: usize = 1_000_000;

/// "above 8,192 digits is `bad`"
pub const MOST_DIGITS: usize = 8_192;

/// "reads each frame as 01's reader does with limit 32": the limit of the error reply; a reading has none.
const LIMIT: u32 = 32;

/// "Bytes behind the last newline are a line if there are any."
pub fn lines(input: &[u8]) -> Vec<&[u8]> {
    let mut lines: Vec<&[u8]> = input.split(|&byte| byte == b'\n').collect();
    if lines.last().is_some_and(|behind| behind.is_empty()) {
        lines.pop();
    }
    lines
}

/// "lines of hexadecimal, one frame a line, either case"
pub fn digit(character: u8) -> Option<u8> {
    match character {
        b'0'..=b'9' => Some(character - b'0'),
        b'a'..=b'f' => Some(character - b'a' + 10),
        b'A'..=b'F' => Some(character - b'A' + 10),
        _ => None,
    }
}

/// "A line with an odd number of digits, another character, or above 8,192 digits is `bad`. An empty line is an
/// empty frame."
pub fn frame(line: &[u8]) -> Option<Vec<u8>> {
    let digits: Vec<u8> = line.iter().map(|&character| digit(character)).collect::<Option<_>>()?;
    if digits.len() % 2 == 1 || digits.len() > MOST_DIGITS {
        return None;
    }
    Some(digits.chunks(2).map(|pair| 16 * pair[0] + pair[1]).collect())
}

/// `none`, `vers`; "A chunk reply shows as `chunk`".
fn reply(frame: &[u8], number: u32) -> &'static str {
    match error_reply(frame, number, LIMIT, &mut [0; 28]) {
        Ok(0) => "none",
        Ok(20) => "chunk",
        Ok(28) => "vers",
        other => unreachable!("a reply of {other:?}"),
    }
}

/// "with one newline after each line: `frame answer payload reply`, ..."
pub fn report(input: &[u8]) -> Vec<u8> {
    let mut report = String::from("frame answer payload reply\n");
    let (mut accepted, mut refused, mut bad, mut sum) = (0u64, 0u64, 0u64, 0u64);
    let lines = lines(input);
    for (line, number) in lines.iter().take(MOST_LINES).zip(1..) {
        // "a bad line as its frame number and `bad`"
        let Some(frame) = frame(line) else {
            bad += 1;
            writeln!(report, "{number} bad").expect("room");
            continue;
        };
        let (answer, payload) = match header::read(&frame) {
            Ok((_, payload)) => (0, payload.len()),
            Err(answer) => (answer, 0),
        };
        // "The last line's sums count all frames, a bad line only as bad, and accepted payload bytes"
        if answer == 0 {
            accepted += 1;
            sum += payload as u64;
        } else {
            refused += 1;
        }
        writeln!(report, "{number} {answer} {payload} {}", reply(&frame, answer)).expect("room");
    }
    // "the program stops with `too long` in place of the sums when another begins"
    if lines.len() > MOST_LINES {
        report += "too long\n";
    } else {
        writeln!(report, "accepted {accepted} refused {refused} bad {bad} payload {sum}").expect("room");
    }
    report.into_bytes()
}

#[cfg(test)]
mod tests {
    use super::*;

    fn told(input: &str) -> String {
        String::from_utf8(report(input.as_bytes())).expect("text")
    }

    const HEAD: &str = "frame answer payload reply\n";

    /// C2's and C3's frames.
    #[test]
    fn the_orders_example() {
        let frames = "0000002a000000010000002000000000000000000000000000000000\n\
                      0000002a000000020000002000000000000000000000000000000000\n";
        let want = "frame answer payload reply\n1 0 0 none\n2 2 0 vers\n\
                    accepted 1 refused 1 bad 0 payload 0\n";
        assert_eq!(told(frames), want);
        assert_eq!(told(&frames.to_uppercase()), want);
        assert_eq!(told(frames.trim_end()), want);
    }

    #[test]
    fn lines_are_told_apart() {
        assert_eq!(lines(b""), Vec::<&[u8]>::new());
        assert_eq!(lines(b"\n"), [b""]);
        assert_eq!(lines(b"\n\n"), [b"", b""]);
        assert_eq!(lines(b"00"), [b"00"]);
        assert_eq!(lines(b"00\n"), [b"00"]);
        assert_eq!(lines(b"00\n\r"), [&b"00"[..], b"\r"]);
        assert_eq!(told(""), format!("{HEAD}accepted 0 refused 0 bad 0 payload 0\n"));
        assert_eq!(told("\n"), format!("{HEAD}1 1 0 none\naccepted 0 refused 1 bad 0 payload 0\n"));
        assert_eq!(told("0\n\r"), format!("{HEAD}1 bad\n2 bad\naccepted 0 refused 0 bad 2 payload 0\n"));
    }

    #[test]
    fn digits_are_told_apart() {
        for character in 0..=255u8 {
            let want = b"0123456789abcdef".iter().position(|&c| c == character.to_ascii_lowercase());
            assert_eq!(digit(character).map(usize::from), want, "{character}");
        }
        assert_eq!(frame(b"0aF9"), Some(vec![0x0a, 0xf9]));
        assert_eq!((frame(b""), frame(b"0"), frame(b"0g")), (Some(vec![]), None, None));
        for (digits, fine) in [(8_190, true), (8_191, false), (8_192, true), (8_193, false), (8_194, false)] {
            assert_eq!(frame(&vec![b'0'; digits]), fine.then(|| vec![0; digits / 2]), "{digits}");
        }
    }

    #[test]
    fn a_million_and_one() {
        let million = "\n".repeat(MOST_LINES);
        let told = |behind: &str| told(&format!("{million}{behind}"));
        let sums = "accepted 0 refused 1000000 bad 0 payload 0\n";
        assert!(told("").ends_with(&format!("1000000 1 0 none\n{sums}")));
        for behind in ["0", "\n", "g", "00\n", "\n\n\n"] {
            assert!(told(behind).ends_with("\n999999 1 0 none\n1000000 1 0 none\ntoo long\n"));
        }
    }
}
