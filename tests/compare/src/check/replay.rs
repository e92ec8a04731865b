//! The check of the program `replay`: its report, byte for byte.

use super::seen::{Call, Form};
use super::{Checker, Outcome};
use crate::calls::{Calls, Way};
use crate::reference::replay::{digit, lines, report, MOST_DIGITS, MOST_LINES};

/// How an input is cut into blocks, and how it comes.
#[derive(Clone, Copy, Debug, PartialEq)]
pub enum Cuts {
    /// One block.
    Whole,
    /// Two blocks, cut at this place.
    At(usize),
    /// Blocks of this many bytes at most.
    Random(usize),
    /// The same, held open behind the last.
    Held(usize),
    /// Each byte by itself.
    Singly,
    File,
}

fn way(cuts: Cuts) -> Way {
    match cuts {
        Cuts::Whole | Cuts::At(_) | Cuts::Random(_) => Way::Closed,
        Cuts::Held(_) => Way::Held,
        Cuts::Singly => Way::Singly,
        Cuts::File => Way::File,
    }
}

/// Bytes as text, but not all of a long line.
fn shown(bytes: &[u8]) -> String {
    match bytes.len() {
        0..=400 => format!("'{}'", bytes.escape_ascii()),
        long => format!("'{}'... ({long} bytes)", bytes[..200].escape_ascii()),
    }
}

fn same_report(input: &[u8], got: &[u8], want: &[u8]) -> Outcome {
    if got == want {
        return Ok(());
    }
    let [mut gots, mut wants] = [got, want].map(|report| report.split_inclusive(|&byte| byte == b'\n'));
    let mut at = 0usize;
    let (got, want) = loop {
        match (gots.next(), wants.next()) {
            (one, two) if one != two => break (one, two),
            _ => at += 1,
        }
    };
    let [got, want] = [got, want].map(|line| line.map_or("none".to_string(), shown));
    // The first line of a report is its head.
    let lines = lines(input);
    let line = at.checked_sub(1).and_then(|line| lines.get(line));
    let line = line.map_or("none".to_string(), |line| shown(line));
    Err(format!("report's line {}: got {got}, want {want}\ninput's line: {line}", at + 1))
}

impl<C: Calls> Checker<C> {
    pub fn replay(&mut self, input: &[u8], cuts: Cuts) -> Outcome {
        self.replay_beside(input, cuts, &report(input))
    }

    /// The report is the caller's and not the reference's.
    pub fn worked_replay(&mut self, input: &[u8], cuts: Cuts, want: &str) -> Outcome {
        let told = same_report(input, &report(input), want.as_bytes());
        told.map_err(|what| format!("reference: {what}\ninput: {}", shown(input)))?;
        self.replay_beside(input, cuts, want.as_bytes())
    }

    fn replay_beside(&mut self, input: &[u8], cuts: Cuts, want: &[u8]) -> Outcome {
        self.count();
        let blocks = self.blocks(input, cuts);
        self.calls.replay(&blocks, way(cuts)).and_then(|got| same_report(input, &got, want)).map_err(
            |what| {
                let (bytes, lines, count) = (input.len(), lines(input).len(), blocks.len());
                let sizes = format!("{bytes} bytes, {lines} lines; {cuts:?}, {count} blocks");
                format!("{what}\ninput ({sizes}): {}", shown(input))
            },
        )?;
        self.see_report(input, cuts, want);
        Ok(())
    }

    fn blocks<'a>(&mut self, input: &'a [u8], cuts: Cuts) -> Vec<&'a [u8]> {
        let (mut blocks, mut rest) = (Vec::new(), input);
        while !rest.is_empty() {
            let most = match cuts {
                Cuts::At(at) if blocks.is_empty() => at,
                Cuts::Random(most) | Cuts::Held(most) => 1 + self.noise.below(most),
                Cuts::Singly => 1,
                _ => rest.len(),
            };
            let (block, behind) = rest.split_at(most.min(rest.len()));
            blocks.push(block);
            rest = behind;
        }
        blocks
    }

    /// What the lines of a right report stand for.
    fn see_report(&mut self, input: &[u8], cuts: Cuts, report: &[u8]) {
        let lines = lines(input);
        let text = std::str::from_utf8(report).expect("a report is text");
        for (line, told) in lines.iter().take(MOST_LINES).zip(text.lines().skip(1)) {
            let mut fields = told.split(' ').skip(1);
            match (fields.next(), fields.next(), fields.next()) {
                (Some(answer), Some(payload), Some(reply)) => {
                    self.see_frame(line, answer.parse().expect("a number"), payload, reply)
                }
                _ => self.see_bad(line),
            }
        }
        let unended = input.last().is_some_and(|&byte| byte != b'\n');
        let long = lines.len() > MOST_LINES;
        let last_bad = text.lines().nth(lines.len()).is_some_and(|line| line.ends_with(" bad"));
        let sum = text.lines().last().and_then(|line| line.split(' ').nth(7));
        let sum = sum.map_or(0, |sum| sum.parse::<u64>().expect("a number"));
        self.seen.forms(&[
            (Form::LastWithoutNewline, unended && !long),
            (Form::LastBadWithoutNewline, unended && !long && last_bad),
            (Form::NoLine, lines.is_empty()),
            (Form::SumAbove16Bits, sum > 0xffff),
            (Form::SumAbove24Bits, sum > 0xff_ffff),
            (Form::MillionLines, lines.len() == MOST_LINES && !unended),
            (Form::MillionLinesWithoutNewline, lines.len() == MOST_LINES && unended),
            (Form::TooLong, long),
            (Form::TooLongAtNewline, long && lines[MOST_LINES].is_empty()),
            (Form::TooLongHeldOpen, long && way(cuts) == Way::Held),
            (Form::FedSingly, cuts == Cuts::Singly),
            (Form::FedFromFile, cuts == Cuts::File),
        ]);
    }

    fn see_frame(&mut self, line: &[u8], answer: u32, payload: &str, reply: &str) {
        self.seen.number(Call::Replay, answer);
        let accepted = answer == 0;
        let [upper, lower] = [u8::is_ascii_uppercase, u8::is_ascii_lowercase].map(|is| line.iter().any(is));
        self.seen.forms(&[
            (Form::LineNone, reply == "none"),
            (Form::LineVers, reply == "vers"),
            (Form::LineChunk, reply == "chunk"),
            (Form::LineNoneFor2, answer == 2 && reply == "none"),
            (Form::LineNoneFor5, answer == 5 && reply == "none"),
            (Form::LineAccepted, accepted),
            (Form::LineRefused, !accepted),
            (Form::LineWithPayload, payload != "0"),
            (Form::LineOfUpperCase, accepted && upper && !lower),
            (Form::LineOfLowerCase, accepted && lower && !upper),
            (Form::LineOf8192, accepted && line.len() == MOST_DIGITS),
            (Form::LineEmpty, line.is_empty()),
        ]);
    }

    /// By which of the three reasons, where it is one alone.
    fn see_bad(&mut self, line: &[u8]) {
        let digits = line.iter().filter(|&&character| digit(character).is_some()).count();
        let reasons = (digits % 2 == 1, digits != line.len(), digits > MOST_DIGITS);
        self.seen.forms(&[
            (Form::LineOdd, reasons == (true, false, false)),
            (Form::LineOther, reasons == (false, true, false)),
            (Form::LineLong, reasons == (false, false, true)),
        ]);
    }
}

#[cfg(test)]
mod tests {
    use super::*;
    use crate::plain::Plain;

    /// The forms that an input shows, and no other.
    #[test]
    fn forms_of_lines() {
        let told = |input: &[u8], cuts: Cuts, forms: &[&str]| {
            let mut check = Checker::new(Plain, 1);
            check.family("one check alone");
            check.replay(input, cuts).unwrap();
            let lines = check.seen.lines().into_iter();
            let seen: Vec<String> =
                lines.filter(|line| !line.contains(" numbers") && line.ends_with(": 1")).collect();
            assert_eq!(seen, forms.iter().map(|form| format!("{form}: 1")).collect::<Vec<_>>());
        };
        told(b"", Cuts::Whole, &["input without a line"]);
        told(b"\n", Cuts::Whole, &["line with none", "line refused", "line that is empty"]);
        told(b"0\n", Cuts::Whole, &["line bad by an odd number of digits alone"]);
        told(b"0g0\n", Cuts::Whole, &["line bad by another character alone"]);
        told(b"0g\n", Cuts::File, &["input from a file"]);
        told(
            &[&[b'0'; 8194][..], b"\n"].concat(),
            Cuts::Whole,
            &["line bad by more than 8,192 digits alone"],
        );
        told(&[&[b'0'; 8193][..], b"\n"].concat(), Cuts::Whole, &[]);
        told(
            b"zz",
            Cuts::Singly,
            &[
                "line bad by another character alone",
                "last line without newline",
                "last line without newline bad",
                "input byte by byte",
            ],
        );
        let c2 = b"0000002a00000001000000200000000000000000000000000000000012";
        told(
            c2,
            Cuts::At(5),
            &[
                "line with none",
                "line accepted",
                "line with a payload",
                "line of lower case accepted",
                "last line without newline",
            ],
        );
    }

    /// The first line that differs is told with the line it stands for.
    #[test]
    fn differences_are_told() {
        let told = |got: &[u8], want: &[u8]| same_report(b"00\n01\n", got, want).unwrap_err();
        assert_eq!(
            told(b"a\nb\nc\n", b"a\nb\nd\n"),
            "report's line 3: got 'c\\n', want 'd\\n'\ninput's line: '01'"
        );
        assert_eq!(told(b"a\nb", b"a\nb\n"), "report's line 2: got 'b', want 'b\\n'\ninput's line: '00'");
        assert_eq!(told(b"a\n", b""), "report's line 1: got 'a\\n', want none\ninput's line: none");
        assert_eq!(same_report(b"", b"a\n", b"a\n"), Ok(()));
    }

    #[test]
    fn blocks_make_up_the_input() {
        let mut check = Checker::new(Plain, 1);
        let input = b"0123456789\nabcdef";
        for (cuts, count) in
            [(Cuts::Whole, 1..2), (Cuts::At(5), 2..3), (Cuts::Singly, 17..18), (Cuts::Random(4), 5..18)]
        {
            let blocks = check.blocks(input, cuts);
            assert_eq!(blocks.concat(), input);
            assert!(
                count.contains(&blocks.len()) && blocks.iter().all(|block| !block.is_empty()),
                "{cuts:?}"
            );
        }
        assert_eq!(check.blocks(b"", Cuts::Random(4)), Vec::<&[u8]>::new());
    }
}
