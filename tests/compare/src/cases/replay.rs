//! Families for the program `replay`. To run it costs more than a call does, so most inputs have many lines.

use super::header::{bases, c2_with, full};
use super::{put, words};
use crate::calls::Calls;
use crate::check::{Checker, Cuts, Outcome};
use crate::reference::header::encode;
use crate::reference::replay::{MOST_DIGITS, MOST_LINES};
use crate::rng::Rng;

const HEAD: &str = "frame answer payload reply\n";

const LOWER: &[u8; 16] = b"0123456789abcdef";
const UPPER: &[u8; 16] = b"0123456789ABCDEF";

/// The characters before, at and behind the ends of the digits, those that a reader might pass over or end
/// at, and those that become digits, or newlines, once a bit is lost.
const CHARACTERS: &[u8] = b"/0189:@ABEFG`abefg \t\r\x0b\x0c\0\x1a#xXhHoO+-_.,'\"\\zZ{[~\x7f\
    \x10\x11\x19\x1a\x06\x01\x80\x8a\x8d\xa0\xb0\xb9\xc1\xc6\xe1\xe6\xff\xef\xbb\xbf";

impl Rng {
    /// A frame's digits: in lower case, in upper case or in both.
    fn digits(&mut self, frame: &[u8]) -> Vec<u8> {
        let style = self.below(4);
        let nibbles = frame.iter().flat_map(|byte| [byte >> 4, byte & 15]);
        let digits = nibbles.map(|nibble| match style {
            0 => LOWER[usize::from(nibble)],
            1 => UPPER[usize::from(nibble)],
            _ => [LOWER, UPPER][self.below(2)][usize::from(nibble)],
        });
        digits.collect()
    }

    /// A frame of every sort: as its header says, damaged, cut off, with other fixed words, or noise.
    fn traced(&mut self) -> Vec<u8> {
        match self.below(10) {
            0 | 1 => {
                let header = self.valid();
                let most = [0, 4, 40, 400][self.below(4)];
                self.frame(&header, most)
            }
            2 | 3 => self.edited(),
            4 => {
                let mut frame = self.edited();
                if frame.len() >= 16 {
                    put(
                        &mut frame,
                        [1, 3][self.below(2)],
                        [self.below(6) as u32, self.word()][self.below(2)],
                    );
                }
                frame
            }
            5 => {
                let (version, procedure) = ([1, 1, 2, self.word()][self.below(4)], self.below(6) as u32);
                let behind = self.below(5);
                let mut list = vec![self.word(), version, self.word(), procedure];
                list.extend((0..behind).map(|_| self.below(4) as u32));
                words(&list)
            }
            6 => {
                let mut frame = c2_with(4 + self.below(3), self.below(4) as u32);
                frame.truncate(self.below(frame.len() + 1));
                frame
            }
            7 => {
                let length = self.below(40);
                self.noise(length)
            }
            8 => vec![],
            _ => [c2_with(0, self.word()), vec![0xa5; self.below(30)]].concat(),
        }
    }

    /// A line that is bad, mostly for one reason.
    fn bad(&mut self) -> Vec<u8> {
        let frame = self.traced();
        let mut line = self.digits(&frame);
        let at = self.below(line.len() + 1);
        match self.below(5) {
            0 => line.insert(at, b'0'),
            1 => drop(line.pop()),
            2 | 3 => line.insert(at, CHARACTERS[self.below(CHARACTERS.len())]),
            _ => {
                let character = [CHARACTERS[self.below(CHARACTERS.len())], self.draw() as u8][self.below(2)];
                line.splice(at..line.len().min(at + 1), [character]);
            }
        }
        line
    }

    /// Good and bad lines, some of them alike in a row.
    fn trace(&mut self, count: usize) -> Vec<u8> {
        let bads = [0, 3, 10][self.below(3)];
        let mut trace = Vec::new();
        let mut left = count;
        while left > 0 {
            let frame = self.traced();
            let line = if self.below(20) < bads { self.bad() } else { self.digits(&frame) };
            for _ in 0..[1, 1, 1, 1, 1 + self.below(4)][self.below(5)].min(left) {
                trace.extend_from_slice(&line);
                trace.push(b'\n');
                left -= 1;
            }
        }
        trace
    }
}

/// Each line with its newline.
fn joined<L: AsRef<[u8]>>(lines: &[L]) -> Vec<u8> {
    lines.iter().flat_map(|line| [line.as_ref(), b"\n"].concat()).collect()
}

fn hex(frame: &[u8]) -> Vec<u8> {
    frame.iter().flat_map(|byte| [LOWER[usize::from(byte >> 4)], LOWER[usize::from(byte & 15)]]).collect()
}

/// With the last newline, and without it.
fn both<C: Calls>(check: &mut Checker<C>, input: &[u8], cuts: Cuts) -> Outcome {
    check.replay(input, cuts)?;
    check.replay(input.strip_suffix(b"\n").unwrap_or(input), cuts)
}

/// A frame of that many bytes: C2's and a payload.
fn long_frame(length: usize) -> Vec<u8> {
    let mut frame = c2_with(0, 0x2a);
    frame.extend((0..length - frame.len()).map(|at| at as u8));
    frame
}

/// Frames and what the report says of each, by hand.
fn by_hand() -> Vec<(Vec<u8>, &'static str)> {
    let c2 = c2_with(0, 0x2a);
    let reads = |count: usize| {
        let entry = words(&[1, 4, 7, 8, 0, 9]);
        [words(&[0x2a, 1, 0x20, 0]), entry.repeat(count), words(&[0, 0, 0])].concat()
    };
    vec![
        (c2.clone(), "0 0 none"),         // C2
        (c2_with(1, 2), "2 0 vers"),      // C3
        (vec![], "1 0 none"),             // C1
        (c2[..27].to_vec(), "5 0 chunk"), // C4
        (c2_with(4, 2), "6 0 chunk"),     // C5
        (vec![0], "1 0 none"),
        (c2[..15].to_vec(), "1 0 none"),
        (c2_with(1, 2)[..15].to_vec(), "1 0 none"),
        (c2[..16].to_vec(), "5 0 chunk"),
        (c2_with(1, 2)[..16].to_vec(), "2 0 vers"),
        (c2_with(1, 0), "2 0 vers"),
        (c2_with(1, 0x0100_0000), "2 0 vers"),
        (words(&[0x2a, 2, 0x20, 4, 1, 1, 1]), "2 0 none"), // the reply to C3
        (words(&[0x2a, 2, 0x20, 4]), "2 0 none"),
        (words(&[0x2a, 2, 0x20, 3]), "2 0 vers"),
        (words(&[0x2a, 2, 0x20, 5]), "2 0 vers"),
        (c2_with(3, 2), "3 0 chunk"),
        (c2_with(3, 5), "3 0 chunk"),
        (c2_with(3, 0x0400_0000), "3 0 chunk"),
        (c2_with(3, u32::MAX), "3 0 chunk"),
        (c2_with(3, 3), "4 0 none"),
        (c2_with(3, 3)[..16].to_vec(), "4 0 none"),
        (c2_with(3, 4), "10 0 none"),
        (words(&[0x2a, 1, 0x20, 4, 3]), "10 0 none"),
        (words(&[0x2a, 1, 0x20, 4]), "5 0 none"),
        (words(&[0x2a, 1, 0x20, 4, 1, 1]), "5 0 none"),
        (words(&[0x2a, 1, 0x20, 4, 1, 1, 1]), "0 0 none"),
        (words(&[0x2a, 1, 0x20, 4, 2]), "0 0 none"),
        (words(&[0x2a, 1, 0x20, 4, 2, 0]), "11 0 none"),
        (words(&[0x2a, 1, 0x20, 4, 1, 1, 1, 0]), "11 0 none"),
        (words(&[0x2a, 1, 0x20, 1, 0, 0, 0]), "0 0 none"),
        ([words(&[0x2a, 1, 0x20, 1, 0, 0, 0]), vec![0]].concat(), "11 0 chunk"),
        (reads(16), "0 0 none"),
        (reads(17), "7 0 chunk"),
        (words(&[0x2a, 1, 0x20, 0, 1, 2, 7, 8, 0, 9, 0, 0, 0]), "9 0 chunk"),
        // Positions that fall are no fault: order 3.
        (words(&[0x2a, 1, 0x20, 0, 1, 8, 7, 8, 0, 9, 1, 4, 7, 8, 0, 9, 0, 0, 0]), "0 0 none"),
        // A MSG with a segment at position 0 and a NOMSG without one: no start, but they are read.
        (words(&[0x2a, 1, 0x20, 0, 1, 0, 7, 8, 0, 9, 0, 0, 0]), "0 0 none"),
        ([c2.clone(), vec![0xff]].concat(), "0 1 none"),
        ([c2.clone(), vec![0; 3]].concat(), "0 3 none"),
        ([c2.clone(), vec![0; 300]].concat(), "0 300 none"),
        ([encode(&full()), vec![1; 5]].concat(), "0 5 none"),
        (long_frame(4096), "0 4068 none"),
        (long_frame(4095), "0 4067 none"),
    ]
}

/// Lines that are bad, by hand.
fn bad_by_hand() -> Vec<Vec<u8>> {
    let c2 = hex(&c2_with(0, 0x2a));
    let around = |before: &[u8], behind: &[u8]| [before, &c2, behind].concat();
    let mut lines: Vec<Vec<u8>> = [
        &b"0"[..],
        b"000",
        b"g0",
        b"0g",
        b"0G",
        b"/0",
        b"0:",
        b"@0",
        b"`0",
        b" ",
        b"\r",
        b"\0",
        b"00\r",
        b"0 0",
        b"0x00",
    ]
    .iter()
    .map(|line| line.to_vec())
    .collect();
    lines.extend([around(b"", b"\r"), around(b" ", b" "), around(b"0x", b""), around(b"", b"0")]);
    lines.extend([8_193, 8_194, 1_000_000].map(|digits| vec![b'0'; digits]));
    lines.extend([hex(&long_frame(4097)), vec![b'g'; 8_192], [&hex(&long_frame(4096))[..], b"g"].concat()]);
    lines
}

pub fn worked<C: Calls>(check: &mut Checker<C>) -> Outcome {
    check.family("replay worked examples");
    let example = joined(&[hex(&c2_with(0, 0x2a)), hex(&c2_with(1, 2))]);
    let sums = "accepted 1 refused 1 bad 0 payload 0\n";
    let want = format!("{HEAD}1 0 0 none\n2 2 0 vers\n{sums}");
    let ways = [Cuts::Whole, Cuts::File, Cuts::Singly, Cuts::Random(3), Cuts::Random(40)];
    for input in [&example, &example.to_ascii_uppercase(), &example[..example.len() - 1].to_vec()] {
        ways.iter().try_for_each(|&cuts| check.worked_replay(input, cuts, &want))?;
    }
    (0..=example.len()).try_for_each(|at| check.worked_replay(&example, Cuts::At(at), &want))?;
    let zeros = "accepted 0 refused 0 bad 0 payload 0\n";
    for cuts in ways {
        check.worked_replay(b"", cuts, &format!("{HEAD}{zeros}"))?;
        let one = format!("{HEAD}1 1 0 none\naccepted 0 refused 1 bad 0 payload 0\n");
        check.worked_replay(b"\n", cuts, &one)?;
        check.worked_replay(b"00", cuts, &one)?;
        let two = format!("{HEAD}1 1 0 none\n2 1 0 none\naccepted 0 refused 2 bad 0 payload 0\n");
        check.worked_replay(b"\n\n", cuts, &two)?;
        check.worked_replay(b"\n00", cuts, &two)?;
        let bad = format!("{HEAD}1 bad\naccepted 0 refused 0 bad 1 payload 0\n");
        ["0", "0\n", "\r", "\r\n", "g", " \n", "\0"]
            .iter()
            .try_for_each(|input| check.worked_replay(input.as_bytes(), cuts, &bad))?;
    }
    check.family("replay by hand");
    let (mut trace, mut report, mut accepted, mut payload) = (vec![], HEAD.to_string(), 0, 0);
    for (frame, told) in by_hand() {
        let fields: Vec<u64> = told.split(' ').flat_map(str::parse).collect();
        let (taken, sum) = (u64::from(fields[0] == 0), fields[1]);
        let sums = format!("accepted {taken} refused {} bad 0 payload {sum}\n", 1 - taken);
        for line in [hex(&frame), hex(&frame).to_ascii_uppercase()] {
            check.worked_replay(&joined(&[line]), Cuts::Whole, &format!("{HEAD}1 {told}\n{sums}"))?;
        }
        trace.extend(joined(&[hex(&frame)]));
        report += &format!("{} {told}\n", by_hand_lines(&trace));
        (accepted, payload) = (accepted + taken, payload + sum);
    }
    let refused = by_hand().len() as u64 - accepted;
    for line in bad_by_hand() {
        let bad = format!("{HEAD}1 bad\naccepted 0 refused 0 bad 1 payload 0\n");
        both_worked(check, &joined(&[&line]), &bad)?;
        trace.extend(joined(&[&line]));
        report += &format!("{} bad\n", by_hand_lines(&trace));
    }
    let bad = bad_by_hand().len();
    report += &format!("accepted {accepted} refused {refused} bad {bad} payload {payload}\n");
    both_worked(check, &trace, &report)
}

/// The lines of an input of which each has its newline.
fn by_hand_lines(trace: &[u8]) -> usize {
    trace.iter().filter(|&&byte| byte == b'\n').count()
}

fn both_worked<C: Calls>(check: &mut Checker<C>, input: &[u8], want: &str) -> Outcome {
    check.worked_replay(input, Cuts::Whole, want)?;
    check.worked_replay(&input[..input.len() - 1], Cuts::Random(1000), want)
}

/// A digit where its value shows: the count of a reply chunk with 16 segments' bytes behind it, the payload
/// being what is left of these; and where it shows whether it is 0: in the version and a marker.
fn with_character(character: u8) -> Vec<Vec<u8>> {
    let counted = [words(&[0x2a, 1, 0x20, 0, 0, 0, 1, 0]), vec![0; 256]].concat();
    let mut lines = Vec::new();
    // The count's last two digits, two of the version, one of a marker, the first and the last of all.
    for at in [62, 63, 14, 15, 10, 47, 0, 2 * counted.len() - 1] {
        let mut line = hex(&counted);
        line[at] = character;
        lines.push(line);
    }
    lines
}

pub fn characters<C: Calls>(check: &mut Checker<C>) -> Outcome {
    check.family("replay characters");
    let all = || 0..=255u8;
    let single: Vec<[u8; 1]> = all().map(|one| [one]).collect();
    both(check, &joined(&single), Cuts::Whole)?;
    let beside: Vec<[u8; 2]> = all().flat_map(|one| [[one, b'0'], [b'0', one], [one, one]]).collect();
    both(check, &joined(&beside), Cuts::Random(100))?;
    let pairs: Vec<[u8; 2]> =
        CHARACTERS.iter().flat_map(|&one| CHARACTERS.iter().map(move |&two| [one, two])).collect();
    both(check, &joined(&pairs), Cuts::Whole)?;
    let valued: Vec<Vec<u8>> = all().flat_map(with_character).collect();
    both(check, &joined(&valued), Cuts::Random(10_000))?;
    // Put in, so that the number of characters is odd; and two of them.
    let mut lines = Vec::new();
    for &character in CHARACTERS {
        for frame in [c2_with(0, 0x2a), c2_with(1, 2), long_frame(4095)] {
            let line = hex(&frame);
            for at in [0, 1, 2, line.len() / 2, line.len() - 1, line.len()] {
                for count in 1..=2 {
                    let mut line = line.clone();
                    line.splice(at..at, vec![character; count]);
                    lines.push(line);
                }
                let mut line = line.clone();
                line.splice(at..(at + 1).min(line.len()), [character]);
                lines.push(line);
            }
        }
        // As all of a line, as all but one digit.
        lines.extend((0..4).map(|count| vec![character; count]));
        lines.extend([vec![b'0', character, b'0'], vec![character, b'0', character]]);
    }
    lines.chunks(200).try_for_each(|lines| both(check, &joined(lines), Cuts::Random(100_000)))?;
    check.family("replay line ends");
    let c2 = String::from_utf8(hex(&c2_with(0, 0x2a))).expect("text");
    for end in [
        "\r\n",
        "\n\r",
        "\r",
        "\n\n",
        "\r\r\n",
        "\0\n",
        "\0",
        " \n",
        "\x0b\n",
        "\x0c",
        "\u{85}",
        "\u{2028}\n",
    ] {
        for front in ["", "\n", "\u{feff}", "\r\n", " ", "0x", "#"] {
            let input = format!("{front}{c2}{end}{c2}{end}{end}{c2}{end}00{end}0{end}");
            check.replay(input.as_bytes(), Cuts::Whole)?;
            check.replay(input.as_bytes(), Cuts::Random(30))?;
        }
    }
    for input in [
        &b"\n\n\n\n"[..],
        b"\n\n0",
        b"\n\n00\n\n\n00",
        b"0\n\n\n0\n",
        b"\n0\n\n00\n\n\n000\n\n\n\n",
        b"00\n\n",
    ] {
        for cuts in [Cuts::Whole, Cuts::Singly, Cuts::Random(2), Cuts::File] {
            both(check, input, cuts)?;
        }
    }
    Ok(())
}

/// Of a good line, so many digits: zeros behind where there are not enough.
fn with_digits(digits: usize) -> Vec<u8> {
    let mut line = hex(&long_frame(4096));
    line.resize(digits, b'0');
    line
}

pub fn lengths<C: Calls>(check: &mut Checker<C>) -> Outcome {
    check.family("replay lengths");
    let short: Vec<Vec<u8>> = (0..=70).flat_map(|n| [vec![b'0'; n], vec![b'f'; n], with_digits(n)]).collect();
    both(check, &joined(&short), Cuts::Whole)?;
    // Each before and behind a good line, an empty one and a bad one: nothing of it is left.
    let others = [hex(&c2_with(0, 0x2a)), vec![], b"g".to_vec(), b"0".to_vec(), hex(&c2_with(1, 2)[..16])];
    let mixed = |line: &[u8]| -> Vec<Vec<u8>> {
        others.iter().flat_map(|other| [other.clone(), line.to_vec(), other.clone()]).collect()
    };
    let all: Vec<Vec<u8>> = short.iter().flat_map(|line| mixed(line)).collect();
    check.replay(&joined(&all), Cuts::Random(1000))?;
    let around = [4_096, 8_192, 16_384, 32_768, 65_536];
    for digits in around.into_iter().flat_map(|n| n - 2..=n + 4).chain([65_592, 131_072, 131_128, 73_728]) {
        for line in [vec![b'0'; digits], with_digits(digits), vec![b'F'; digits]] {
            check.replay(&joined(&mixed(&line)), Cuts::Random(100_000))?;
            check.replay(&line, Cuts::Whole)?;
        }
        // The last character alone is another one.
        let mut line = with_digits(digits);
        line[digits - 1] = b'\r';
        both(check, &joined(&mixed(&line)), Cuts::Whole)?;
    }
    check.family("replay very long lines");
    for length in [1_000_000, 1_000_001, 1_048_632] {
        for character in [b'0', b'g', b'\r', 0xff] {
            let mut line = vec![character; length];
            both(check, &joined(&[&b"00"[..], &line, b"00", b"", &line, b"g"]), Cuts::Random(100_000))?;
            check.replay(&line, Cuts::Whole)?;
            line[..MOST_DIGITS].copy_from_slice(&with_digits(MOST_DIGITS));
            check.replay(&line, Cuts::Whole)?;
        }
    }
    Ok(())
}

/// Frames from the families of headers.
pub fn headers<C: Calls>(check: &mut Checker<C>, rng: &mut Rng) -> Outcome {
    check.family("replay cut off");
    let frames: Vec<Vec<u8>> = bases(rng).iter().map(|header| rng.frame(header, 9)).collect();
    for frame in &frames {
        let step = 1 + frame.len() / 100;
        let lengths = (0..=30).chain((30..frame.len()).step_by(step)).chain([frame.len() - 1, frame.len()]);
        let lines: Vec<Vec<u8>> =
            lengths.map(|length| rng.digits(&frame[..length.min(frame.len())])).collect();
        both(check, &joined(&lines), Cuts::Random(3000))?;
    }
    check.family("replay damaged words");
    for frame in &frames {
        let mut lines = Vec::new();
        for word in (0..frame.len() / 4).filter(|word| *word < 16 || word % 5 == 0) {
            for value in [0, 1, 2, 3, 4, 5, 16, 17, u32::MAX, 0x0100_0000] {
                let mut frame = frame.clone();
                put(&mut frame, word, value);
                lines.push(rng.digits(&frame));
            }
        }
        check.replay(&joined(&lines), Cuts::Random(100_000))?;
    }
    check.family("replay fixed words");
    let mut lines = Vec::new();
    for version in [0, 1, 2, 3, 0x0100_0000, 0x8000_0001, u32::MAX] {
        for procedure in (0..=8).chain([0x104, 0x0100_0000, 0x0400_0000, 0x8000_0004, u32::MAX]) {
            for credit in [0, 1, 32, 33, u32::MAX] {
                for behind in
                    [&[][..], &[0], &[1], &[2], &[3], &[1, 1, 1], &[0, 0, 0], &[2, 0], &[0, 0, 0, 0]]
                {
                    let frame = [words(&[0x2a, version, credit, procedure]), words(behind)].concat();
                    lines.push(rng.digits(&frame));
                }
            }
            lines.push(rng.digits(&words(&[0x2a, version, 0x20, procedure])[..15]));
        }
    }
    lines.chunks(700).try_for_each(|lines| both(check, &joined(lines), Cuts::Random(100_000)))?;
    check.family("replay bytes behind");
    for header in bases(rng) {
        let frame = encode(&header);
        let lengths = [0, 1, 2, 3, 4, 5, 27, 28, 255, 256, 257, 1024];
        let filled = lengths.iter().map(|&length| [&frame[..], &vec![0x5a; length]].concat());
        // As long as a line may be, and one byte longer.
        let full = [4095, 4096, 4097].map(|length| [&frame[..], &vec![1; length - frame.len()]].concat());
        let lines: Vec<Vec<u8>> = filled.chain(full).map(|frame| rng.digits(&frame)).collect();
        both(check, &joined(&lines), Cuts::Random(100_000))?;
    }
    Ok(())
}

/// Sums that pass 8, 16 and 24 bits.
pub fn sums<C: Calls>(check: &mut Checker<C>) -> Outcome {
    check.family("replay sums");
    let line = |payload: usize| hex(&long_frame(28 + payload));
    for (payload, count) in [(1, 255), (1, 256), (1, 257), (255, 257), (4068, 16), (4068, 17), (2048, 32)] {
        both(check, &joined(&vec![line(payload); count]), Cuts::Random(100_000))?;
    }
    both(check, &joined(&[vec![line(2048); 31], vec![line(2047), line(1), line(1)]].concat()), Cuts::Whole)?;
    // Refused, bad and empty ones between, and those without a payload, count no byte.
    let others = [
        hex(&[c2_with(1, 2), vec![7; 100]].concat()),
        [line(100), b"0".to_vec()].concat(),
        vec![],
        line(0),
        hex(&words(&[0x2a, 1, 0x20, 4, 2])),
        hex(&words(&[0x2a, 1, 0x20, 4, 2, 0])),
    ];
    both(check, &joined(&[&others[..], &[line(3)], &others, &[line(5)], &others].concat()), Cuts::Whole)?;
    check.replay(&joined(&vec![line(4068); 4125]), Cuts::Random(100_000))
}

/// Numbers of lines around those of which one digit more is written, or 8 or 16 bits are passed.
pub fn counts<C: Calls>(check: &mut Checker<C>) -> Outcome {
    check.family("replay numbers of lines");
    let (good, none) = (hex(&c2_with(0, 0x2a)), vec![]);
    let kinds = [&good, &none, &b"0".to_vec()];
    let near = [10, 100, 256, 1000].into_iter().flat_map(|n| n - 2..=n + 2);
    for count in (0..=12).chain(near) {
        for kind in kinds {
            check.replay(&joined(&vec![kind; count]), Cuts::Random(10_000))?;
        }
        let mixed: Vec<&Vec<u8>> = (0..count).map(|at| kinds[at % 3]).collect();
        both(check, &joined(&mixed), Cuts::Whole)?;
    }
    for count in [10_000, 65_536, 100_000].into_iter().flat_map(|n| [n - 1, n, n + 1]) {
        let kind = count % 3;
        check.replay(&joined(&vec![kinds[kind]; count]), Cuts::Random(100_000))?;
    }
    for kind in kinds {
        check.replay(&joined(&vec![kind; 65_540]), Cuts::Whole)?;
    }
    Ok(())
}

fn empties(count: usize, behind: &[u8]) -> Vec<u8> {
    [&vec![b'\n'; count][..], behind].concat()
}

/// A million lines of all sorts, so that none counts for less than a line.
fn mixed(behind: &[u8]) -> Vec<u8> {
    let (good, refused) = (hex(&c2_with(0, 0x2a)), hex(&c2_with(1, 2)[..16]));
    let kinds = [&b""[..], b"0", &refused, b"g", b"00", &good, b"\r", b""];
    [&joined(&kinds).repeat(MOST_LINES / 8)[..], behind].concat()
}

/// How an input is made, and how it comes.
type Made = (fn() -> Vec<u8>, Cuts);

/// Inputs of a million lines, of fewer and of more.
const MILLIONS: [Made; 13] = [
    (|| empties(MOST_LINES - 1, b""), Cuts::Whole),
    (|| empties(MOST_LINES, b""), Cuts::Random(100_000)),
    // The millionth without newline.
    (|| empties(MOST_LINES - 1, b"00"), Cuts::Whole),
    (|| empties(MOST_LINES - 1, b"g"), Cuts::Random(100_000)),
    // Another that is begun: by a digit, by its newline, by another character; whole; and many more.
    (|| empties(MOST_LINES, b"0"), Cuts::Held(100_000)),
    (|| empties(MOST_LINES, b"\n"), Cuts::Held(100_000)),
    (|| empties(MOST_LINES, b"\r"), Cuts::Held(100_000)),
    (|| empties(MOST_LINES, b"00\n"), Cuts::Random(100_000)),
    (|| empties(3 * MOST_LINES, b""), Cuts::Whole),
    (|| empties(1_048_586, b""), Cuts::File),
    (|| mixed(b""), Cuts::Random(100_000)),
    (|| mixed(b"0"), Cuts::Held(100_000)),
    (|| mixed(&[b'f'; 3_000_000]), Cuts::Whole),
];

pub fn million<C: Calls>(check: &mut Checker<C>, at: usize) -> Outcome {
    let (input, cuts) = MILLIONS[at];
    check.replay(&input(), cuts)
}

fn millions<C: Calls>(check: &mut Checker<C>) -> Outcome {
    check.family("replay a million lines");
    (0..MILLIONS.len()).try_for_each(|at| million(check, at))
}

/// What blocks are cut at: every place of a short input, and many of a long one.
pub fn cuts<C: Calls>(check: &mut Checker<C>, rng: &mut Rng) -> Outcome {
    check.family("replay cuts");
    let short =
        joined(&[&b"0"[..], b"", b"0G", &hex(&c2_with(0, 0x2a)), b"\r", &hex(&c2_with(1, 2)), b"000"]);
    for input in [&short[..], &short[..short.len() - 1], &short[..short.len() - 2]] {
        check.replay(input, Cuts::Singly)?;
        check.replay(input, Cuts::File)?;
        for most in [1, 2, 3, 7, 50] {
            check.replay(input, Cuts::Random(most))?;
        }
    }
    (0..=short.len()).try_for_each(|at| check.replay(&short, Cuts::At(at)))?;
    let long = joined(&[&with_digits(8_192)[..], &with_digits(8_194), b"", &with_digits(8_191), b"", b"00"]);
    let near = [1, 4_095, 4_096, 4_097, 8_191, 8_192, 8_193, 8_194, 16_383, 16_386, 16_387, 16_388];
    near.iter().try_for_each(|&at| check.replay(&long, Cuts::At(at)))?;
    // Newlines, digits and bad characters at each end of blocks as programs read them.
    for block in [512, 1024, 4096, 8192, 16_384, 32_768, 65_536] {
        for line in [&b"00"[..], b"0", b"", b"g"] {
            let mut input = vec![b'\n'; block - line.len() / 2];
            input.extend_from_slice(line);
            input.extend_from_slice(&joined(&[&b""[..], b"0", b"", b"00"]));
            check.replay(&input, Cuts::Whole)?;
            check.replay(&input, Cuts::At(block))?;
            check.replay(&input[..block], Cuts::Whole)?;
        }
    }
    for _ in 0..40 {
        let count = 1 + rng.below(4);
        let input = rng.trace(count);
        let cuts = if input.len() <= 400 { Cuts::Singly } else { Cuts::Random(20) };
        both(check, &input, cuts)?;
    }
    Ok(())
}

pub fn random<C: Calls>(check: &mut Checker<C>, rng: &mut Rng, cases: u64) -> Outcome {
    check.family("replay random");
    for _ in 0..cases / 400 {
        let count = 1 + [rng.below(10), rng.below(400), rng.below(400)][rng.below(3)];
        let cuts = match rng.below(8) {
            0 => Cuts::Whole,
            1 => Cuts::File,
            2 => Cuts::Random(100),
            3 | 4 => Cuts::Random(5_000),
            _ => Cuts::Random(100_000),
        };
        both(check, &rng.trace(count), cuts)?;
    }
    Ok(())
}

/// All but the million.
pub fn lines<C: Calls>(check: &mut Checker<C>, rng: &mut Rng, cases: u64) -> Outcome {
    worked(check)?;
    characters(check)?;
    lengths(check)?;
    headers(check, rng)?;
    sums(check)?;
    counts(check)?;
    cuts(check, rng)?;
    random(check, rng, cases)
}

pub fn run<C: Calls>(check: &mut Checker<C>, rng: &mut Rng, cases: u64) -> Outcome {
    lines(check, rng, cases)?;
    millions(check)
}
