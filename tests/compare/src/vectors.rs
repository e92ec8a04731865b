//! The outside encodings: one JSON object a line, of a fixed and simple form.

use crate::calls::Calls;
use crate::check::{hex, Checker, Outcome};
use crate::convert::flatten;
use crate::reference::header::{encode, read, Fault, Header, Kind, ReadSegment, Reply, Segment};
use crate::rng::Rng;
use std::collections::BTreeMap;

/// What stands between the outer brackets, parted at the commas of that depth.
fn items(text: &str) -> Vec<&str> {
    let mut depth = 0;
    let comma = |c: char| {
        depth += i32::from(c == '[') - i32::from(c == ']');
        c == ',' && depth == 0
    };
    let inner = &text[1..text.len() - 1];
    inner.split(comma).map(str::trim).filter(|item| !item.is_empty()).collect()
}

fn number<N: TryFrom<u64>>(text: &str) -> Option<N> {
    N::try_from(text.parse().ok()?).ok()
}

fn segment(fields: &[&str]) -> Option<Segment> {
    let [handle, length, offset] = fields else { return None };
    Some(Segment { handle: number(handle)?, length: number(length)?, offset: number(offset)? })
}

fn segments(text: &str) -> Option<Vec<Segment>> {
    items(text).into_iter().map(|item| segment(&items(item))).collect()
}

fn read_segment(text: &str) -> Option<ReadSegment> {
    let fields = items(text);
    Some(ReadSegment { position: number(fields.first()?)?, target: segment(&fields[1..])? })
}

fn vector(line: &str) -> Option<(Vec<u8>, Header)> {
    let fields: BTreeMap<&str, &str> =
        items(line).into_iter().map(|item| item.split_once(':')).collect::<Option<_>>()?;
    let field = |name: &str| fields.get(name).copied();
    let digits = field("\"frame\"")?.trim_matches('"');
    let byte = |i| u8::from_str_radix(digits.get(i..i + 2)?, 16).ok();
    let frame = (0..digits.len()).step_by(2).map(byte).collect::<Option<_>>()?;
    let (xid, credit) = (number(field("\"xid\"")?)?, number(field("\"credit\"")?)?);
    let kind = match (field("\"procedure\"")?, field("\"error\"")) {
        ("0", None) => Kind::Msg,
        ("1", None) => Kind::Nomsg,
        // The file does not list low and high; its one such frame was made with 1 and 1.
        ("4", Some("\"vers\"")) => Kind::Error(Fault::Version { low: 1, high: 1 }),
        ("4", Some("\"chunk\"")) => Kind::Error(Fault::Chunk),
        _ => return None,
    };
    let mut header = Header { xid, credit, kind, ..Header::default() };
    if !matches!(kind, Kind::Error(_)) {
        header.reads = items(field("\"reads\"")?).into_iter().map(read_segment).collect::<Option<_>>()?;
        header.writes = items(field("\"writes\"")?).into_iter().map(segments).collect::<Option<_>>()?;
        header.reply = match field("\"reply\"")? {
            "null" => Reply::default(),
            list => Reply { present: true, segments: segments(list)? },
        };
    }
    Some((frame, header))
}

/// EOS_VECTORS, else the copy in this package.
pub fn usual_file() -> String {
    let beside = concat!(env!("CARGO_MANIFEST_DIR"), "/data/headers.jsonl");
    std::env::var("EOS_VECTORS").unwrap_or(beside.to_string())
}

/// Frames with the fields that were handed to the outside encoder.
pub fn load(file: &str) -> Result<Vec<(Vec<u8>, Header)>, String> {
    let text = std::fs::read_to_string(file).map_err(|e| format!("vectors {file}: {e}"))?;
    text.lines().map(|line| vector(line.trim()).ok_or(format!("vectors {file}: {line}"))).collect()
}

/// The same with the read list in another order: of the frame, its entries of 24 bytes.
fn reordered(rng: &mut Rng, (frame, header): &(Vec<u8>, Header)) -> (Vec<u8>, Header) {
    let (before, rest) = frame.split_at(16.min(frame.len()));
    let (entries, behind) = rest.split_at(24 * header.reads.len());
    let mut pairs: Vec<(&[u8], ReadSegment)> = entries.chunks(24).zip(header.reads.iter().copied()).collect();
    rng.reorder(&mut pairs);
    let (entries, reads): (Vec<&[u8]>, Vec<ReadSegment>) = pairs.into_iter().unzip();
    let frame = [before, &entries.concat(), behind].concat();
    (frame, Header { reads, ..header.clone() })
}

/// The reference first against the fields, then the implementation against the reference; once as they
/// are, then in other orders.
pub fn run<C: Calls>(check: &mut Checker<C>, vectors: &[(Vec<u8>, Header)]) -> Outcome {
    let rng = &mut Rng(7);
    let orders: Vec<_> = (0..4).flat_map(|_| vectors).map(|vector| reordered(rng, vector)).collect();
    let vectors = &[vectors, &orders].concat();
    check.family("read vectors");
    for (frame, header) in vectors {
        match read(frame) {
            Ok((read, payload)) if read == *header && payload.is_empty() => check.read(frame)?,
            other => return Err(format!("reference: {other:?}, want {header:?}\nframe: {}", hex(frame))),
        }
    }
    check.family("write vectors");
    for (frame, header) in vectors {
        if encode(header) != *frame {
            return Err(format!("reference writes another frame than {}", hex(frame)));
        }
        for room in [0, frame.len() - 1, frame.len(), frame.len() + 1, 2048] {
            check.write(&flatten(header), room)?;
        }
    }
    Ok(())
}

#[cfg(test)]
mod tests {
    use super::*;
    use crate::plain::Plain;

    #[test]
    fn vectors_agree() {
        let vectors = load(&usual_file()).expect("vectors; EOS_VECTORS may name the file");
        assert_eq!(vectors.len(), 242);
        run(&mut Checker::new(Plain, 1), &vectors).unwrap();
    }
}
