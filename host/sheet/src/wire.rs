//! What goes over a channel between a client and a node: document 01's frames, cut by their lengths, and before the first of them a line each
//! way, the greeting, by which both know that they have one plan. The greeting is the transport's and no frame: its first four bytes, taken for
//! a length, are longer than any frame.

use crate::plan_text;
use pasis::Plan;

/// The least length that a request or a reply names: version, kind, node and ask number, with no body.
pub const LEAST: usize = 11;

/// The longest line of a greeting, its end included.
pub const LINE: usize = 80;

/// How every greeting begins.
pub const WORD: &str = "pasis 1 ";

/// What the front of a stream is.
#[derive(Clone, Copy, Debug, PartialEq, Eq)]
pub enum Front {
    /// A frame of so many bytes, its length's four included.
    Frame(usize),
    /// The beginning of a frame.
    Beginning,
    /// A length that no good frame has.
    NoFrame(usize),
}

/// Looks at the front of a stream; the longest frame names R+11 bytes.
pub fn front(plan: &Plan, stream: &[u8]) -> Front {
    let Some(length) = stream.first_chunk() else { return Front::Beginning };
    let length = u32::from_be_bytes(*length) as usize;
    if length < LEAST || length > plan.frame_size() - 4 {
        return Front::NoFrame(length);
    }
    if stream.len() < 4 + length {
        return Front::Beginning;
    }
    Front::Frame(4 + length)
}

/// A plan's fingerprint: its bytes but for W, which is the reader's alone, in hexadecimal digits.
pub fn fingerprint(plan: &Plan) -> String {
    plan.bytes()[..9].iter().map(|byte| format!("{byte:02x}")).collect()
}

/// A client's greeting.
pub fn asked(plan: &Plan) -> String {
    format!("{WORD}{}\n", fingerprint(plan))
}

/// A node's greeting, which also says which node it is and how many bytes its book has: only the node can know what room it has. A node of another
/// plan sends its own all the same, and closes the channel.
pub fn answered(plan: &Plan, node: u8, room: usize) -> String {
    format!("{WORD}{} node {node} room {room}\n", fingerprint(plan))
}

/// What the other side's greeting says.
#[derive(Clone, Copy, Debug, PartialEq, Eq)]
pub struct Greeting<'a> {
    pub print: &'a str,
    /// Of a node, its number.
    pub node: Option<u8>,
    /// Of a node that tells it, the bytes of its book.
    pub room: Option<usize>,
}

pub fn read(line: &str) -> Option<Greeting<'_>> {
    let number = |word: &str| word.bytes().all(|byte| byte.is_ascii_digit()).then(|| word.parse().ok()).flatten();
    let words: Vec<&str> = line.strip_prefix(WORD)?.strip_suffix('\n')?.split(' ').collect();
    let (print, node, room): (_, _, Option<usize>) = match words[..] {
        [print] => (print, None, None),
        [print, "node", node] => (print, Some(number(node)?), None),
        [print, "node", node, "room", room] => (print, Some(number(node)?), Some(number(room)?)),
        _ => return None,
    };
    let node = node.map(u8::try_from).transpose().ok()?;
    (print.len() == 18 && print.bytes().all(|byte| byte.is_ascii_hexdigit())).then_some(Greeting { print, node, room })
}

/// How another plan differs from ours, value by value, for people; nothing where it is ours.
pub fn differs(ours: &Plan, theirs: &str) -> Option<String> {
    let byte = |place: usize| u16::from_str_radix(theirs.get(2 * place..2 * place + 2).unwrap_or_default(), 16).ok();
    let mut values: Vec<Option<u16>> = (0..9).map(byte).collect();
    let low = values.remove(6);
    values[5] = values[5].zip(low).map(|(high, low)| 256 * high + low);
    let mine = plan_text::values(ours);
    let word = |name: &str, value: u16| match (name, value) {
        ("member", 0) => "repairable".to_string(),
        ("member", 1) => "non-repair".to_string(),
        ("clients", 0) => "crash".to_string(),
        ("clients", 1) => "byzantine".to_string(),
        (_, value) => value.to_string(),
    };
    let told: Vec<String> = (mine.iter().zip(values))
        .filter_map(|((name, here), there)| there.map(|there| (name, here, word(name, there))))
        .filter(|(_, here, there)| *here != there)
        .map(|(name, here, there)| format!("{name} is {here} here and {there} there"))
        .collect();
    (!theirs.eq_ignore_ascii_case(&fingerprint(ours))).then(|| told.join(", "))
}
