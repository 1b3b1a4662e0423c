//! A plan as a text: nine lines in document 01's order, each a name and a value. What follows a `#` is a comment; blank lines, and blanks
//! around a name and a value, are nothing: spaces, tabs, carriage returns. As keeper reads it (crates/plan_text/specs/Lines.antt). Whether the
//! plan is within its rules is the library's question.

use pasis::{Clients, Member, Plan};

pub const NAMES: [&str; 9] = ["N", "t", "b", "Q", "m", "F", "member", "clients", "W"];

/// The words that member and clients may have; all other values are numbers.
fn choices(name: &str) -> Option<[&'static str; 2]> {
    match name {
        "member" => Some(["repairable", "non-repair"]),
        "clients" => Some(["crash", "byzantine"]),
        _ => None,
    }
}

/// A value as a number: a word's place among its choices, else what it writes in decimal, up to the most that its bytes hold.
fn value(name: &str, word: &[u8]) -> Result<u16, String> {
    if let Some(words) = choices(name) {
        let place = words.iter().position(|choice| choice.as_bytes() == word);
        return place.map(|place| place as u16).ok_or(format!("{name} is {} or {}", words[0], words[1]));
    }
    let most = if ["F", "W"].contains(&name) { 65_535 } else { 255 };
    // Digits alone, of at most 999,999,999; zeros before them count for nothing.
    let digit = |number: u32, byte: &u8| match byte {
        b'0'..=b'9' if number <= 99_999_999 => Some(10 * number + u32::from(byte - b'0')),
        _ => None,
    };
    word.iter()
        .try_fold(0, digit)
        .filter(|number| *number <= most)
        .map(|number| number as u16)
        .ok_or(format!("{name} is a number, at most {most}"))
}

/// The plan of a text, or the line that is wrong and why.
pub fn read(text: &[u8]) -> Result<Plan, String> {
    let mut values = Vec::new();
    for (number, line) in text.split(|byte| *byte == b'\n').enumerate() {
        let line = line.split(|byte| *byte == b'#').next().unwrap_or_default();
        let words: Vec<&[u8]> = line.split(|byte| b" \t\r".contains(byte)).filter(|word| !word.is_empty()).collect();
        let wrong = |why: String| format!("line {}: {why}", number + 1);
        match (words.as_slice(), NAMES.get(values.len())) {
            ([], _) => {}
            (_, None) => return Err(wrong("nothing more belongs here".to_string())),
            ([name, word], Some(next)) if *name == next.as_bytes() => values.push(value(next, word).map_err(wrong)?),
            (_, Some(next)) => return Err(wrong(format!("here belongs {next} and its value"))),
        }
    }
    let Ok([n, t, b, q, m, f, member, clients, w]) = <[u16; 9]>::try_from(values.as_slice()) else {
        return Err(format!("there is no line {} and its value", NAMES[values.len()]));
    };
    let [n, t, b, q, m] = [n, t, b, q, m].map(|number| number as u8);
    let member = if member == 0 { Member::Repairable } else { Member::NonRepair };
    let clients = if clients == 0 { Clients::Crash } else { Clients::Byzantine };
    Ok(Plan { n, t, b, q, m, f, member, clients, w })
}

/// The nine names and values, in order.
pub fn values(plan: &Plan) -> [(&'static str, String); 9] {
    let number = |place: usize| match place {
        6 => choices("member").expect("a word")[plan.member as usize].to_string(),
        7 => choices("clients").expect("a word")[plan.clients as usize].to_string(),
        5 => plan.f.to_string(),
        8 => plan.w.to_string(),
        place => [plan.n, plan.t, plan.b, plan.q, plan.m][place].to_string(),
    };
    std::array::from_fn(|place| (NAMES[place], number(place)))
}

pub fn write(plan: &Plan) -> String {
    values(plan).iter().map(|(name, value)| format!("{name} {value}\n")).collect()
}
