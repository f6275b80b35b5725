//! The stored questions of the verb `find`: every address over fields of every mix of separators,
//! nulls and empties, the fields of MSH, and numbers of an address at and past every limit.

use super::{addresses, field_question, latin, lookup_question, message, Bytes, Numbers};

pub fn stored() -> Vec<Bytes> {
    let questions = [
        every_address(),
        other_delimiters(),
        short_fields(),
        every_segment_and_field(),
        fields_of_the_header(),
        zeros(),
        huge_numbers(),
        many_parts(),
    ];
    questions.concat()
}

fn find(message: &[u8], address: Numbers) -> Bytes {
    lookup_question("find", message, address)
}

/// Fields that split, or are null or empty, at one level and not at another.
const FIELDS: [&str; 41] = [
    "", "a", "^", "^^", "&", "&&", "~", "~~", "^&~", "~&^", "&~^&", r#""""#, r#"""^"#, r#"^"""#,
    r#"""~"#, r#"~"""#, r#"""&"#, r#"&"""#, r#"""^"""#, r#"""~"""#, r#"""&"""#, r#"""^^"""#,
    r#"""#, r#"""""#, r#""""""#, r#""a""#, r#""^""#, "a^b&c~d", "a~~b", "a^^b", "a&&b", "a^", "^a",
    "a~", "&a", "a&b^c~d^e&f", r"\", r"\S\", r"a\T\b&c", r"\X2222\", " ",
];

/// Every address of a field that is the first of its segment, and one past its last part at every
/// level. Behind the field stands another, which no answer may reach.
fn addresses_of(message: &[u8], field: &[u8], delimiters: &[u8; 5]) -> Vec<Bytes> {
    let parts = |separator| field.iter().filter(|&&byte| byte == separator).count() as u64 + 1;
    let [_, component, repetition, _, subcomponent] = *delimiters;
    addresses(parts(repetition), parts(component), parts(subcomponent))
        .iter()
        .map(|&[repetition, component, subcomponent]| {
            find(message, [1, 1, repetition, component, subcomponent])
        })
        .collect()
}

fn every_address() -> Vec<Bytes> {
    let mut lines = Vec::new();
    for field in FIELDS {
        let message = message(&[r"MSH|^~\&", &format!("PID|{field}|z")]);
        lines.extend(addresses_of(&message, &latin(field), br"|^~\&"));
    }
    lines
}

/// Fields where the usual delimiters have other meanings, or none.
fn other_delimiters() -> Vec<Bytes> {
    let mut lines = Vec::new();
    for (delimiters, fields) in [
        (b"#$%*@", ["$@%", r#"""$"#, r#"""%"""#, "a$b@c%d", "a^b&c~d", r"a\S\"]),
        (br"|~&\^", ["^&~", r#"""^"#, r#"""~"""#, "a&b~c", "a^b&c~d", r"a\~"]),
        (br"|\^&~", ["^&~", r#"""^"#, r#"""\"""#, "a&b~c", r"a\b~c^d", r"&S&"]),
    ] {
        for field in fields {
            let separator = char::from(delimiters[0]);
            let header = format!("MSH{}", delimiters.map(char::from).iter().collect::<String>());
            let segment = format!("PID{separator}{field}{separator}z");
            let message = message(&[&header, &segment]);
            lines.extend(addresses_of(&message, &latin(field), delimiters));
        }
    }
    lines
}

/// Every field of up to three bytes of these six, whole.
fn short_fields() -> Vec<Bytes> {
    let mut fields: Vec<Bytes> = vec![Vec::new()];
    let mut longest = fields.clone();
    for _ in 0..3 {
        longest = longest
            .iter()
            .flat_map(|field| br#"^~\&"a"#.map(|byte| [&field[..], &[byte]].concat()))
            .collect();
        fields.extend(longest.clone());
    }
    fields.iter().map(|field| field_question("find", field)).collect()
}

/// Every segment and field of a message, and some past the last: `PID` alone has no field 1, in
/// `PID|` it is empty, and a header may end behind its delimiters.
fn every_segment_and_field() -> Vec<Bytes> {
    let messages = [
        message(&[r"MSH|^~\&"]),
        message(&[r"MSH|^~\&|"]),
        message(&[r"MSH|^~\&||"]),
        message(&[r"MSH|^~\&|a||b", "PID", "PID|", "PV1||", r#"OBX|1|""|^|x~y|"#]),
        message(&["MSH!,:;/!a", "PID", "PID!", r#"OBX!|!""!,"#]),
    ];
    let mut lines = Vec::new();
    for message in messages {
        let segments = message.iter().filter(|&&byte| byte == b'\r').count() as u64;
        for segment in 0..=segments + 1 {
            for field in 0..=6 {
                lines.push(find(&message, [segment, field, 0, 0, 0]));
            }
        }
    }
    lines
}

/// The fields of MSH with every repetition, component and subcomponent from 0 to 2, good and bad.
fn fields_of_the_header() -> Vec<Bytes> {
    let mut lines = Vec::new();
    for (header, fields) in [(r"MSH|^~\&|a^b&c~d", 1..=4), ("MSH#$%*@", 1..=2)] {
        for field in fields {
            for rest in 0..27 {
                let (repetition, component, subcomponent) = (rest / 9, rest / 3 % 3, rest % 3);
                let address = [0, field, repetition, component, subcomponent];
                lines.push(find(&message(&[header]), address));
            }
        }
    }
    lines
}

/// A 0 at each place of an address but the first, in all ways, of a field that is there, of one
/// that is not, and of a segment that is not.
fn zeros() -> Vec<Bytes> {
    let message = message(&[r"MSH|^~\&", "PID|a^b&c~d"]);
    let mut lines = Vec::new();
    for [segment, field] in [[1, 0], [1, 1], [1, 2], [2, 0], [2, 1], [0, 0], [0, 1]] {
        for rest in 0..8 {
            let (repetition, component, subcomponent) = (rest / 4, rest / 2 % 2, rest % 2);
            lines.push(find(&message, [segment, field, repetition, component, subcomponent]));
        }
    }
    lines
}

/// Numbers that come out small, or 0, where they are cut to fewer bits or wrap: 2^32 + 1 is not 1,
/// and behind a 0 no 2^32 may stand.
fn huge_numbers() -> Vec<Bytes> {
    let powers = [1 << 8, 1 << 16, 1 << 31, 1 << 32, 1 << 63];
    let message = message(&[r"MSH|^~\&|a^b", "PID|a^b&c~d"]);
    let mut lines = Vec::new();
    for address in [[1, 1, 1, 2, 2], [1, 1, 0, 0, 0], [0, 3, 1, 0, 0], [0, 2, 1, 1, 1]] {
        for place in 0..5 {
            let mut huge = powers.map(|power| power + address[place]).to_vec();
            huge.extend([1 << 32, 1 << 63, u64::MAX - 1, u64::MAX]);
            for number in huge {
                let mut address: Numbers = address;
                address[place] = number;
                lines.push(find(&message, address));
            }
        }
    }
    lines.push(find(&message, [u64::MAX; 5]));
    lines.push(find(&message, [0, u64::MAX, u64::MAX, u64::MAX, u64::MAX]));
    lines.push(find(&message, [1, u64::MAX, u64::MAX, u64::MAX, 0]));
    lines
}

/// More than 256 parts at each level below the segments: a number that is cut to one byte finds another
/// part.
fn many_parts() -> Vec<Bytes> {
    let mut lines = Vec::new();
    let separators = 259;
    let last = separators as u64 + 1;
    for (separator, place, address) in [
        (b'|', 1, [1, 1, 0, 0, 0]),
        (b'~', 2, [1, 1, 1, 0, 0]),
        (b'^', 3, [1, 1, 1, 1, 0]),
        (b'&', 4, [1, 1, 1, 1, 1]),
    ] {
        let parts = [b"a", &vec![separator; separators][..], b"bc"].concat();
        let message = [br"MSH|^~\&".as_slice(), b"\rPID|", &parts, b"\r"].concat();
        for number in [256, 257, last, last + 1] {
            let mut address: Numbers = address;
            address[place] = number;
            lines.push(find(&message, address));
        }
    }
    lines
}
