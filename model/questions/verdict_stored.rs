//! The stored questions of the verb `verdict`: each judged field in each state, with each value of
//! its list and what comes near it, and repeated; OBX-5 by every type of OBX-2; two faults in every
//! order; and messages as they are sent, whole and damaged. The rules of a structure are the matter
//! of the verb `structure`: here they only come before the fields.

use super::filled::{
    header_of_oru, message_around, message_with, oru_with, segment, segment_ending_before, JUDGED,
};
use super::{changed, latin, lifelike, message, padded, verdict_question, Bytes, LONG_IDS};

pub fn stored() -> Vec<Bytes> {
    let messages = [
        states(),
        values_of_lists(),
        near_values_of_lists(),
        other_values(),
        times(),
        sequence_numbers(),
        control_ids(),
        observation_values(),
        observations_not_judged(),
        observations_without_a_type(),
        observation_types(),
        two_faults_of_a_field(),
        two_faults_of_a_segment(),
        two_faults_of_a_message(),
        faults_of_admissions(),
        earlier_faults(),
        other_delimiters(),
        fields_not_judged(),
        many_repetitions(),
        lifelike::messages(),
        damaged(),
    ];
    let mut lines = no_questions();
    lines.extend(messages.concat().iter().map(|message| verdict_question(message)));
    lines
}

/// Each judged field absent, empty, of separators alone, null, and present in some way: `x` stands
/// for a content that is accepted. First, all of them at once.
fn states() -> Vec<Bytes> {
    let contents = ["", "^", "&", "~", r#""""#, r#"""^x"#, "^x", "~x", "x~", r#"x~"""#, "x^y"];
    let mut messages = vec![oru_with(&JUDGED)];
    for (name, field, accepted) in JUDGED {
        for content in contents {
            messages.push(message_with(name, &[(field, &content.replace('x', accepted))]));
        }
        messages.push(message_around(&segment_ending_before(name, field)));
    }
    messages
}

/// The lists, each with the segment and field that it is for.
const LISTS: [(&str, usize, &str); 6] = [
    ("MSH", 11, "D P T"),
    ("MSH", 12, "2.4"),
    ("PID", 8, "M F O U"),
    ("OBX", 2, "CE DT ED FT NM RP SN ST TM TS TX"),
    ("OBX", 11, "C D F I N O P R S U W X"),
    ("MSA", 1, "AA AE AR"),
];

/// Every value of every list, all those of OBX in one message.
fn values_of_lists() -> Vec<Bytes> {
    let mut messages = Vec::new();
    let mut observations = Vec::new();
    for (name, field, values) in LISTS {
        for value in values.split(' ') {
            if name == "OBX" {
                observations.push(segment(name, &[(field, value)]));
            } else {
                messages.push(message_with(name, &[(field, value)]));
            }
        }
    }
    messages.push(message_of_observations(&observations));
    messages
}

fn message_of_observations(observations: &[String]) -> Bytes {
    let header = header_of_oru(&[]);
    let observations: Vec<&str> = observations.iter().map(String::as_str).collect();
    message(&[&[&header, "OBR"], &observations[..]].concat())
}

/// Each value in small letters, with a byte more, with a component, or with a space on one side or
/// the other: one kind after another, and all five for each list.
fn near_values_of_lists() -> Vec<Bytes> {
    let mut messages = Vec::new();
    for (name, field, values) in LISTS {
        let values: Vec<&str> = values.split(' ').collect();
        for number in 0..values.len().max(5) {
            let value = values[number % values.len()];
            let near = match number % 5 {
                0 => value.to_lowercase(),
                1 => format!("{value}{}", &value[..1]),
                2 => format!("{value}^"),
                3 => format!("{value} "),
                _ => format!(" {value}"),
            };
            messages.push(message_with(name, &[(field, &near)]));
        }
    }
    messages
}

/// Values that other lists or other versions have, and pieces of a list.
fn other_values() -> Vec<Bytes> {
    let mut messages = Vec::new();
    for (name, field, values) in [
        ("MSH", 11, "A p^P PD P&"),
        ("MSH", 12, "2.3 2.3.1 2.5 2 02.4 2,4 2.4&AUS"),
        ("PID", 8, "A N 1 MF 2^Female F&"),
        ("OBX", 2, "AD CX SI XPN N NM&"),
        ("OBX", 11, "A B E G H J K L M Q T V Y Z CD F&"),
        ("MSA", 1, "CA CE CR A AAAE RA AA&"),
    ] {
        messages.extend(values.split(' ').map(|value| message_with(name, &[(field, value)])));
    }
    messages
}

/// A time stamp in each of the fields that hold one, and what comes near.
fn times() -> Vec<Bytes> {
    let mut messages = Vec::new();
    for (name, field) in [("MSH", 7), ("PID", 7), ("OBX", 14)] {
        for content in [
            "20240229093001.1234+1030", "202402-0000", "2024022909", "20230229", "0930", "2024 ",
            "2024+1500", "2024&",
        ] {
            messages.push(message_with(name, &[(field, content)]));
        }
    }
    messages
}

fn sequence_numbers() -> Vec<Bytes> {
    let mut messages = Vec::new();
    for name in ["OBR", "OBX"] {
        for content in ["0", "9999", "10000", "+1", "1.0", " 1", "a", "1&1"] {
            messages.push(message_with(name, &[(1, content)]));
        }
    }
    messages
}

/// MSH-10: "1 to 199 bytes", of any kind and raw. 20 were the most before W6.
fn control_ids() -> Vec<Bytes> {
    let mut contents = [" ", "\"", "\"\"^", "A2345678901234567890", "A23456789012345678901"]
        .map(str::to_string)
        .to_vec();
    for length in [199, 200] {
        let patterns = ["", "~", "Ä^3&5", r"\X41\6"];
        contents.extend(patterns.map(|pattern| padded(pattern, length)));
        contents.push("^".repeat(length));
        contents.push(padded("", length - 1) + "~");
    }
    contents.iter().map(|content| message_with("MSH", &[(10, content)])).collect()
}

/// OBX-5 of each type that is judged, of one repetition and of many.
fn observation_values() -> Vec<Bytes> {
    let numerics = [
        "-5.0", "-1234567890.12345678", "1234567890123456789", "1234567890123456789.", "5.", "<5",
        " 5", "5&", "5~-6~+7", "x~5", "5~6~x~y", r#"5~~""~^~x"#, "5~1234567890123456789~x",
        "2024-02-29",
    ];
    let dates = [
        "20240229", "202402", "20230229", "202402290930", "2024+1000", "2024^", "^2024", "093001",
        "2024~2023~x", r#"~""~^~5"#,
    ];
    let times_of_day =
        ["09", "093001.5+1000", "2400", "09^", "^09", "9", "20240229", "09~10~x", r#"~""~^~5"#];
    let time_stamps = [
        "20240229", "20240229093001.1234+1030", "2024022909", "2024^x", "x^2024", "^x", r#"""^x"#,
        "2024&", "&^2024", "0930", r#"2024^x~^x~""~x^2024"#,
    ];
    [("NM", &numerics[..]), ("DT", &dates), ("TM", &times_of_day), ("TS", &time_stamps)]
        .iter()
        .flat_map(|(value_type, contents)| observations(&[value_type], contents))
        .collect()
}

/// A message for each of these types in OBX-2 with each of these contents in OBX-5.
fn observations(value_types: &[&str], contents: &[&str]) -> Vec<Bytes> {
    let mut messages = Vec::new();
    for value_type in value_types {
        for content in contents {
            messages.push(message_with("OBX", &[(2, value_type), (5, content)]));
        }
    }
    messages
}

/// "Only NM, DT, TM, TS are judged": the others may hold what would be a fault in each of those.
fn observations_not_judged() -> Vec<Bytes> {
    let observations = ["CE", "ED", "FT", "RP", "SN", "ST", "TX"]
        .map(|value_type| segment("OBX", &[(2, value_type), (5, "x~1234567890123456789~a^b&c")]));
    vec![message_of_observations(&observations)]
}

/// OBX-2 not present, and OBX-5 present or not, in repetition 1 or later: 35 and its neighbours.
fn observations_without_a_type() -> Vec<Bytes> {
    let contents = ["5", "^&", "~~x", "^x", r#"""~^~&x"#, r#"~""~^"#];
    observations(&["", "^", "&", r#""""#], &contents)
}

/// OBX-2 of no type or of two is a fault of its own, whatever OBX-5 holds.
fn observation_types() -> Vec<Bytes> {
    let value_types = ["XX", "nm", "NM~", "NM~ST", "~NM", "~", r#"""~NM"#, "^NM", r#"""^"#];
    observations(&value_types, &["5", "x"])
}

/// "In a row 31 or 34, then 36, then 35, then the repetitions in turn."
fn two_faults_of_a_field() -> Vec<Bytes> {
    [
        ("MSH", 7, "x~"),
        ("MSH", 7, r#"""^~x"#),
        ("MSH", 7, "2024~x"),
        ("MSH", 10, r#"""~A"#),
        ("MSH", 11, "X~X"),
        ("MSH", 11, "&^P~X"),
        ("MSH", 12, "2.3~2.4"),
        ("PID", 3, r#"1~~"""#),
        ("PID", 3, r#"""~1"#),
        ("PID", 5, r#""A"~"""#),
        ("PID", 5, "~~A"),
        ("PID", 7, "x~1970"),
        ("PID", 8, "x~"),
        ("PID", 8, r#"""~"""#),
        ("OBR", 1, "x~1"),
        ("OBX", 1, "~x"),
        ("OBX", 3, "x~y"),
        ("OBX", 3, r#"""~"""#),
        ("OBX", 11, "y~F"),
        ("OBX", 11, r#"""~y"#),
        ("OBX", 14, "~x"),
        ("MSA", 1, "XX~AA"),
        ("MSA", 1, r#"""~XX"#),
    ]
    .map(|(name, field, content)| message_with(name, &[(field, content)]))
    .to_vec()
}

/// Of each judged field a content that is a fault, and one that is a fault of another number.
pub const FAULTS: [(&str, usize, [&str; 2]); 16] = [
    ("MSH", 7, ["x", ""]),
    ("MSH", 10, [LONG_IDS[1], r#""""#]),
    ("MSH", 11, ["X", "~"]),
    ("MSH", 12, ["2.3", "2.4~"]),
    ("PID", 3, ["", r#""""#]),
    ("PID", 5, [r#""""#, "~A"]),
    ("PID", 7, ["x", "~"]),
    ("PID", 8, ["X", "F~"]),
    ("OBR", 1, ["x", "~1"]),
    ("OBX", 1, ["x", "1~1"]),
    ("OBX", 2, ["XX", "NM~"]),
    ("OBX", 3, ["", r#""""#]),
    ("OBX", 5, ["x", "1234567890123456789"]),
    ("OBX", 11, ["x", ""]),
    ("OBX", 14, ["x", "~"]),
    ("MSA", 1, ["", "XX"]),
];

/// Each two fields of one segment with a fault: the earlier row is told, whatever the numbers.
fn two_faults_of_a_segment() -> Vec<Bytes> {
    let mut messages = Vec::new();
    for (later, (name, field, contents)) in FAULTS.iter().enumerate() {
        for (_, other, other_contents) in FAULTS[..later].iter().filter(|(n, ..)| n == name) {
            let kind = later % 2;
            let faults = [(*field, contents[kind]), (*other, other_contents[1 - kind])];
            messages.push(message_with(name, &faults));
        }
    }
    messages
}

/// Faults of two segments: the earlier segment is told, whatever the rows.
fn two_faults_of_a_message() -> Vec<Bytes> {
    let mut messages: Vec<Bytes> = [
        [("MSH", 12, "2.3"), ("PID", 3, "")],
        [("MSH", 11, r#""""#), ("OBX", 1, "x")],
        [("PID", 8, "X"), ("OBR", 1, "x")],
        [("PID", 7, "x"), ("second PID", 3, "")],
        [("OBR", 1, "x"), ("OBX", 1, "x")],
        [("OBR", 1, "1~1"), ("second PID", 3, "")],
        [("OBX", 14, "x"), ("second PID", 3, "")],
        [("OBX", 11, ""), ("second OBR", 1, "x")],
        [("OBX", 14, "x"), ("second OBX", 1, "x")],
        [("OBX", 5, "1~x"), ("second OBX", 2, "XX")],
        [("second PID", 8, "X"), ("second OBX", 3, "")],
        [("second OBR", 1, "x"), ("second OBX", 1, "x")],
    ]
    .map(|faults| oru_with(&faults))
    .to_vec();
    // OBX-2 is the segment's own.
    messages.push(oru_with(&[("OBX", 5, "5"), ("second OBX", 2, "ST"), ("second OBX", 5, "x")]));
    messages.push(oru_with(&[("OBX", 5, "5"), ("second OBX", 2, ""), ("second OBX", 5, "5")]));
    messages.push(message(&[&segment("MSH", &[(12, "2.3")]), "MSA|XX"]));
    messages.push(message(&[&segment("MSH", &[(10, "")]), "MSA|"]));
    messages
}

/// The rows hold in every structure that names the segment.
fn faults_of_admissions() -> Vec<Bytes> {
    let segments = ["EVN", r#"PID|||1||"""#, "PV1"];
    ["ADT^A01", "ADT^A02", "ADT^A12"]
        .map(|message_type| {
            let header = segment("MSH", &[(9, message_type)]);
            message(&[&[&header[..]], &segments[..]].concat())
        })
        .to_vec()
}

/// Before any fault of a field: a reading fault, 20, 21 and 22.
fn earlier_faults() -> Vec<Bytes> {
    let faulty = r"MSH|^~\&|||||x||";
    let texts = [
        String::new(),                                         // 1
        r"MSH|^~\&".to_string(),                               // 2
        r"MSH|^~\&x||||x||ACK".to_string() + "\rMSA\r",        // 2
        r"MSH|^~\^|||||x||ACK".to_string() + "\rMSA\r",        // 3
        format!("{faulty}ACK\rMSA|\n\r"),                      // 4
        format!("{faulty}ACK\rMSA"),                           // 5
        format!("{faulty}ACK\rMSA\rmsa\r"),                    // 6
        format!("{faulty}ACK\rMSA\rMSH|\r"),                   // 7
        format!("{faulty}\rMSA\r"),                            // 20
        format!("{faulty}ORU^R02\rOBR|x\r"),                   // 20
        format!("{faulty}ADT^A03|1|P|2.4\rEVN\rPID\r"),        // 20
        r"MSH|^~\&".to_string() + "\rMSA\r",                   // 20
        format!("{faulty}ACK\r"),                              // 22
        format!("{faulty}ACK\rEVN\r"),                         // 21
        format!("{faulty}ACK\rMSA\rERR\rERR\r"),               // 21
        format!("{faulty}ACK\rZZZ\rMSA|XX\r"),                 // 32
        format!("{faulty}ORU^R01\rPID\rORC\r"),                // 22
        format!("{faulty}ORU^R01\rZZZ\rPID\rZZZ\rEVN\r"),      // 21
        format!("{faulty}ORU^R01\rOBR|x\rOBX\rNTE\rEVN\r"),    // 21
        format!("{faulty}ADT^A40\rEVN\rPID\r"),                // 22
        format!("{faulty}ADT^A01\rEVN\rPID\rPV1\rPID\r"),      // 21
        format!("{faulty}ADT^A02\rEVN\rPID\rPV1\rZPD\rZVI\r"), // 21
        format!("{faulty}ADT^A12\rEVN\rPID\rPV1\r"),           // 32
    ];
    texts.iter().map(|text| latin(text)).collect()
}

/// The delimiters are the message's own, and the usual ones are mere bytes where they are not.
fn other_delimiters() -> Vec<Bytes> {
    let header = "MSH#$%*@#####2024##ORU$R01#1#P#2.4";
    let mut messages = [
        ["PID###1%2##A%B##$x#F", "OBR#1", "OBX#1#TS#1##2024$x%$x######F###2024$x"],
        ["PID###^~&##|", "OBR", "OBX##NM#~##%@%\"\"######F"],
        ["PID###$%@##A", "OBR", "OBX###1########F"],
        ["PID###1##A##1970^x", "OBR", "OBX###1########F"],
        ["PID###1##A##1970~1971", "OBR", "OBX###1########F"],
        ["PID###1##A##1970%1971", "OBR", "OBX###1########F"],
        ["PID###1##A###M$", "OBR", "OBX###1########F"],
        ["PID###1##A", "OBR#1~2", "OBX###1########F"],
        ["PID###1##A", "OBR", "OBX###1##%%x######F"],
        ["PID###1##A", "OBR", "OBX##NM#1##5%6%7^8######F"],
        ["PID###1##A", "OBR", "OBX##NM#1##5~6######F"],
    ]
    .map(|[pid, obr, obx]| message(&[header, pid, obr, obx]))
    .to_vec();
    for header in [
        "MSH#$%*@#####2024$x##ACK#1$2@3#P$x#2.4$x",
        "MSH#$%*@#####2024^x##ACK#1#P#2.4",
        "MSH#$%*@#####2024##ACK#1%2#P#2.4",
        "MSH#$%*@#####2024##ACK#1~2#P~#2.4",
        "MSH#$%*@#####2024##ACK#1#P#2.4@AUS",
        "MSH#$%*@#####2024##ACK#@%$#P#2.4",
    ] {
        messages.push(message(&[header, "MSA#AA"]));
    }
    messages.push(message(&[r"MSH|~^\&|||||2024~x||ACK|1~2|P~^|2.4", "MSA|AA"]));
    messages.push(message(&[r"MSH|&~\^|||||2024&x||ACK|1|P&|2.4&x^", "MSA|AA&"]));
    messages
}

/// Any other field may hold anything, and so may the fields of other segments.
fn fields_not_judged() -> Vec<Bytes> {
    let anything = r#"x|x~y|""|~|^|x|&x|x~|""^|x|x|x|x|x|x"#;
    let not_judged = [(3, "a~b"), (4, "~"), (5, r#""""#), (6, "^&"), (8, "~x"), (13, "~x")];
    vec![
        message(&[
            &header_of_oru(&not_judged),
            r#"PID|x|~|12345678901234567890 1|x~y|Featherstonehaugh^Joan|""~|1970|M|x~y|~|x"#,
            "NK1|x|x|||x~|x|x",
            "PV1|x|x~y",
            "ORC|x|x~y",
            "OBR|1|x~y|x|~|x|x|x|x|x|x|x|x|x|x",
            "OBX|1||GLU^Glucose, fasting^L|x~y||x~|~x|x~y|x|x~|F|x~y|x~y||x~y",
            "DSC|x~y",
        ]),
        message(&[
            &segment("MSH", &[(9, "ADT^A01")]),
            &format!("EVN|{anything}"),
            "PID|||1||A",
            &format!("PV1|{anything}"),
            &format!("ZPD|{anything}"),
        ]),
        message(&[&segment("MSH", &[]), "MSA|AA|x~y|~", &format!("ERR|{anything}")]),
        // The place of a fault counts the segments that were taken out, which have no rows.
        message(&[&header_of_oru(&[]), "ZID|x", "OBR", &format!("ZBX|{anything}"), "OBX|x"]),
        message(&[&segment("MSH", &[]), "ZZZ", "MSA|aa"]),
        // A segment has the rows of its own name alone.
        message(&[&header_of_oru(&[]), "OBR|1|XX||||||||||X", "NTE|x", "OBX|1||1||||||||F"]),
    ]
}

/// More than 256 repetitions: a number that is cut to one byte tells another.
fn many_repetitions() -> Vec<Bytes> {
    let repetitions = "~".repeat(258) + "x";
    vec![message_with("OBX", &[(5, &repetitions)])]
}

/// Messages as they are sent, with a byte changed, a field dropped, emptied or moved, or a segment
/// dropped, doubled or swapped.
fn damaged() -> Vec<Bytes> {
    let mut messages = vec![
        replaced(&lifelike::blood_count(), "202402281106.5+1000", "202402281106,5+1000"),
        replaced(&lifelike::admission(), "02191769", "021917690"),
        replaced(&lifelike::admission(), "ZPD", "ZVI"),
        replaced(&lifelike::merge(), "Doe^Jo", ""),
        replaced(&lifelike::merge(), "55022", r#"""~55022"#),
        replaced(&lifelike::merge(), "MRG|70001\r", ""),
        replaced(&lifelike::positive_acknowledgement(), "MSA|AA", "MSA||AA"),
        replaced(&lifelike::positive_acknowledgement(), "+1000", "+10"),
    ];
    for (from, to) in [
        ("4711||", "4711|"),
        ("|U\r", "|A\r"),
        ("|TX|", "||"),
        ("||C\r", "|C\r"),
        ("202408", "2024-08"),
        ("1950", "50"),
        ("|77|", "||"),
        ("2.4", "2.3"),
        ("OBR|1|", "OBR|I|"),
        ("R01", "R02"),
        ("OBX|2", "obx|2"),
    ] {
        messages.push(replaced(&lifelike::chest_report(), from, to));
    }
    messages.extend(segments_moved(&lifelike::negative_acknowledgement()));
    messages.extend(bytes_changed(&lifelike::negative_acknowledgement()));
    messages
}

/// The message with the first `from` in it replaced.
fn replaced(message: &[u8], from: &str, to: &str) -> Bytes {
    let text: String = message.iter().map(|&byte| char::from(byte)).collect();
    latin(&text.replacen(from, to, 1))
}

/// Each segment but the first dropped, doubled, and swapped with the one behind it.
pub fn segments_moved(message: &[u8]) -> Vec<Bytes> {
    let segments: Vec<&[u8]> = message.split_inclusive(|&byte| byte == b'\r').collect();
    let mut messages = Vec::new();
    for at in 1..segments.len() {
        let (before, from) = segments.split_at(at);
        messages.push([before, &from[1..]].concat().concat());
        messages.push([before, &from[..1], from].concat().concat());
        if from.len() > 1 {
            let mut swapped = segments.clone();
            swapped.swap(at, at + 1);
            messages.push(swapped.concat());
        }
    }
    messages
}

/// Every fifth byte changed to another one.
fn bytes_changed(message: &[u8]) -> Vec<Bytes> {
    let others = b"|~^\"A0 \r".iter().cycle();
    let places = (0..message.len()).step_by(5);
    places.zip(others).map(|(place, &other)| changed(message, place, other)).collect()
}

/// Lines that come near a question of this verb.
fn no_questions() -> Vec<Bytes> {
    let lines = [
        "verdict", "verdict ", "verdict -", "verdict - ", "verdict - -", "verdict  -", "verdict 4",
        "verdict 4d", "verdict 4D", "verdict 4g", "verdict 4d 4d", "verdict 4d 0", " verdict -",
        "verdicts -", "Verdict -", "VERDICT -", "verdict-", "verdict\t-", "verdict -\r",
        "verdict 4d5",
    ];
    lines.map(|line| line.as_bytes().to_vec()).to_vec()
}
