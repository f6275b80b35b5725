//! Messages as laboratories, wards and clinics send them: all made up, and all accepted.

use super::{message, Bytes};

pub fn messages() -> Vec<Bytes> {
    vec![
        blood_count(),
        chest_report(),
        admission(),
        transfer(),
        cancelled_transfer(),
        merge(),
        positive_acknowledgement(),
        negative_acknowledgement(),
    ]
}

/// Results of many types, a comment, and the report once more as a file.
pub fn blood_count() -> Bytes {
    message(&[
        concat!(
            r"MSH|^~\&|LIS^3|Bay Path^0815^L|GPS|Hill St|20240229093000+1000||ORU^R01^ORU_R01",
            "|bp_240229.17|P|2.4^AUS&&ISO|||AL|NE",
        ),
        "PID|1||80012^^^BAY^MR~2951^^^M^MC||Grün^Ana^Lee~Lee^Ana||19810704|F|||4 Quay^^Cowes",
        "PV1|1|O||||||77^Okoye^J",
        "ORC|RE|A17^HILL|24-551^BAY||CM",
        "OBR|1|A17^HILL|24-551^BAY|FBE^Full blood count^L|||202402281030+1000",
        "OBX|1|NM|718-7^Hb^LN||131|g/L|115-165|N|||F|||20240228",
        r"OBX|2|NM|6690-2^WCC^LN||6.30|10\S\9/L|4.0-11.0|N|||F",
        "OBX|3|SN|1988-5^CRP^LN||<^5|mg/L||N|||F",
        r"OBX|4|FT|8251-1^Note^LN||Normal film.\.br\No blasts.||||||P",
        "NTE|1|L|by telephone",
        "OBX|5|TS|X1^Spun^L||202402281105^M||||||F|||202402281106.5+1000",
        "OBX|6|ED|PDF^Display^L||^application^PDF^Base64^JVBERi0xLjQK||||||F",
        "OBX|7||X2^Held^L||||||||X",
    ])
}

pub fn chest_report() -> Bytes {
    message(&[
        r"MSH|^~\&|RIS|SCANS|||20240229||ORU^R01|77|P|2.4",
        "PID|||4711||Roe^Sam||1950|U",
        "OBR|1|||CXR",
        r#"OBX|1|TX|CXR||Clear.\X0D\No fluid.~""||||||C"#,
        "OBX|2|DT|NEXT||202408||||||F",
    ])
}

pub fn admission() -> Bytes {
    message(&[
        r"MSH|^~\&|PAS|ST ANNE|HIPS|ANNE|20240612070339||ADT^A01|10795388133402191769|P|2.4",
        "EVN|A01|20240612070339.006",
        r#"PID|1|""|55021^^^ANNE^MR||O'Neil^Mary^""^^Mrs||19380211000000|F||9|1 Elm^""^Orroroo"#,
        "NK1|1|O'Neil^Tom|SPO",
        "PV1|1|I|4N^12^B||||31^Ward^K|||MED|||||||||9001|||||||||||||||||||||||||202406120650",
        "PV2||SH",
        "AL1|1|DA|PEN",
        "IN1|1|MED",
        "ZVI|1|x",
        "ZPD|N",
    ])
}

fn transfer() -> Bytes {
    message(&[
        r"MSH|^~\&|PAS|ANNE|||202406121200||ADT^A02^ADT_A02|B2|P|2.4",
        "EVN|A02|202406121155",
        "PID|1||55021||O'Neil^Mary||1938|F",
        "PV1|1|I|ICU^3||||||||||||||||9001",
        "ZPD|N",
    ])
}

fn cancelled_transfer() -> Bytes {
    message(&[
        r"MSH|^~\&|PAS|ANNE|||202406121215-0030||ADT^A12|B3|T|2.4",
        "EVN|A12",
        r#"PID|1||55021||O'Neil^Mary||""|O"#,
        "PV1|1|I|4N^12",
    ])
}

pub fn merge() -> Bytes {
    message(&[
        r"MSH|^~\&|MPI||||20240613||ADT^A40|M-9|P|2.4",
        "EVN||20240613",
        "PID|||55021||O'Neil^Mary",
        "MRG|70001",
        "PID|||55022^^^ANNE||Doe^Jo||^|",
        "PD1",
        "MRG|70002",
    ])
}

pub fn positive_acknowledgement() -> Bytes {
    message(&[
        r"MSH|^~\&|GPS|Hill St|LIS^3|Bay Path^0815^L|20240229093002+1000||ACK^R01|K-1|P|2.4",
        "MSA|AA|bp_240229.17",
    ])
}

pub fn negative_acknowledgement() -> Bytes {
    message(&[
        r"MSH|^~\&|HIPS||PAS||20240612||ACK|7|D|2.4",
        "MSA|AR|10795388133402191769",
        "ERR|PID^1^5^101",
    ])
}
