//! Sheets: an upload as a table and back, against rows put together here.

mod common;

use common::{Random, refusal};
use vindaskot::{export_sheet_to_string, import_sheet, import_sheet_to_vec};

const HEADER: &str = "group,offset,size,type id,flags,high,name,type,comment";

/// What a sheet may hold: each has a string with a comma, a quote, an end of a line or a letter above ASCII.
const TEXTS: [&str; 8] = [
    "",
    "MAIN.nAxis",
    "a,b",
    "\"",
    "a\r\nb",
    "Grad °",
    "€",
    "=1+1",
];

fn cell(text: &str, always: bool) -> String {
    if always || text.contains([',', '"', '\r', '\n']) {
        return format!("\"{}\"", text.replace('"', "\"\""));
    }
    text.to_owned()
}

fn row(random: &mut Random, always: bool) -> String {
    let numbers: Vec<String> = (0..6)
        .map(|column| {
            let number = random.word();
            let number = match column {
                4 => number & 0x6FF7,
                5 => number & 0xFFFF,
                _ => number,
            };
            if always {
                format!("\"000{number}\"")
            } else {
                number.to_string()
            }
        })
        .collect();
    let texts: Vec<String> = (0..3)
        .map(|_| cell(TEXTS[random.below(TEXTS.len())], always))
        .collect();
    format!("{},{}", numbers.join(","), texts.join(","))
}

/// What a program writes that quotes each cell, ends rows in LF and pads numbers is the same upload.
#[test]
fn there_and_back() {
    for seed in 0..200 {
        let sheet = |always: bool, end: &str| {
            let mut random = Random(seed);
            let mut lines = vec![HEADER.to_owned()];
            lines.extend((0..seed % 5).map(|_| row(&mut random, always)));
            lines.join(end) + end
        };
        let plain = sheet(false, "\r\n");
        let upload = import_sheet_to_vec(plain.as_bytes()).unwrap();
        assert_eq!(export_sheet_to_string(&upload).unwrap(), plain);
        assert_eq!(
            import_sheet_to_vec(sheet(true, "\n").as_bytes()).unwrap(),
            upload
        );
    }
}

#[test]
fn refusals() {
    let with = |rows: &str| import_sheet_to_vec(format!("{HEADER}\n{rows}").as_bytes());
    assert_eq!(with(""), Ok(Vec::new()));
    assert_eq!(import_sheet_to_vec(b""), Err(refusal(18, 1, 0)));
    assert_eq!(with("\n"), Err(refusal(18, 2, 0)));
    assert_eq!(with("1,2,3,4,8,x,a,b,c\n1,2"), Err(refusal(18, 2, 5)));
    assert_eq!(
        with("1,2,3,4,5,6,\u{20AC},\u{100},c"),
        Err(refusal(11, HEADER.len() + 17, 2))
    );
    let long = "x".repeat(65536);
    assert_eq!(
        with(&format!("1,2,3,4,5,6,a,{long},c")),
        Err(refusal(7, 65535, 65536))
    );
    let mut out = [7; 36];
    let sheet = format!("{HEADER}\n1,2,3,4,5,6,a,b,c");
    assert_eq!(
        import_sheet(sheet.as_bytes(), &mut out[..35]),
        Err(refusal(6, 36, 35))
    );
    assert_eq!(out, [7; 36]);
    assert_eq!(import_sheet(sheet.as_bytes(), &mut out), Ok(36));
}
