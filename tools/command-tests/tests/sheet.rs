//! `sheet`: an upload as a table and back. tools/sheets tries other programs' tables.

mod common;

use std::fs;

use common::{fed, folder, program, repository};

const HEADER: &str = "group,offset,size,type id,flags,high,name,type,comment";

fn sheet(rows: &str) -> String {
    format!("{HEADER}\n{rows}")
}

#[test]
fn there_and_back() {
    let out = folder("sheet").join("there_and_back.bin");
    let _ = fs::remove_file(&out);
    let rows = "16448,4,2,2,0,0,MAIN.nAxis,INT,\"links, \"\"rechts\"\"\"\r\n16448,6,4,4,28663,65535,MAIN.fGrad,REAL,Grad °\r\n";
    let path = out.to_str().unwrap();
    let made = fed(
        program(&repository(), &["sheet", "import", "-", path]),
        sheet(rows).as_bytes(),
    );
    assert_eq!((made.status.code(), made.stdout), (Some(0), Vec::new()));
    let upload = fs::read(&out).unwrap();
    let back = fed(program(&repository(), &["sheet", "export", "-"]), &upload);
    assert_eq!(
        String::from_utf8(back.stdout).unwrap(),
        sheet(rows).replacen('\n', "\r\n", 1)
    );
    // Nothing is written over.
    let again = fed(
        program(&repository(), &["sheet", "import", "-", path]),
        sheet(rows).as_bytes(),
    );
    assert_eq!(again.status.code(), Some(2));
}

#[test]
fn refusals_in_words() {
    let out = folder("sheet").join("refused.bin");
    for (text, words) in [
        (
            String::new(),
            "refusal 18, bad sheet: its first row is not the header",
        ),
        (
            sheet("1,2,3,4,5,6,a,b"),
            "refusal 18, bad sheet: row 2 is not nine cells between commas",
        ),
        (
            sheet("1,2,3,4,8,x,a,b,c"),
            "refusal 18, bad sheet: row 2, column 5, flags",
        ),
        (
            sheet("1,2,3,4,5,6,a,b,c\n1,2,3,4294967296,5,6,a,b,c"),
            "refusal 18, bad sheet: row 3, column 4, type id",
        ),
        (
            sheet("1,2,3,4,5,6,a,b,\u{100}"),
            "refusal 11, text: at byte 71, a character that Windows-1252 lacks",
        ),
        (
            sheet(&format!("1,2,3,4,5,6,{},b,c", "x".repeat(65536))),
            "refusal 7, string or count too long",
        ),
    ] {
        let made = fed(
            program(
                &repository(),
                &["sheet", "import", "-", out.to_str().unwrap()],
            ),
            text.as_bytes(),
        );
        let said = String::from_utf8(made.stderr).unwrap();
        assert!(said.contains(words), "{said}");
        assert_eq!(made.status.code(), Some(1));
        assert!(!out.exists());
    }
}
