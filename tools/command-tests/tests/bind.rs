//! The addresses of variables, by their paths.

mod common;

use common::{Session, hexadecimal, repository};
use std::fs;

const FILES: [&str; 2] = ["samples/rig.bin", "samples/types.bin"];

fn asked<'a>(options: &[&'a str], paths: &[&'a str]) -> Vec<&'a str> {
    [&["bind"][..], options, &FILES, paths].concat()
}

#[test]
fn addresses_of_the_rig() {
    let paths = [
        "MAIN.stLens",
        "MAIN.stLens.stZoom.fEnd",
        "main.STLENS.atable[3].FZOOM",
        "MAIN.stLens.aTable[3]",
        "MAIN.stLens.aTable",
        "MAIN.stLens.stZoom.aPoints[-2].fIris",
    ];
    let mut session = Session::new(repository());
    session.run(&asked(&[], &paths));
    session.run(&asked(&["--json"], &paths));
    session.run(&asked(&["--checked"], &paths[1..2]));
    session.hold("bind.txt");
}

#[test]
fn refused_paths_keep_their_lines() {
    let paths = [
        "NoSuchSymbol",
        "MAIN.stLens.nope",
        "MAIN.stLens.aTable[99].fZoom",
        "MAIN.stLens.aTable[3,1]",
        "MAIN.stLens.aTable.fZoom",
        "MAIN.stLens.stZoom.fEnd.none",
        "MAIN.stLens..fEnd",
        "MAIN.stLens.aTable[x]",
        "MAIN.stLens.stZoom.fEnd",
    ];
    let mut session = Session::new(repository());
    session.run(&asked(&[], &paths));
    session.run(&asked(&["--json"], &paths));
    session.hold("bind-refused.txt");
}

#[test]
fn uploads_in_any_form() {
    let types = fs::read(repository().join(FILES[1])).unwrap();
    let path = "MAIN.stLens.stZoom.fEnd";
    let mut session = Session::new(repository());
    session.run_on(&["bind", FILES[0], "-", path], &types);
    session.run_on(
        &["bind", FILES[0], "-", path],
        hexadecimal(&types).as_bytes(),
    );
    session.run(&[
        "bind",
        "--hex",
        "samples/rig.hex",
        "samples/types.hex",
        path,
    ]);
    session.run(&["bind", "-", "-", path]);
    session.run(&["bind", FILES[0]]);
    session.run(&["bind", FILES[0], FILES[1]]);
    session.run_on(&["bind", FILES[0], "-", path], &[0; 4]);
    session.hold("bind-forms.txt");
}
