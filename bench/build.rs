//! Links the archive that tools/bench names and, where BEFORE named one, an earlier archive under names of its own.
use std::env::var;
use std::fs::read_to_string;

fn link(folder: &str, name: &str) {
    println!("cargo:rerun-if-changed={folder}/lib{name}.a");
    println!("cargo:rustc-link-search=native={folder}");
    println!("cargo:rustc-link-lib=static={name}");
}

fn main() {
    println!("cargo:rerun-if-env-changed=VINDASKOT_ARCHIVE");
    println!("cargo:rerun-if-env-changed=VINDASKOT_BEFORE");
    println!("cargo:rustc-check-cfg=cfg(before, before_1)");
    let folder = var("VINDASKOT_ARCHIVE").expect("run tools/bench, which builds the archive");
    link(&folder, "vindaskot");
    if let Ok(folder) = var("VINDASKOT_BEFORE") {
        link(&folder, "before");
        println!("cargo:rustc-cfg=before");
        let names = read_to_string(format!("{folder}/names")).expect("tools/bench lists the names");
        let mut names = names.lines().filter_map(|line| line.split(' ').next());
        // In interface 1 no call had a number at the end of its name.
        if names.any(|name| name == "vindaskot_symbol_step") {
            println!("cargo:rustc-cfg=before_1");
        }
    }
}
