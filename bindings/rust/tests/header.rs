//! src/sys.rs against bindings/c/vindaskot.h: every function with its parameters, every constant with its value.

mod common;

use std::collections::BTreeMap;

use common::file;

#[allow(dead_code, reason = "the interface's number is all that is looked at")]
#[path = "../src/sys.rs"]
mod sys;

/// A C source without its comments, in one line of words.
fn c_words(source: &str) -> String {
    let mut text = String::new();
    for (i, piece) in source.split("/*").enumerate() {
        let code = if i == 0 {
            piece
        } else {
            piece.split_once("*/").unwrap().1
        };
        text.push_str(code);
    }
    let code = text.lines().filter(|line| !line.starts_with('#'));
    let words: Vec<_> = code.flat_map(str::split_whitespace).collect();
    words.join(" ")
}

/// A C parameter as Rust declares it, the constants in its brackets by their values.
fn c_parameter(parameter: &str, constants: &BTreeMap<String, u64>) -> String {
    let (kind, name) = parameter.trim().rsplit_once([' ', '*']).unwrap();
    let pointer = parameter.contains('*');
    let kind = kind.trim_end_matches([' ', '*']);
    let rust = |kind: &str| match kind {
        "size_t" => "usize".to_string(),
        "bool" => "bool".to_string(),
        _ => kind.replace("uint", "u").replace("_t", ""),
    };
    if let Some(length) = name.strip_suffix(']') {
        // uint64_t slots[VINDASKOT_AT_LEAST VINDASKOT_SYMBOL_SLOTS]: the name ends before the bracket.
        let length = constants[length.strip_prefix("VINDASKOT_").unwrap()];
        let (kind, name) = kind.split_once('[').unwrap().0.split_once(' ').unwrap();
        return format!("{name}: &mut [{}; {length}]", rust(kind));
    }
    match (pointer, kind.strip_prefix("const ")) {
        (false, _) => format!("{name}: {}", rust(kind)),
        (true, Some(kind)) => format!("{name}: *const {}", rust(kind)),
        (true, None) if kind == "size_t" => format!("{name}: &mut usize"),
        (true, None) => format!("{name}: *mut {}", rust(kind)),
    }
}

/// The functions that the header declares, each with its parameters.
fn c_functions(source: &str) -> BTreeMap<String, Vec<String>> {
    let words = &c_words(source);
    let constants = c_constants(source, words);
    let declarations = words.split("uint32_t vindaskot_").skip(1);
    let function = |declaration: &str| {
        let (name, rest) = declaration.split_once('(').unwrap();
        let parameters = rest.split_once(')').unwrap().0;
        let parameters = parameters.split(',').filter(|&part| part != "void");
        let parameters = parameters.map(|part| c_parameter(part, &constants));
        (format!("vindaskot_{name}"), parameters.collect())
    };
    declarations.map(function).collect()
}

/// The functions that sys.rs declares, all of which give a u32.
fn rust_functions(source: &str) -> BTreeMap<String, Vec<String>> {
    let declarations = source.split("pub fn ").skip(1);
    let function = |declaration: &str| {
        let (name, rest) = declaration.split_once('(').unwrap();
        let (parameters, rest) = rest.split_once(')').unwrap();
        assert!(rest.starts_with(" -> u32;"), "{name}");
        let lines = parameters.lines().flat_map(|line| line.split(", "));
        let parameters = lines.map(|part| part.trim().trim_end_matches(','));
        let parameters = parameters.filter(|part| !part.is_empty());
        (name.to_string(), parameters.map(str::to_string).collect())
    };
    declarations.map(function).collect()
}

fn number(text: &str) -> u64 {
    let text = text.trim_end_matches('u').replace('_', "");
    match text.strip_prefix("0x") {
        Some(digits) => u64::from_str_radix(digits, 16).unwrap(),
        None => text.parse().unwrap(),
    }
}

/// The constants of the header, without their prefix: enumerators by their order, definitions by their value.
fn c_constants(source: &str, words: &str) -> BTreeMap<String, u64> {
    let enums = words.split("enum {").skip(1);
    let enumerators = enums.flat_map(|list| {
        let list = list.split_once('}').unwrap().0;
        list.split(',').map(str::trim).map(str::to_string).zip(0..)
    });
    let definitions = source.lines().filter_map(|line| {
        let mut words = line.strip_prefix("#define ")?.split(' ');
        let (name, value) = (words.next()?, words.next()?);
        value
            .starts_with(|first: char| first.is_ascii_digit())
            .then(|| (name.to_string(), number(value)))
    });
    let bare = |(name, value): (String, u64)| {
        (name.strip_prefix("VINDASKOT_").unwrap().to_string(), value)
    };
    enumerators.chain(definitions).map(bare).collect()
}

fn rust_constants(source: &str) -> BTreeMap<String, u64> {
    let declarations = source.split("pub const ").skip(1);
    let constant = |declaration: &str| {
        let (name, rest) = declaration.split_once(':').unwrap();
        let value = rest.split_once("= ").unwrap().1.split_once(';').unwrap().0;
        (name.to_string(), number(value))
    };
    declarations.map(constant).collect()
}

#[test]
fn the_functions_are_those_of_the_header() {
    let c = c_functions(&file("../c/vindaskot.h"));
    let rust = rust_functions(&file("src/sys.rs"));
    assert!(!c.is_empty());
    assert_eq!(rust, c);
}

#[test]
fn the_constants_are_those_of_the_header() {
    let source = file("../c/vindaskot.h");
    let c = c_constants(&source, &c_words(&source));
    assert!(!c.is_empty());
    assert_eq!(rust_constants(&file("src/sys.rs")), c);
}

/// The flags of a word, by their names, as the proved crate has them.
fn proved_flags(module: &str, word: &str) -> BTreeMap<String, u64> {
    let source = file(&format!("../../crates/flags/src/{module}.rt"));
    let (_, flags) = source.split_once(word).unwrap();
    let (flags, _) = flags.split_once("\n    }").unwrap();
    let flag = |declaration: &str| {
        let (name, bits) = declaration.split_once(" = ").unwrap();
        let (bits, _) = bits.split_once(';').unwrap();
        (name.to_string(), number(bits))
    };
    flags.split("const ").skip(1).map(flag).collect()
}

#[test]
fn the_flags_are_those_of_the_proved_crate() {
    let constants = rust_constants(&file("src/sys.rs"));
    let words = [
        ("SYMBOL_FLAG_", "symbol_flags", "impl AdsSymbolFlags: u16 {"),
        (
            "SYMBOL2_FLAG_",
            "symbol_flags",
            "impl AdsSymbol2Flags: u32 {",
        ),
        ("TYPE_FLAG_", "type_flags", "impl AdsTypeFlags: u32 {"),
    ];
    for (prefix, module, word) in words {
        let named = constants.iter().filter_map(|(name, &value)| {
            let flag = name.strip_prefix(prefix)?;
            Some((flag.to_string(), value))
        });
        let proved = proved_flags(module, word);
        assert!(!proved.is_empty());
        assert_eq!(named.collect::<BTreeMap<_, _>>(), proved, "{word}");
    }
}

/// The header's number, the name that the linker asks for and the archive's own answer are of one interface.
#[test]
fn the_archive_has_the_interface_of_the_header() {
    let source = file("src/sys.rs");
    let (_, declared) = source.split_once("static NEEDED: ").unwrap();
    let (_, needed) = declared.split_once(" = ").unwrap();
    let name = format!("vindaskot_interface_{};", sys::INTERFACE);
    assert!(needed.starts_with(&name), "{name}");
    // SAFETY: the call takes nothing.
    assert_eq!(unsafe { (sys::NEEDED)() }, sys::INTERFACE);
}
