//! The words of each refusal, a line a refusal in words.txt, and what the command prints of refusals.

use std::fs;
use std::path::Path;

/// The number and the name of each refusal, which its words begin with.
fn names(words: &str) -> Vec<&str> {
    let names = words.lines().map(|line| line.split(':').next().unwrap());
    names.collect()
}

/// The places of a text where the words of a refusal begin.
fn told(text: &str) -> impl Iterator<Item = &str> {
    let places = text.match_indices("refusal ").map(|(at, _)| &text[at..]);
    places.filter(|from| from["refusal ".len()..].starts_with(|next: char| next.is_ascii_digit()))
}

/// There are twenty-four, numbered from 1 on, and whatever the command prints of one begins with its number and name.
#[test]
fn a_refusal_has_one_name() {
    let expected = Path::new(env!("CARGO_MANIFEST_DIR")).join("tests/expected");
    let words = fs::read_to_string(expected.join("words.txt")).unwrap();
    let names = names(&words);
    assert_eq!(names.len(), 24);
    for (number, name) in (1..).zip(&names) {
        assert!(name.starts_with(&format!("refusal {number}, ")), "{name}");
    }
    let mut seen = 0;
    for file in fs::read_dir(&expected).unwrap() {
        let file = file.unwrap().path();
        let text = String::from_utf8_lossy(&fs::read(&file).unwrap()).into_owned();
        for from in told(&text) {
            let line = from.lines().next().unwrap();
            assert!(
                names.iter().any(|name| line.starts_with(name)),
                "{file:?}: {line}"
            );
            seen += 1;
        }
    }
    assert!(seen > names.len());
}
