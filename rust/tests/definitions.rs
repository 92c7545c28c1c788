//! The constants of this crate and of the C header are those of the definitions, which are read from their files.

use pinhkray::{
    Refusal, ANSWER_WORDS, MAX_BYTES, MAX_EXPRESSIONS, MAX_LISTS, TERM_BYTES, TREE_WORDS, VERSION,
};
use std::collections::BTreeSet;

fn file(name: &str) -> String {
    let path = format!("{}/../{name}", env!("CARGO_MANIFEST_DIR"));
    std::fs::read_to_string(&path).unwrap_or_else(|e| panic!("{path}: {e}"))
}

/// The numbers of a line, from left to right.
fn numbers(line: &str) -> Vec<usize> {
    let parts = line.split(|c: char| !c.is_ascii_digit());
    parts
        .filter(|part| !part.is_empty())
        .map(|part| part.parse().expect("a number"))
        .collect()
}

/// What stands behind the words that begin a line, which only one line does.
fn behind<'a>(text: &'a str, begin: &str) -> &'a str {
    let found: Vec<&str> = text
        .lines()
        .filter_map(|line| line.strip_prefix(begin))
        .collect();
    assert_eq!(found.len(), 1, "{begin}");
    found[0]
}

fn number(text: &str, begin: &str) -> usize {
    let found = numbers(behind(text, begin));
    assert_eq!(found.len(), 1, "{begin}");
    found[0]
}

#[test]
fn limits() {
    let header = file("include/pinhkray.h");
    let limits = file("crates/reading/specs/Limits.antt");
    for (name, definition, constant) in [
        ("BYTES", "max_bytes", MAX_BYTES),
        ("LISTS", "max_lists", MAX_LISTS),
        ("EXPRESSIONS", "max_nodes", MAX_EXPRESSIONS),
    ] {
        assert_eq!(
            number(&limits, &format!("{definition} = ")),
            constant,
            "{name}"
        );
        assert_eq!(
            number(&header, &format!("#define PINHKRAY_MAX_{name} ")),
            constant,
            "{name}"
        );
    }
}

#[test]
fn words_for_each_byte() {
    let header = file("include/pinhkray.h");
    assert_eq!(number(&header, "#define PINHKRAY_TREE_WORDS "), TREE_WORDS);
    assert_eq!(
        number(&header, "#define PINHKRAY_ANSWER_WORDS "),
        ANSWER_WORDS
    );

    let refusals = file("crates/refusals/specs/Refusals.antt");
    for (operation, tree, draft, out) in [
        ("read_one", 0, 0, TREE_WORDS),
        ("read_all", 0, 0, TREE_WORDS),
        ("sort", TREE_WORDS, 0, ANSWER_WORDS),
        ("expression", TREE_WORDS, 0, ANSWER_WORDS),
        ("bind", TREE_WORDS, 0, ANSWER_WORDS),
        ("solution", TREE_WORDS, ANSWER_WORDS, ANSWER_WORDS),
    ] {
        let defined = behind(&refusals, &format!("per_byte {operation} = "));
        assert_eq!(
            defined,
            format!("record {{ tree = {tree}; draft = {draft}; out = {out} }}"),
            "{operation}"
        );
    }
    assert_eq!(
        refusals
            .lines()
            .filter(|line| line.starts_with("per_byte "))
            .count(),
        6
    );
}

#[test]
fn refusals() {
    let answers = file("crates/reading/specs/Answer.antt");
    let names = answers.lines().filter(|line| {
        line.starts_with("number ")
            || line.starts_with("numbers_spent = ")
            || line.starts_with("not_words = ")
    });
    let defined: BTreeSet<usize> = names.flat_map(numbers).collect();
    let here: BTreeSet<usize> = Refusal::ALL
        .iter()
        .map(|refusal| refusal.number() as usize)
        .collect();
    assert_eq!(defined, here);

    let lists = file("crates/refusals/specs/Refusals.antt");
    for list in ["of_reading", "of_sort", "of_expr", "of_flatten"] {
        let listed = numbers(behind(&lists, &format!("{list} = ")));
        assert!(listed.iter().all(|number| here.contains(number)), "{list}");
    }

    let header = file("include/pinhkray.h");
    let list = header
        .split("enum pinhkray_refusal {")
        .nth(1)
        .expect("the refusals");
    let list = list.split("};").next().expect("the refusals");
    let named = list.lines().filter_map(|line| line.split_once(" = "));
    let there: BTreeSet<usize> = named.map(|(_, rest)| numbers(rest)[0]).collect();
    assert_eq!(there, here.iter().copied().chain([0]).collect());
}

#[test]
fn the_header_is_of_this_version() {
    let header = file("include/pinhkray.h");
    assert_eq!(number(&header, "#define PINHKRAY_TERM_BYTES "), TERM_BYTES);
    assert_eq!(
        number(&header, "#define PINHKRAY_VERSION "),
        VERSION as usize
    );
    let defined = file("crates/boundary/specs/Version.antt");
    assert_eq!(number(&defined, "version = "), VERSION as usize);
}
