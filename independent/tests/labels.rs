//! Every label that a case has in front of it has a row in docs/CASES.md, and
//! the row says where the case runs.

use independent::named::moves::named_moves;
use independent::named::tapes::{large_tapes, large_untapes, named_tapes, named_untapes};
use independent::named::{large_cases, named_cases, NamedCase};
use std::collections::{HashMap, HashSet};
use std::fs;
use std::path::PathBuf;

fn repository() -> PathBuf {
    PathBuf::from(env!("CARGO_MANIFEST_DIR")).join("..")
}

fn text(path: &str) -> String {
    fs::read_to_string(repository().join(path)).unwrap()
}

/// The rows: what stands in the last column, by label.
fn rows() -> HashMap<String, Vec<String>> {
    let page = text("docs/CASES.md");
    let cells = page.lines().filter_map(|line| line.strip_prefix("| ")?.strip_suffix(" |"));
    let rows = cells.map(|line| line.split(" | ").collect::<Vec<_>>()).filter(|cells| cells.len() == 3);
    let places = |cell: &str| cell.split(", ").map(String::from).collect();
    rows.map(|cells| (cells[0].to_string(), places(cells[2]))).collect()
}

/// Is this a label: a letter of the page and a number, or F-8?
fn is_label(word: &str) -> bool {
    let number = word.strip_prefix(['A', 'B', 'C', 'D', 'E', 'F', 'G', 'H', 'I', 'J', 'K', 'P', 'R']);
    let number = number.map(|number| number.strip_prefix('-').unwrap_or(number));
    number.is_some_and(|number| !number.is_empty() && number.bytes().all(|byte| byte.is_ascii_digit()))
}

/// The labels in a name or a comment, `slip 1` among them.
fn labels_in(line: &str) -> Vec<String> {
    let words: Vec<&str> = line.split([' ', ',', ':', ';', '.']).collect();
    let labels = words.iter().filter(|word| is_label(word)).map(|word| word.to_string());
    let slips = words.windows(2).filter(|pair| pair[0] == "slip" && pair[1].parse::<u8>().is_ok());
    labels.chain(slips.map(|pair| pair.join(" "))).collect()
}

/// The labels of a test's name: `a10_a11_..`, and `p1_to_p3_..` with what lies between.
fn labels_of_test(name: &str) -> Vec<String> {
    let words: Vec<String> = name.split(['_', '(']).map(str::to_uppercase).collect();
    let labels: Vec<String> = words.iter().filter(|word| is_label(word)).cloned().collect();
    let number = |label: &String| label[1..].parse::<u32>().unwrap();
    match labels.as_slice() {
        [first, last] if words.contains(&"TO".to_string()) => {
            (number(first)..=number(last)).map(|row| format!("{}{row}", &first[..1])).collect()
        }
        _ => labels,
    }
}

/// The comments of a file: what stands behind the first `#` of a line.
fn comments(path: &str) -> HashSet<String> {
    let text = text(path);
    let comments = text.lines().filter_map(|line| line.split_once('#'));
    comments.flat_map(|(_, comment)| labels_in(comment)).collect()
}

fn labels_of_names(cases: &[NamedCase]) -> HashSet<String> {
    cases.iter().flat_map(|case| labels_in(&case.name)).collect()
}

fn labels_of_moves() -> HashSet<String> {
    named_moves().iter().flat_map(|case| labels_in(&case.name)).collect()
}

fn labels_of_tapes() -> HashSet<String> {
    let cases = [named_tapes(), named_untapes(), large_tapes(), large_untapes()];
    cases.iter().flatten().flat_map(|case| labels_in(&case.name)).collect()
}

fn labels_of_edges() -> HashSet<String> {
    let tables = ["answers", "fields", "heads", "moves", "sheets"];
    tables.iter().flat_map(|table| comments(&format!("hosts/edges/{table}.txt"))).collect()
}

fn labels_of_tests() -> HashSet<String> {
    let files = fs::read_dir(repository().join("independent/tests")).unwrap();
    let texts = files.map(|file| fs::read_to_string(file.unwrap().path()).unwrap());
    let names = |text: String| {
        let names = text.lines().filter_map(|line| line.strip_prefix("fn ")).flat_map(labels_of_test);
        names.collect::<Vec<_>>()
    };
    texts.flat_map(names).collect()
}

/// Where labels occur, and which.
fn occurring() -> [(&'static str, HashSet<String>); 8] {
    [
        ("cases", labels_of_names(&named_cases())),
        ("compare", labels_of_names(&large_cases())),
        ("sheet_cases", comments("crates/sheet_cases/stdout")),
        ("field_cases", comments("crates/field_cases/stdout")),
        ("edges", labels_of_edges()),
        ("tapes", labels_of_tapes()),
        ("moves", labels_of_moves()),
        ("tests", labels_of_tests()),
    ]
}

#[test]
fn every_label_has_a_row_that_says_where_it_runs() {
    let rows = rows();
    let occurring = occurring();
    assert!(occurring.iter().all(|(_, labels)| !labels.is_empty()));
    let pairs = occurring.iter().flat_map(|(place, labels)| labels.iter().map(move |label| (place, label)));
    for (place, label) in pairs {
        let row = rows.get(label).unwrap_or_else(|| panic!("{label} of {place} has no row"));
        assert!(row.iter().any(|named| named == place), "{label} runs in {place} too");
    }
}

#[test]
fn every_row_runs_where_it_says() {
    let occurring = occurring();
    let runs = |label: &str, place: &str| match place {
        "proved" => label.starts_with(['G', 'P']),
        _ => occurring.iter().any(|(name, labels)| *name == place && labels.contains(label)),
    };
    for (label, places) in rows().into_iter().filter(|(label, _)| !labels_in(label).is_empty()) {
        assert!(places.iter().all(|place| runs(&label, place)), "{label} in {places:?}");
        assert_eq!(places.contains(&"proved".to_string()), label.starts_with(['G', 'P']), "{label}");
    }
}
