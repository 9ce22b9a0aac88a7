//! The commands as a user runs them.

use independent::generator::tapes::{sized_tape, tape, TapeKind};
use independent::named::moves::named_moves;
use independent::named::tapes::NICKEL_TAPE;
use independent::named::{nickel_sheet, third_wednesday_sheet, NICKEL_LIST};
use independent::stream::{cases, shifted, stream_of_cases, stream_of_pairs, turned};
use std::io::Write;
use std::process::{Command, Output, Stdio};

fn run(words: &[&str], pieces: &[&[u8]]) -> Output {
    let mut child = Command::new(env!("CARGO_BIN_EXE_independent"))
        .args(words)
        .stdin(Stdio::piped())
        .stdout(Stdio::piped())
        .stderr(Stdio::piped())
        .spawn()
        .unwrap();
    let mut input = child.stdin.take().unwrap();
    for piece in pieces {
        if input.write_all(piece).and_then(|()| input.flush()).is_err() {
            break;
        }
    }
    drop(input);
    child.wait_with_output().unwrap()
}

fn printed(words: &[&str], pieces: &[&[u8]]) -> String {
    let output = run(words, pieces);
    assert!(output.status.success());
    String::from_utf8(output.stdout).unwrap()
}

#[test]
fn d6_a_sheet_may_come_in_pieces() {
    let sheet = nickel_sheet();
    let pieces: Vec<&[u8]> = sheet.chunks(7).collect();
    assert_eq!(printed(&["list"], &pieces), NICKEL_LIST);
    assert_eq!(printed(&["list"], &[]), "refused 2 0\n");
}

#[test]
fn d1_too_long() {
    assert_eq!(printed(&["list"], &[&[0; 65_536]]), "refused 3 0\n");
    assert_eq!(printed(&["list"], &[&[0; 65_537]]), "too long\n");
    assert_eq!(printed(&["list"], &[&[0; 2_000_000]]), "too long\n");
}

#[test]
fn a_stream_is_answered_and_judged() {
    let mut stream = vec![0, 0, 0, 130];
    stream.extend(nickel_sheet());
    stream.extend([0, 0, 0, 0]);
    stream.extend([0, 0, 0, 1, 9]);
    let expected = format!("{NICKEL_LIST}\nrefused 2 0\n\nrefused 2 0\n\n");
    assert_eq!(printed(&["answer"], &[&stream]), expected);
    assert_eq!(printed(&["answer-by-spans"], &[&stream]), expected);
    let judged = "accepted 1 0 11\nrefused 2 0\nrefused 2 0\n";
    assert_eq!(printed(&["judge"], &[&stream]), judged);
    assert!(!run(&["judge"], &[&stream[..50]]).status.success());
}

/// A label, the empty sheet, a header and its end, the same priced, and one
/// byte too many priced; the two long sheets of zeros are always there.
#[test]
fn sheets_written_as_digits_are_judged_and_priced() {
    let text = "# two\n\n01 0003 04 0000 050004 00000001\n\
                =01 0003 04 07FF 02 0005 00 00000032 050004 00000002\n=010003040000 05000400000001 00\n";
    let late = "refused 15 0";
    let priced = format!("3M TWAP 50 0\nM3 refused 13 0\nM2 {late}\nM4 {late}\nM1 {late}\nCash {late}\n");
    let zeros = "# B17 as many zero bytes as a sheet may have, and one more\nrefused 3 0\nrefused 1 0\n";
    let expected = format!("# two\nrefused 2 0\naccepted 4 0 2\n{priced}refused 5 13\n{zeros}");
    assert_eq!(printed(&["sheet-cases"], &[text.as_bytes()]), expected);
    for wrong in ["010\n", "0g\n"] {
        assert!(!run(&["sheet-cases"], &[wrong.as_bytes()]).status.success());
    }
}

/// Some of its lines, by hand; the whole text is compared with the proved
/// program's.
#[test]
fn single_fields_are_read_written_and_walked_over() {
    let text = printed(&["field-cases"], &[&nickel_sheet()]);
    let lines: Vec<&str> = text.lines().collect();
    assert_eq!(lines.len(), 78);
    for line in [
        "refused 2 18446744073709551615 0",
        "field 1048583 3",
        "field 8: 7 7 1 0 3 1 2 3",
        "refused 16 3: 7 7 7 7 7 7 7 7",
        "field 7: 5 0 4 255 255 255 255 7",
        "78: field 95 14",
        "123: field 130 4",
        "130: refused 2 130 0",
        "field 8: 7 6 0 4 1 2 3 2",
        "refused 16 2: 7 7 7 7 7 7 7 7",
        "7: field 21 11",
    ] {
        assert!(lines.contains(&line), "{line}");
    }
}

#[test]
fn the_commands_write_what_the_library_makes() {
    assert_eq!(run(&["cases", "3", "500"], &[]).stdout, stream_of_cases(&cases(3, 500)));
    assert_eq!(run(&["shifted", "3", "20"], &[]).stdout, stream_of_pairs(&shifted(3, 20)));
    assert_eq!(run(&["turned", "3", "20"], &[]).stdout, stream_of_pairs(&turned(3, 20)));
    assert_eq!(run(&["sized", "3", "65537"], &[]).stdout.len(), 65_537);
    assert_eq!(printed(&["turns", "3", "20"], &[]).lines().count(), 20);
    assert_eq!(printed(&["shifts", "3", "20"], &[]).lines().count(), 20);
}

/// What a command writes to both outputs; it never fails.
fn outputs(words: &[&str], input: &[u8]) -> (Vec<u8>, String) {
    let output = run(words, &[input]);
    assert!(output.status.success());
    (output.stdout, String::from_utf8(output.stderr).unwrap())
}

#[test]
fn texts_and_sheets_are_turned() {
    let (to_sheet, to_tape) = (&["tape-to-sheet"][..], &["sheet-to-tape"][..]);
    let told = |text: &str| (Vec::new(), text.to_string());
    assert_eq!(outputs(to_sheet, NICKEL_TAPE.as_bytes()), (nickel_sheet(), String::new()));
    assert_eq!(outputs(to_tape, &nickel_sheet()), (NICKEL_TAPE.as_bytes().to_vec(), String::new()));
    assert_eq!(outputs(to_sheet, b""), told("refused 5 1\n"));
    assert_eq!(outputs(to_sheet, b"METAL,Tin,0\n"), told("refused 17 1\n"));
    assert_eq!(outputs(to_sheet, b"METAL,Zinc,0,3\n"), told("refused 6 1\n"));
    assert_eq!(outputs(to_sheet, b"METAL,Zinc,0,1\nPREV,M3-3M,1.00\n"), told("refused 18 2\n"));
    assert_eq!(outputs(to_tape, &nickel_sheet()[..129]), told("refused 2 123\n"));
    assert_eq!(outputs(to_sheet, &[b'7'; 3_145_728]), told("refused 17 1\n"));
    assert_eq!(outputs(to_sheet, &[b'7'; 3_145_729]), told("too long\n"));
    assert_eq!(outputs(to_tape, &[0; 1_048_576]), told("refused 3 0\n"));
    assert_eq!(outputs(to_tape, &[0; 1_048_577]), told("too long\n"));
}

#[test]
fn sheets_are_moved() {
    let (to_new, to_old) = (&["to-new-header"][..], &["to-old-header"][..]);
    let told = |text: &str| (Vec::new(), text.to_string());
    let nickel = nickel_sheet();
    let moved = [&[6, 0, 4, 1, 0, 0, 0], &nickel[6..]].concat();
    assert_eq!(outputs(to_new, &nickel), (moved.clone(), String::new()));
    assert_eq!(outputs(to_old, &moved), (nickel.clone(), String::new()));
    assert_eq!(outputs(to_new, &moved), told("refused 19 0\n"));
    assert_eq!(outputs(to_old, &nickel), told("refused 19 0\n"));
    assert_eq!(outputs(to_old, &third_wednesday_sheet()), told("refused 19 0\n"));
    for words in [to_new, to_old] {
        assert_eq!(outputs(words, b""), told("refused 2 0\n"));
        assert_eq!(outputs(words, &nickel[..129]), told("refused 2 123\n"));
        assert_eq!(outputs(words, &moved[..130]), told("refused 2 124\n"));
        assert_eq!(outputs(words, &[0; 1_048_576]), told("refused 3 0\n"));
        assert_eq!(outputs(words, &[0; 1_048_577]), told("too long\n"));
    }
}

/// The longest sheet with the old header is 1, and a byte less can be moved.
#[test]
fn the_longest_sheets_are_moved() {
    let cases = named_moves().into_iter().filter(|case| case.to_new && case.sheet.first() == Some(&1));
    let longest: Vec<_> = cases.filter(|case| case.sheet.len() >= 1_048_575).collect();
    let of = |bytes: usize| longest.iter().find(|case| case.sheet.len() == bytes).unwrap();
    let (output, error) = outputs(&["to-new-header"], &of(1_048_575).sheet);
    assert_eq!((Ok(output), error), (of(1_048_575).told.clone(), String::new()));
    let refused = outputs(&["to-new-header"], &of(1_048_576).sheet);
    assert_eq!(refused, (Vec::new(), "refused 1 0\n".to_string()));
}

#[test]
fn texts_are_written_as_the_library_makes_them() {
    for (word, kind) in [("canonical", TapeKind::Canonical), ("damaged", TapeKind::Damaged)] {
        let texts: Vec<Vec<u8>> = (0..20).map(|number| tape(3, number, kind)).collect();
        assert_eq!(run(&["tapes", "3", "20", word], &[]).stdout, stream_of_cases(&texts));
    }
    assert_eq!(run(&["sized-tape", "3", "5000"], &[]).stdout, sized_tape(3, 5_000));
}

#[test]
fn a_wrong_command_is_told_so() {
    for words in [&["price"][..], &[], &["cases", "x", "1"], &["cases", "1"], &["tapes", "1", "2", "new"]] {
        let output = run(words, &[]);
        assert!(!output.status.success() && !output.stderr.is_empty());
    }
}
