//! The declarations of the C header and of `raw`, as texts, against those of the proved source: the same fourteen functions, with the same
//! parameters in the same order, each type as the archive passes it.

mod common;

use common::file;

/// A function of the source: its name, its parameters with their types, and the type that it hands back.
struct Function {
    name: String,
    parameters: Vec<(String, String)>,
    result: String,
}

/// The text with one space for every run of them, and none at the ends of a list of parameters.
fn squeezed(text: &str) -> String {
    let words: Vec<&str> = text.split_whitespace().collect();
    words.join(" ").replace("( ", "(").replace(", )", ")").replace(" )", ")")
}

fn text_of(path: &str) -> String {
    String::from_utf8(file(path)).expect("a text")
}

fn function_of(declared: &str) -> Function {
    let (name, rest) = declared.split_once('(').expect("parameters");
    let (parameters, rest) = rest.split_once(')').expect("the end of the parameters");
    let result = rest.trim_start_matches(" -> ").split(' ').next().expect("a result");
    let pairs =
        squeezed(parameters).trim_end_matches(',').split(", ").map(str::to_string).collect::<Vec<_>>();
    let pair = |text: &String| {
        let (name, kind) = text.split_once(": ").expect("a type");
        (name.to_string(), kind.to_string())
    };
    Function {
        name: name.to_string(),
        parameters: pairs.iter().map(pair).collect(),
        result: result.to_string(),
    }
}

fn source() -> String {
    squeezed(&text_of("crates/bliskoru/src/lib.rt"))
}

/// The functions that the source exports, each behind the attribute by which it keeps its name.
fn exported() -> Vec<Function> {
    source().split("#[unsafe(no_mangle)] pub extern \"C\" fn ").skip(1).map(function_of).collect()
}

/// The name of a number's type in C.
fn c_number(kind: &str) -> &str {
    match kind {
        "u8" => "uint8_t",
        "u16" => "uint16_t",
        "u32" => "uint32_t",
        "i32" => "int32_t",
        "usize" => "size_t",
        _ => panic!("{kind} is no type that is handed over"),
    }
}

fn c_parameter((name, kind): &(String, String)) -> String {
    match kind.as_str() {
        "&[u8]" => format!("const uint8_t *{name}, size_t {name}_len"),
        "&mut [u8]" => format!("uint8_t *{name}, size_t {name}_len"),
        "&mut usize" => format!("size_t *{name}"),
        "&mut [u64; 18]" => format!("uint64_t *{name}"),
        "&mut [i64; 6]" => format!("int64_t *{name}"),
        _ => format!("{} {name}", c_number(kind)),
    }
}

fn raw_parameter((name, kind): &(String, String)) -> String {
    match kind.as_str() {
        "&[u8]" => format!("{name}: *const u8, {name}_len: usize"),
        "&mut [u8]" => format!("{name}: *mut u8, {name}_len: usize"),
        _ => format!("{name}: {}", kind.replace("&mut ", "*mut ")),
    }
}

fn listed(function: &Function, parameter: fn(&(String, String)) -> String) -> String {
    function.parameters.iter().map(parameter).collect::<Vec<_>>().join(", ")
}

/// The header without its comments.
fn header() -> String {
    let text = text_of("hosts/c/bliskoru.h");
    let mut parts = text.split("/*");
    let first = parts.next().unwrap_or_default();
    let behind_comments = parts.filter_map(|part| part.split_once("*/")).map(|(_, code)| code);
    squeezed(&(first.to_string() + &behind_comments.collect::<String>()))
}

#[test]
fn the_source_exports_fourteen_functions() {
    let functions = exported();
    assert_eq!(functions.len(), 14);
    assert_eq!(source().matches("no_mangle").count(), 14);
    assert_eq!(source().matches("extern \"C\"").count(), 14);
    assert!(functions.iter().all(|function| function.name.starts_with("bliskoru_")));
}

#[test]
fn the_header_declares_them_and_no_other() {
    let header = header();
    assert_eq!(header.matches("bliskoru_").count() - header.matches("enum bliskoru_").count(), 14);
    for function in exported() {
        let result = c_number(&function.result);
        let wanted = format!("{result} {}({});", function.name, listed(&function, c_parameter));
        assert!(header.contains(&wanted), "the header has no {wanted}");
    }
}

#[test]
fn raw_declares_them_and_no_other() {
    let raw = squeezed(&text_of("hosts/rust/src/raw.rs"));
    assert_eq!(raw.matches("pub fn ").count(), 14);
    for function in exported() {
        let parameters = listed(&function, raw_parameter);
        let wanted = format!("pub fn {}({parameters}) -> {};", function.name, function.result);
        assert!(raw.contains(&wanted), "raw has no {wanted}");
    }
}
