//! docs/TWAP.md works two contracts on paper: each row of its tables is a span of the
//! sample sheet that it names, and what it makes of them is the line on its list.

use independent::indicator::{spans, sum_by_spans, sum_by_walking, Span};
use independent::pricing::round_to_step;
use independent::sheet::Record;
use independent::tables::{metal_row, window_start};
use independent::{judge_sheet, Day};
use std::fs;

fn read(path: &str) -> Vec<u8> {
    fs::read(format!("{}/../{path}", env!("CARGO_MANIFEST_DIR"))).unwrap()
}

fn text(path: &str) -> String {
    String::from_utf8(read(path)).unwrap()
}

const HEAD: &str = "| From | To | Last trade | Bid | Offer | Indicator | Milliseconds | Product |";

/// The rows of the page's tables of spans, each table by the section that it is in.
fn tables() -> Vec<(String, Vec<Vec<String>>)> {
    let page = text("docs/TWAP.md");
    let sections = page.split("\n## ").skip(1);
    let cells = |line: &str| line.trim_matches('|').split('|').map(|cell| cell.trim().to_string()).collect();
    let table = |section: &str| {
        let lines = section.lines().skip_while(|line| *line != HEAD).skip(2);
        let rows: Vec<Vec<String>> = lines.take_while(|line| line.starts_with('|')).map(cells).collect();
        (!rows.is_empty()).then(|| (section.to_string(), rows))
    };
    sections.filter_map(table).collect()
}

/// A number with commas, as the page has it.
fn grouped(number: i128) -> String {
    let digits = number.unsigned_abs().to_string();
    let with_comma = |(place, digit): (usize, char)| {
        let comma = place > 0 && (digits.len() - place).is_multiple_of(3);
        if comma {
            format!(",{digit}")
        } else {
            digit.to_string()
        }
    };
    let shown: String = digits.chars().enumerate().map(with_comma).collect();
    if number < 0 {
        format!("-{shown}")
    } else {
        shown
    }
}

/// A time, and the clock at it.
fn clock(time: u32) -> String {
    let seconds = time / 1_000;
    assert_eq!(seconds * 1_000, time);
    let hours = seconds / 3_600;
    format!("{} ({hours:02}:{:02}:{:02})", grouped(time.into()), seconds / 60 % 60, seconds % 60)
}

/// A side of the book.
fn side(price: Option<i32>) -> String {
    price.map_or("none".to_string(), |price| grouped(price.into()))
}

/// The reference, and whether it is a trade of the day or the previous close.
fn last_trade(day: &Day, span: &Span) -> String {
    let is_trade = |record: &Record| matches!(record, Record::Trade(trade) if trade.instrument == SPREAD);
    let traded = day.records.iter().any(|record| is_trade(record) && record.time() <= span.from);
    let price = grouped(span.state.reference.unwrap().into());
    if traded {
        price
    } else {
        format!("none: previous close {price}")
    }
}

/// The row that the page must have for a span.
fn row(day: &Day, span: &Span) -> Vec<String> {
    vec![
        clock(span.from),
        clock(span.to),
        last_trade(day, span),
        side(span.state.bid),
        side(span.state.offer),
        grouped(span.indicator().unwrap()),
        grouped(span.milliseconds().into()),
        grouped(span.product().unwrap()),
    ]
}

/// The row of sums below them.
fn sums(spans: &[Span]) -> Vec<String> {
    let milliseconds: u32 = spans.iter().map(Span::milliseconds).sum();
    let products: i128 = spans.iter().map(|span| span.product().unwrap()).sum();
    let bold = [grouped(milliseconds.into()), grouped(products)].map(|sum| format!("**{sum}**"));
    let empty = vec![String::new(); 5];
    [empty, vec!["**sum**".to_string()], bold.to_vec()].concat()
}

/// M1's TWAP instrument, M1-M2, of which both tables are.
const SPREAD: u8 = 7;

/// The samples that the page works, in its order.
const SAMPLES: [&str; 2] = ["nickel", "copper"];

fn day_of(sample: &str) -> Day {
    judge_sheet(&read(&format!("examples/{sample}.sheet"))).unwrap()
}

fn start_of(day: &Day) -> u32 {
    window_start(metal_row(day.metal).unwrap(), SPREAD)
}

fn spans_of(day: &Day) -> Vec<Span> {
    spans(day, SPREAD, start_of(day)).collect()
}

#[test]
fn each_row_is_a_span_of_the_sample() {
    let tables = tables();
    assert_eq!(tables.len(), SAMPLES.len());
    for (sample, (section, rows)) in SAMPLES.iter().zip(tables) {
        assert!(section.contains(&format!("[examples/{sample}.sheet]")), "{sample}");
        let day = day_of(sample);
        let spans = spans_of(&day);
        let mut wanted: Vec<Vec<String>> = spans.iter().map(|span| row(&day, span)).collect();
        wanted.push(sums(&spans));
        assert_eq!(rows, wanted, "{sample}");
    }
}

/// A line of a sample's list, and the close on it.
fn line_of(sample: &str, contract: &str) -> (String, i128) {
    let list = text(&format!("examples/{sample}.list"));
    let line = list.lines().find(|line| line.starts_with(&format!("{contract} "))).unwrap();
    (line.to_string(), line.split(' ').nth(2).unwrap().parse().unwrap())
}

/// Below each table: M2's close, N by it and the sum that the walk gives, and M1's line.
#[test]
fn each_table_gives_the_line_of_the_list() {
    for (sample, (section, _)) in SAMPLES.iter().zip(tables()) {
        let day = day_of(sample);
        let sum = sum_by_walking(&day, SPREAD, start_of(&day)).unwrap();
        let (_, other) = line_of(sample, "M2");
        let (line, close) = line_of(sample, "M1");
        let exact = 300_000 * other + sum;
        assert_eq!(round_to_step(exact, 300_000, 1), close);
        assert!(section.contains(&format!("`{line}`")), "{line}");
        for number in [other, exact, close] {
            assert!(section.contains(&grouped(number)), "{number}");
        }
    }
}

/// The average of a day with something changed, over the window.
fn average(day: &Day) -> i128 {
    sum_by_spans(day, SPREAD, start_of(day)).unwrap() / 300_000
}

/// The numbers that the page has for mistakes: the average of the lines, the
/// previous close for the last trade, a bid that is kept.
#[test]
fn the_mistakes_have_their_numbers() {
    let nickel = spans_of(&day_of("nickel"));
    let of_lines = nickel.iter().map(|span| span.indicator().unwrap()).sum::<i128>() / 2;
    assert_eq!((nickel.len(), of_lines, 1_799_301 + of_lines), (2, -115, 1_799_186));
    assert_eq!(nickel[1].milliseconds(), 120_000);
    let mut untraded = day_of("copper");
    untraded.records.retain(|record| record.time() != 59_000_000);
    assert_eq!(average(&untraded), 340);
    let mut kept = day_of("copper");
    kept.records.retain(|record| record.instrument() != SPREAD || record.time() <= 60_120_000);
    assert_eq!(average(&kept), 395);
    let page = text("docs/TWAP.md");
    for number in ["-115 for -116, so 1,799,186", "120,000 ms", "340 for 380", "395 for 380"] {
        assert!(page.contains(number), "{number}");
    }
}
