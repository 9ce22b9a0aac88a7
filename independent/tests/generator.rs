//! What the generator makes: accepted sheets are accepted, faults are refused
//! as they were meant to be, every number and every kind of answer comes up.

use independent::draft::{ended_sheet, header, long_header};
use independent::field::{Field, Quote, Trade};
use independent::generator::fault::sheet_with_fault;
use independent::generator::sized::sized_sheet;
use independent::generator::{accepted_sheet, damaged_sheet, random_sheet};
use independent::indicator::{spans, sum_by_spans};
use independent::pricing::{exact_price, named_contract, price_day_by_spans, step_of, Method};
use independent::random::Random;
use independent::sheet::Record;
use independent::stream::{cases, frames, stream_of_cases, tally};
use independent::tables::{in_window, metal_row, window_start, CONTRACTS, WINDOW};
use independent::{closing_list, judge_sheet, read_field, Answer, Day};
use std::collections::HashMap;

/// The program that answers the stream reads so many bytes of it.
const STREAM_LIMIT: usize = 1_048_576;

fn accepted_days(count: u64) -> impl Iterator<Item = Day> {
    (0..count).map(|item| {
        let sheet = accepted_sheet(&mut Random::for_item(5, item));
        judge_sheet(&sheet).expect("an accepted sheet")
    })
}

#[test]
fn faults_are_refused_as_they_were_made() {
    for number in (1..=12).chain([18]) {
        let rounds = if number == 1 { 3 } else { 1_500 };
        for item in 0..rounds {
            let made = sheet_with_fault(&mut Random::for_item(u64::from(number), item), number);
            let judged = judge_sheet(&made.sheet).map(|_| ());
            assert_eq!(made.number, number);
            assert_eq!(judged, Err((number, made.byte)), "{:?}", made.sheet);
        }
    }
}

/// The field that a faulty sheet was made for, without any test of its values.
fn faulty_field(sheet: &[u8], byte: usize) -> Field {
    independent::field::take_field(sheet, byte).expect("a whole field").0
}

/// Every barred instrument in every kind of field, alone at fault and with more.
#[test]
fn i4_every_barred_instrument_comes_up_in_every_kind_of_field() {
    let mut counts: HashMap<(Option<u8>, u8, &str, bool), usize> = HashMap::new();
    for item in 0..4_000 {
        let made = sheet_with_fault(&mut Random::for_item(18, item), 18);
        let Ok((Field::Header(header), _)) = read_field(&made.sheet, 0) else { panic!("a header") };
        let (kind, instrument) = match faulty_field(&made.sheet, made.byte) {
            Field::PreviousClose(close) => ("close", close.instrument),
            Field::Trade(trade) => ("trade", trade.instrument),
            Field::Quote(quote) => ("quote", quote.instrument),
            other => panic!("{other:?}"),
        };
        let alone = read_field(&made.sheet, made.byte).is_ok();
        *counts.entry((header.third, instrument, kind, alone)).or_default() += 1;
    }
    assert_eq!(counts.len(), 2 * 4 * 3 * 2);
    assert!(counts.values().all(|count| *count >= 20), "{counts:?}");
}

/// Second headers of either form behind either form.
#[test]
fn i5_both_headers_come_up_in_one_sheet() {
    let mut counts: HashMap<(bool, bool), usize> = HashMap::new();
    for item in 0..2_000 {
        let made = sheet_with_fault(&mut Random::for_item(5, item), 5);
        let is_header = |byte: usize| matches!(made.sheet.get(byte), Some(1 | 6));
        if made.byte > 0 && made.byte + 7 < made.sheet.len() && is_header(made.byte) {
            let key = (made.sheet[0] == 6, made.sheet[made.byte] == 6);
            *counts.entry(key).or_default() += 1;
        }
    }
    assert_eq!(counts.len(), 4);
    assert!(counts.values().all(|count| *count >= 30), "{counts:?}");
}

/// A third of all headers are long, and 0, 1 and 2 are as often in them.
#[test]
fn i9_long_headers_are_a_third() {
    let mut counts: HashMap<Option<u8>, usize> = HashMap::new();
    accepted_days(3_600).for_each(|day| *counts.entry(day.third).or_default() += 1);
    assert!((2_200..2_600).contains(&counts[&None]), "{counts:?}");
    for third in 0..=2 {
        assert!((330..480).contains(&counts[&Some(third)]), "{counts:?}");
    }
}

/// How often each contract gets each answer: method and whether its price is
/// on an exact half, or the number of its refusal.
fn kinds_of_answers(day: &Day, kinds: &mut HashMap<(usize, String), usize>) {
    let mut closes = [0; 6];
    for (contract, answer) in price_day_by_spans(day).into_iter().enumerate() {
        let kind = match answer {
            Answer::Priced { method, price, .. } if named_contract(day) == Some(contract) => {
                closes[contract] = i128::from(price);
                format!("3M's {}", method.name())
            }
            Answer::Refused { number, .. } => format!("refused {number}"),
            Answer::Priced { method, price, .. } => {
                let (exact, _) = exact_price(day, contract, &closes, sum_by_spans);
                let exact = exact.unwrap();
                let over = 2 * exact.sum + exact.divisor * step_of(day, contract);
                let half = over % (2 * exact.divisor * step_of(day, contract)) == 0;
                closes[contract] = i128::from(price);
                format!("{}{}", method.name(), if half { " half" } else { "" })
            }
        };
        *kinds.entry((contract, kind)).or_default() += 1;
    }
}

#[test]
fn every_kind_of_answer_comes_up_for_every_contract() {
    let mut kinds = HashMap::new();
    for day in accepted_days(9_000) {
        kinds_of_answers(&day, &mut kinds);
    }
    for contract in 0..6 {
        let wanted = ["VWAP", "TWAP", "VWAP half", "TWAP half", "refused 13", "refused 14"];
        for kind in wanted {
            let count = kinds.get(&(contract, kind.to_string())).copied();
            assert!(count.unwrap_or(0) >= 20, "{contract} {kind}: {count:?}");
        }
    }
    for (contract, kind) in [(1, "3M's VWAP"), (1, "3M's TWAP"), (3, "3M's VWAP"), (3, "3M's TWAP")] {
        let count = kinds.get(&(contract, kind.to_string())).copied();
        assert!(count.unwrap_or(0) >= 100, "{contract} {kind}: {count:?}");
    }
}

#[test]
fn every_metal_mark_edge_and_side_comes_up() {
    let mut metals = [0; 6];
    let mut marks = 0;
    let mut edges: HashMap<(bool, i64), usize> = HashMap::new();
    let mut sides = [0; 4];
    for day in accepted_days(2_000) {
        let metal = metal_row(day.metal).unwrap();
        metals[usize::from(day.metal)] += 1;
        marks |= day.marks;
        for record in &day.records {
            for (anchor, start) in [(false, metal.spread_start), (true, metal.anchor_start)] {
                let from = i64::from(record.time()) - i64::from(start);
                *edges.entry((anchor, from)).or_default() += 1;
            }
            if let Record::Quote(quote) = record {
                sides[usize::from(quote.sides)] += 1;
            }
        }
    }
    assert!(metals[1..].iter().all(|count| *count > 200));
    assert_eq!(marks, 0x07FF);
    assert!(sides.iter().all(|count| *count > 200));
    let window = i64::from(WINDOW);
    for edge in [-1, 0, 1, window - 1, window] {
        assert!(edges[&(false, edge)] > 100 && edges[&(true, edge)] > 100, "{edge}");
    }
}

/// The answers with the record at a place changed or taken out are others.
fn decides(day: &Day, place: usize, change: fn(Record) -> Option<Record>) -> bool {
    let mut changed = day.clone();
    let record = changed.records.remove(place);
    if let Some(record) = change(record) {
        changed.records.insert(place, record);
    }
    price_day_by_spans(&changed) != price_day_by_spans(day)
}

/// The same quote with neither side.
fn emptied(record: Record) -> Option<Record> {
    match record {
        Record::Quote(quote) => Some(Record::Quote(Quote { sides: 0, bid: 0, offer: 0, ..quote })),
        trade => Some(trade),
    }
}

/// How the quotes of an instrument lie to its window: how many come before it
/// and inside it; and on how many sheets one that rests at its start decides an
/// answer, and an empty one, before it or inside it, takes away what would.
#[derive(Debug, Default)]
struct Quotes {
    before: usize,
    inside: usize,
    resting: usize,
    emptied_before: usize,
    emptied_inside: usize,
}

impl Quotes {
    fn count(&mut self, day: &Day, instrument: u8) {
        let start = window_start(metal_row(day.metal).unwrap(), instrument);
        let quotes = day.records.iter().enumerate().filter_map(|(place, record)| match record {
            Record::Quote(quote) if quote.instrument == instrument => Some((place, *quote)),
            _ => None,
        });
        let (before, others): (Vec<_>, Vec<_>) = quotes.partition(|(_, quote)| quote.time < start);
        let inside: Vec<_> = others.into_iter().filter(|(_, quote)| in_window(start, quote.time)).collect();
        let empties = |(place, quote): &(usize, Quote)| quote.sides == 0 && decides(day, *place, |_| None);
        self.before += before.len();
        self.inside += inside.len();
        self.resting += usize::from(before.last().is_some_and(|(place, _)| decides(day, *place, emptied)));
        self.emptied_before += usize::from(before.last().is_some_and(empties));
        self.emptied_inside += usize::from(inside.iter().any(empties));
    }
}

#[test]
fn g1_quotes_come_before_the_window_as_often_as_inside_it() {
    for row in &CONTRACTS {
        let mut quotes = Quotes::default();
        accepted_days(900).for_each(|day| quotes.count(&day, row.twap_from));
        let least = (quotes.before + quotes.inside) * 2 / 5;
        assert!(quotes.before >= least && quotes.inside >= least, "{} {quotes:?}", row.name);
        assert!(quotes.resting >= 40, "{} {quotes:?}", row.name);
        assert!(quotes.emptied_before >= 5 && quotes.emptied_inside >= 20, "{} {quotes:?}", row.name);
    }
}

/// A contract's price where it goes by TWAP.
fn twap_price(day: &Day, contract: usize) -> Option<i64> {
    match price_day_by_spans(day)[contract] {
        Answer::Priced { method: Method::Twap, price, .. } => Some(price),
        _ => None,
    }
}

/// The same day with the record at a place given another time.
fn at_time(day: &Day, place: usize, time: u32) -> Day {
    let mut changed = day.clone();
    changed.records[place] = match changed.records[place] {
        Record::Trade(trade) => Record::Trade(Trade { time, ..trade }),
        Record::Quote(quote) => Record::Quote(Quote { time, ..quote }),
    };
    changed.records.sort_by_key(Record::time);
    changed
}

/// The same day with the record at a place behind those of its millisecond.
fn made_last(day: &Day, place: usize) -> Day {
    let mut changed = day.clone();
    let record = changed.records.remove(place);
    let behind = changed.records.partition_point(|other| other.time() <= record.time());
    changed.records.insert(behind, record);
    changed
}

/// On how many days a contract's TWAP tells where its spans begin: it is another
/// price with a record one millisecond off, at the window's start, at start + 1,
/// at the last millisecond and right behind it; and with another order of the
/// records of one millisecond. And on how many it has five spans or more.
#[derive(Debug, Default)]
struct Cuts {
    start: usize,
    second: usize,
    last: usize,
    behind: usize,
    at_once: usize,
    five_spans: usize,
}

impl Cuts {
    fn count(&mut self, day: &Day, contract: usize) {
        let Some(price) = twap_price(day, contract) else {
            return;
        };
        let instrument = CONTRACTS[contract].twap_from;
        let start = window_start(metal_row(day.metal).unwrap(), instrument);
        let behind = start + WINDOW;
        let tells = |changed: Day| twap_price(&changed, contract).is_some_and(|other| other != price);
        let own = |place: &usize| day.records[*place].instrument() == instrument;
        let places: Vec<usize> = (0..day.records.len()).filter(own).collect();
        let moved = |from: u32, to: u32| {
            let mut there = places.iter().filter(|place| day.records[**place].time() == from);
            usize::from(there.any(|place| tells(at_time(day, *place, to))))
        };
        self.start += moved(start, start + 1);
        self.second += moved(start + 1, start);
        self.last += moved(behind - 1, behind);
        self.behind += moved(behind, behind - 1);
        let mut inside = places.iter().filter(|place| in_window(start, day.records[**place].time()));
        self.at_once += usize::from(inside.any(|place| tells(made_last(day, *place))));
        self.five_spans += usize::from(spans(day, instrument, start).count() >= 5);
    }
}

#[test]
fn k1_to_k4_twaps_tell_where_their_spans_begin() {
    for (contract, row) in CONTRACTS.iter().enumerate() {
        let mut cuts = Cuts::default();
        accepted_days(1_800).for_each(|day| cuts.count(&day, contract));
        let edges = [cuts.start, cuts.second, cuts.last, cuts.behind];
        assert!(edges.iter().all(|count| *count >= 25), "{} {cuts:?}", row.name);
        assert!(cuts.at_once >= 40 && cuts.five_spans >= 40, "{} {cuts:?}", row.name);
    }
}

/// Lots of exactly 4 and 5 over more than one spread.
#[test]
fn split_lots_come_up() {
    let mut split = HashMap::new();
    for day in accepted_days(3_000) {
        for answer in price_day_by_spans(&day) {
            if let Answer::Priced { method, lots, .. } = answer {
                let key = (method == Method::Vwap, lots);
                *split.entry(key).or_insert(0) += 1;
            }
        }
    }
    assert!(split[&(true, 5)] > 300 && split[&(false, 4)] > 300 && split[&(false, 0)] > 300);
}

#[test]
fn damaged_sheets_are_mostly_refused_and_never_panic() {
    let mut refused = 0;
    for item in 0..4_000 {
        let sheet = damaged_sheet(&mut Random::for_item(8, item));
        refused += usize::from(judge_sheet(&sheet).is_err());
        assert!(!closing_list(&sheet).is_empty());
    }
    assert!(refused > 3_000, "{refused}");
}

#[test]
fn every_number_of_a_sheet_but_1_is_in_the_stream() {
    let sheets = cases(1, 2_300);
    let lent: Vec<&[u8]> = sheets.iter().map(Vec::as_slice).collect();
    let counts = tally(&lent);
    assert_eq!(counts[1], 0, "1 needs more bytes than the stream allows");
    for number in (2..=15).chain([18]) {
        assert!(counts[number] >= 20, "{number}: {}", counts[number]);
    }
    assert!(counts[0] > 1_000);
}

/// Refusal 1 needs more than 1,048,576 bytes; it is made for library use only.
#[test]
fn refusal_1_is_made_outside_the_stream() {
    let made = sheet_with_fault(&mut Random::new(1), 1);
    assert!(made.sheet.len() > 1_048_576);
    assert_eq!(judge_sheet(&made.sheet), Err((1, 0)));
}

#[test]
fn the_stream_stays_small_and_reads_back() {
    let sheets = cases(1, 2_300);
    assert!(sheets.iter().all(|sheet| sheet.len() <= 65_537));
    assert!(sheets.iter().any(|sheet| sheet.len() == 65_536));
    let large = sheets.iter().filter(|sheet| sheet.len() >= 10_000).count();
    assert!(large >= 3, "{large}");
    let stream = stream_of_cases(&sheets);
    assert!(stream.len() <= STREAM_LIMIT, "{}", stream.len());
    let read: Vec<Vec<u8>> = frames(&stream).unwrap().iter().map(|sheet| sheet.to_vec()).collect();
    assert_eq!(read, sheets);
    assert_eq!(frames(&stream[..3]), Err(0));
}

#[test]
fn a_case_depends_on_its_seed_and_place_only() {
    assert_eq!(cases(9, 1_200)[..1_100], cases(9, 1_100)[..]);
    assert_ne!(cases(9, 1_100), cases(10, 1_100));
    let first = random_sheet(&mut Random::for_item(9, 0));
    assert!(cases(9, 1_100).contains(&first));
}

#[test]
fn sized_sheets_have_their_size() {
    assert_eq!(sized_sheet(&mut Random::new(1), 12), None);
    for item in 0..20 {
        let short = sized_sheet(&mut Random::new(item), 13).unwrap();
        assert_eq!(short.len(), ended_sheet(&[header(1, 0)]).len());
        let long = sized_sheet(&mut Random::new(item), 14).unwrap();
        assert_eq!(long.len(), ended_sheet(&[long_header(1, 0, 0)]).len());
    }
    for bytes in [200, 1_000, 65_535, 65_536, 65_537, 1_048_576] {
        let sheet = sized_sheet(&mut Random::new(3), bytes).unwrap();
        assert_eq!(sheet.len(), bytes);
        assert!(judge_sheet(&sheet).is_ok());
    }
    let over = sized_sheet(&mut Random::new(3), 1_048_577).unwrap();
    assert_eq!(judge_sheet(&over), Err((1, 0)));
}

/// Every cut of some random sheets: 2 at a byte that is no later than the cut.
#[test]
fn every_cut_of_random_sheets_is_2() {
    for item in 0..40 {
        let sheet = accepted_sheet(&mut Random::for_item(12, item));
        for length in 0..sheet.len() {
            let judged = judge_sheet(&sheet[..length]).map(|_| ());
            assert!(matches!(judged, Err((2, byte)) if byte <= length && length - byte < 17));
        }
    }
}
