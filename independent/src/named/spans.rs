//! K1 to K12: what a sum from record to record gets wrong most easily, mostly by
//! M3-3M on the flat Copper sheet. 300,000 for a millisecond are 1 cent of a
//! close, and 150,000 are half a cent, which goes up.

use super::pricing::{all_at, m3, m3_list, FLAT};
use super::{case, copper, copper_until, flat, flat_of, flat_without, lines};
use super::{Metal, NamedCase, ANCHOR, COPPER, METALS, SPREAD};
use crate::draft::{close, ended_sheet, header, quote, trade};
use crate::field::{Field, BID, OFFER};

pub(super) fn cases() -> Vec<NamedCase> {
    let mut cases = first_span();
    cases.extend(first_millisecond());
    cases.extend(last_millisecond());
    cases.extend(one_millisecond_of_3m());
    cases.extend(behind_the_window());
    cases.extend(one_cut());
    cases.extend(other_instruments());
    cases.extend(two_spreads_in_turn());
    cases.extend(standing());
    cases.extend(one_span());
    cases.extend(greatest_span());
    cases.extend(no_reference());
    cases.extend(each_millisecond());
    cases.extend(each_millisecond_of_3m());
    cases.extend(other_window());
    cases.extend(every_metal());
    cases.extend(unequal());
    cases.extend(below_zero());
    cases.extend(halves_below_zero());
    cases.extend(every_spread());
    cases
}

/// 12:00:00.
const NOON: u32 = 43_200_000;
/// The window's last millisecond and the first behind it, from its start on.
const LAST: u32 = 299_999;
const BEHIND: u32 = 300_000;

/// M3-3M so many milliseconds behind the window's start: traded with 1 lot, or
/// quoted with a bid alone, an offer alone, or neither.
fn traded(after: u32, price: i32) -> Field {
    trade(SPREAD + after, 1, price, 1)
}

fn bid(after: u32, price: i32) -> Field {
    quote(SPREAD + after, 1, BID, price, 0)
}

fn offer(after: u32, price: i32) -> Field {
    quote(SPREAD + after, 1, OFFER, 0, price)
}

fn empty(after: u32) -> Field {
    quote(SPREAD + after, 1, 0, 0, 0)
}

/// 3M quoted with a bid alone, so many milliseconds behind the anchor start.
fn bid_3m(after: u32, price: i32) -> Field {
    quote(ANCHOR + after, 0, BID, price, 0)
}

/// K1: the first span begins at the window's start, with what every record up to
/// and at that millisecond leaves.
fn first_span() -> Vec<NamedCase> {
    let before = |price: i32| trade(SPREAD - 1, 1, price, 900);
    let rests = quote(NOON, 1, BID, 10, 0);
    let both = [traded(0, -300_000), bid(0, -150_000)];
    let two = [before(600_000), traded(0, 300_000)];
    let stood = [before(30), traded(100_000, 60)];
    vec![
        m3("K1 a trade at the start", &[traded(0, 300_000)], "1200000", 1),
        m3("K1 an offer at the start", &[offer(0, -300_000)], "600000", 0),
        m3("K1 a trade and a bid at the start", &both, "750000", 1),
        m3("K1 a trade at start - 1 and one at the start", &two, "1200000", 1),
        m3("K1 a bid since noon counts until the first record", &[rests, bid(100_000, 40)], "900030", 0),
        m3("K1 a trade at start - 1 counts until the first record", &stood, "900050", 1),
    ]
}

/// K2: a record at start + 1 leaves a first span of one millisecond.
fn first_millisecond() -> Vec<NamedCase> {
    let made = |name: &str, first: i32, next: i32, price: &str| {
        m3(name, &[traded(0, first), traded(1, next)], price, 2)
    };
    vec![
        m3("K2 a trade at start + 1", &[traded(1, 300_000)], "1199999", 1),
        made("K2 trades at the start and at start + 1", 450_000, 150_000, "1050001"),
        made("K2 half a cent by the first millisecond", 150_000, 0, "900001"),
        made("K2 less by the first millisecond", 149_999, 0, "900000"),
        made("K2 half a cent down by the first millisecond", -150_000, 0, "900000"),
        made("K2 more down by the first millisecond", -150_001, 0, "899999"),
    ]
}

/// K2: a record at start + 299,999 begins a last span of one millisecond.
fn last_millisecond() -> Vec<NamedCase> {
    let made = |name: &str, last: i32, price: &str| m3(name, &[traded(LAST, last)], price, 1);
    let lifted = [bid(150_001, 1), bid(LAST, 2)];
    let lowered = [bid(150_000, 1), empty(LAST)];
    let both_ends = [traded(0, 300_000), traded(1, 0), traded(LAST, 600_000)];
    vec![
        made("K2 half a cent by the last millisecond", 150_000, "900001"),
        made("K2 less by the last millisecond", 149_999, "900000"),
        made("K2 half a cent down by the last millisecond", -150_000, "900000"),
        made("K2 more down by the last millisecond", -150_001, "899999"),
        m3("K2 the last millisecond lifts the sum to the half", &lifted, "900001", 0),
        m3("K2 the last millisecond takes it below the half", &lowered, "900000", 0),
        m3("K2 a span of one millisecond at each end", &both_ends, "900003", 3),
    ]
}

/// K1, K2: of 3M. 25 cents are half of its step, and 7,500,000 for a millisecond
/// are 25 cents.
fn one_millisecond_of_3m() -> Vec<NamedCase> {
    let traded = |name: &str, after: u32, price: i32, close: &str| {
        let rest = format!("TWAP {close} 0");
        let list = copper([&format!("TWAP {close} 1"), &rest, &rest, &rest, &rest, &rest]);
        case(name, flat(&[trade(ANCHOR + after, 0, price, 1)]), &list)
    };
    vec![
        traded("K1 3M: half a step from the anchor start on", 0, 900_025, "900050"),
        traded("K2 3M: half a step from the anchor start + 1 on", 1, 900_025, "900000"),
        traded("K2 3M: half a step by the last millisecond", LAST, 8_400_000, "900050"),
        traded("K2 3M: less by the last millisecond", LAST, 8_399_999, "900000"),
    ]
}

/// K3: what comes at start + 300,000 or later begins no span and lengthens none.
fn behind_the_window() -> Vec<NamedCase> {
    let last_and_behind = [traded(LAST, 300_000), traded(BEHIND, 600_000)];
    let at_the_days_end = [bid(150_000, 10), quote(86_399_999, 1, 0, 0, 0)];
    let five_lots = [bid(150_000, 10), trade(SPREAD + BEHIND, 1, 300_000, 5)];
    vec![
        m3("K3 a trade at start + 300,000", &[traded(BEHIND, 300_000)], "900000", 0),
        m3("K3 trades at the last millisecond and behind it", &last_and_behind, "900001", 1),
        m3("K3 a bid, and none at start + 300,000", &[bid(0, 10), empty(BEHIND)], "900010", 0),
        m3("K3 a bid, and none at the day's end", &at_the_days_end, "900005", 0),
        m3("K3 a bid, and five lots at start + 300,000", &five_lots, "900005", 0),
    ]
}

/// K4: records of one millisecond begin one span, with what all of them leave.
fn one_cut() -> Vec<NamedCase> {
    let trades = [traded(100_000, 900), traded(100_000, -900), traded(100_000, 30)];
    let mixed = [traded(100_000, 60), bid(100_000, 90), traded(100_000, 30), offer(100_000, 45)];
    let quoted_first = [bid(100_000, 90), traded(100_000, 60)];
    let at_both = [traded(0, 900_000), traded(0, 300_000), traded(1, 600_000), traded(1, 0)];
    let last = [bid(LAST, 600_000), bid(LAST, 300_000)];
    let of_another = quote(SPREAD + 150_000, 2, BID, 500, 0);
    let between = [bid(150_000, 70), of_another, bid(150_000, 10)];
    vec![
        m3("K4 three trades of one millisecond", &trades, "900020", 3),
        m3("K4 trade, bid, trade and offer of one millisecond", &mixed, "900020", 2),
        m3("K4 a bid and a trade below it at once", &quoted_first, "900060", 1),
        m3("K4 two trades at the start, two at start + 1", &at_both, "900001", 4),
        m3("K4 two bids of the last millisecond", &last, "900001", 0),
        m3("K4 two bids at once, another spread's between them", &between, "900005", 0),
    ]
}

/// K5: a bid of 30 from 100,000 to 250,000, and records of other instruments
/// between its coming and its going.
fn other_instruments() -> Vec<NamedCase> {
    let between = |others: &[Field]| flat(&[&[bid(100_000, 30)], others, &[empty(250_000)]].concat());
    let time = SPREAD + 200_000;
    let of_all: Vec<Field> =
        (0..12).filter(|other| *other != 1).map(|other| quote(time, other, 0, 0, 0)).collect();
    let rest = "TWAP 900015 0";
    let with_m2 = |m2: &str| copper([FLAT, rest, m2, rest, rest, rest]);
    vec![
        case("K5 a quote of M2-3M between two", between(&[quote(time, 2, BID, 999, 0)]), &with_m2(rest)),
        case(
            "K5 a trade of M2-3M between two",
            between(&[trade(time, 2, 999, 1)]),
            &with_m2("TWAP 900015 1"),
        ),
        case("K5 a trade of 3M between two", between(&[trade(time, 0, 900_000, 9)]), &with_m2(rest)),
        case("K5 a quote of all others between two", between(&of_all), &with_m2(rest)),
    ]
}

/// K5: M3-3M is at 10 and 40 for 120,000 each, so 20 on average; M2-M3 at 20 for
/// 120,000 and at 80 for 60,000, so 24.
fn two_spreads_in_turn() -> Vec<NamedCase> {
    let of_m2 = |after: u32, price: i32| quote(SPREAD + after, 3, BID, price, 0);
    let records = [bid(60_000, 10), of_m2(120_000, 20), bid(180_000, 40), of_m2(240_000, 80)];
    let rest = "TWAP 900044 0";
    let list = copper([FLAT, "TWAP 900020 0", rest, "TWAP 900020 0", rest, rest]);
    vec![case("K5 two spreads quoted in turn", flat(&records), &list)]
}

/// K6: a trade leaves the book, a quote leaves the reference; each begins a span,
/// also where the indicator stays.
fn standing() -> Vec<NamedCase> {
    let around_bid = [bid(0, 40), traded(100_000, 70), traded(200_000, 10)];
    let around_offer = [offer(0, -40), traded(100_000, -70), traded(200_000, 20)];
    let below_bid = [bid(0, 40), traded(100_000, 10), traded(200_000, 25)];
    let restated = [bid(100_000, 30), bid(150_000, 30), bid(LAST, 30)];
    let at_bid = [bid(0, 30), traded(150_000, 30), empty(225_000)];
    let over_trade = [traded(60_000, 20), bid(120_000, 50), empty(180_000)];
    vec![
        m3("K6 trades above and below a standing bid", &around_bid, "900050", 2),
        m3("K6 trades below and above a standing offer", &around_offer, "899950", 2),
        m3("K6 trades below a standing bid leave it", &below_bid, "900040", 2),
        m3("K6 the same bid three times", &restated, "900020", 0),
        m3("K6 a trade at the standing bid, which then goes", &at_bid, "900030", 1),
        m3("K6 a bid comes and goes above a trade", &over_trade, "900022", 1),
    ]
}

/// A Copper sheet of previous closes alone: 3M and the five TWAP spreads.
fn closes_alone(prices: [i32; 6]) -> Vec<u8> {
    let mut fields = vec![header(COPPER, 0)];
    fields.extend(
        [0, 1, 3, 5, 7, 11].into_iter().zip(prices).map(|(instrument, price)| close(instrument, price)),
    );
    ended_sheet(&fields)
}

/// K7: one span of 300,000 milliseconds.
fn one_span() -> Vec<NamedCase> {
    let closes = closes_alone([900_000, 10, 20, -30, 40, -50]);
    let prices = ["900000", "900010", "900030", "900040", "900070", "900020"];
    let prices = prices.map(|price| format!("TWAP {price} 0"));
    let sold = trade(NOON, 1, 25, 900);
    let offered = quote(NOON, 1, OFFER, 0, 15);
    vec![
        case("K7 previous closes alone", closes, &copper(prices.each_ref().map(String::as_str))),
        m3("K7 records before the window alone", &[sold, offered], "900015", 0),
        m3("K7 records before the window and behind it", &[sold, traded(BEHIND, 99)], "900025", 0),
    ]
}

/// K7: 300,000 times the greatest and the least prices; 99,999,950 is on 3M's step.
fn greatest_span() -> Vec<NamedCase> {
    let most = 9_999_999;
    let sheet = closes_alone([99_999_950, -most, most, -most, -most, most]);
    let high = "TWAP 99999950 0";
    let low = "TWAP 89999951 0";
    vec![case("K7 the greatest prices alone", sheet, &copper([high, low, high, high, low, high]))]
}

/// K8: without a reference over the first span the contract is 13.
fn no_reference() -> Vec<NamedCase> {
    let made = |name: &str, records: &[Field], list: &str| case(name, flat_without(1, records), list);
    let refused = |lots: u32| copper_until(&[FLAT, &format!("refused 13 {lots}")]);
    let later = [traded(1, 100), traded(2, 100), traded(150_000, 100)];
    let quoted = [bid(0, 100), traded(1, 100)];
    let from_start = [traded(0, 450_000), traded(1, 150_000)];
    let priced = m3_list("TWAP 1050001 2", "1050001");
    let m1 = flat_without(7, &[trade(SPREAD + 1, 7, 100, 1)]);
    let outright = flat_without(0, &[trade(ANCHOR + LAST, 0, 900_000, 1)]);
    let m1_list = copper_until(&[FLAT, FLAT, FLAT, FLAT, "refused 13 1"]);
    vec![
        made("K8 no close, trades from start + 1 on", &later, &refused(3)),
        made("K8 no close, a bid at the start, a trade at start + 1", &quoted, &refused(1)),
        made("K8 no close, a trade at the last millisecond", &[traded(LAST, 100)], &refused(1)),
        made("K8 no close, trades at the start and at start + 1", &from_start, &priced),
        case("K8 M1: no close, a trade at start + 1", m1, &m1_list),
        case("K8 3M: no close, a trade at the last millisecond", outright, &copper_until(&["refused 13 1"])),
    ]
}

/// K9: ten bids of 30,000, 60,000 and so on to 300,000, a millisecond each, are
/// 1,650,000: 5 cents and a half.
fn each_millisecond() -> Vec<NamedCase> {
    let ten =
        |from: u32| (0..10).map(|place| bid(from + place, 30_000 * (place as i32 + 1))).collect::<Vec<_>>();
    let first = [ten(0), vec![empty(10)]].concat();
    let last = ten(299_990);
    let mut less_first = first.clone();
    less_first[0] = bid(0, 29_999);
    let mut less_last = last.clone();
    less_last[9] = bid(LAST, BEHIND as i32 - 1);
    let in_turn: Vec<Field> =
        (0..100).map(|after| if after % 2 == 0 { bid(after, 3_000) } else { empty(after) }).collect();
    vec![
        m3("K9 the first ten milliseconds", &first, "900006", 0),
        m3("K9 the first ten, a cent less", &less_first, "900005", 0),
        m3("K9 the last ten milliseconds", &last, "900006", 0),
        m3("K9 the last ten, a cent less", &less_last, "900005", 0),
        m3("K9 a bid every other millisecond, fifty times", &in_turn, "900001", 0),
    ]
}

/// K9: 500,000, 1,000,000 and so on to 2,500,000 above 900,000, a millisecond
/// each, are 7,500,000: half of 3M's step.
fn each_millisecond_of_3m() -> Vec<NamedCase> {
    let five = |less: i32| {
        let mut records: Vec<Field> =
            (0..5).map(|place| bid_3m(place, 900_000 + 500_000 * (place as i32 + 1) - less)).collect();
        records.push(quote(ANCHOR + 5, 0, 0, 0, 0));
        flat(&records)
    };
    vec![
        case("K9 3M: the first five milliseconds", five(0), &all_at("900050")),
        case("K9 3M: the first five, a cent less each", five(1), &all_at("900000")),
    ]
}

/// K10: spreads have the spread window, 3M the anchor window.
fn other_window() -> Vec<NamedCase> {
    let bid_then = bid(150_000, 10);
    let late = [bid_then, trade(ANCHOR, 1, 300_000, 4), bid(BEHIND + 1, 600_000), empty(BEHIND + 150_000)];
    let early = [trade(SPREAD, 0, 900_500, 3), bid_then, trade(SPREAD + 150_000, 0, 900_100, 3)];
    let outright = |time: u32, price: i32| quote(time, 0, BID, price, 0);
    let both = [
        outright(SPREAD + 150_000, 900_100),
        bid_then,
        outright(ANCHOR + 150_000, 900_200),
        bid(BEHIND + 150_000, 90),
    ];
    let list = |first: &str, rest: &str| copper([first, rest, rest, rest, rest, rest]);
    vec![
        m3("K10 a spread's records in the anchor window", &late, "900005", 0),
        case("K10 3M traded in the spread window", flat(&early), &list("TWAP 900100 0", "TWAP 900105 0")),
        case("K10 both quoted in both windows", flat(&both), &list("TWAP 900150 0", "TWAP 900155 0")),
    ]
}

/// K10: one millisecond of each window. M3-3M at 300,000 is 1 cent; 3M 15,000,000
/// above 900,000 is 50 cents, on the half of Nickel's 100.
fn every_metal() -> Vec<NamedCase> {
    let of = |time: u32, instrument: u8, price: i32| quote(time, instrument, BID, price, 0);
    let none = |time: u32, instrument: u8| quote(time, instrument, 0, 0, 0);
    let made = |(metal, name, spread, anchor, outright): Metal| {
        let outright_list = format!("TWAP {outright} 0");
        let rest = format!("TWAP {} 0", outright + 1);
        let list = lines(name, [&outright_list, &rest, &rest, &rest, &rest, &rest]);
        let first =
            [of(spread, 1, 300_000), none(spread + 1, 1), of(anchor, 0, 15_900_000), none(anchor + 1, 0)];
        let last = [
            of(spread + LAST, 1, 300_000),
            of(spread + BEHIND, 1, 600_000),
            of(anchor + LAST, 0, 15_900_000),
            of(anchor + BEHIND, 0, 50_000_000),
        ];
        [
            case(&format!("K10 the first millisecond of {name}'s windows"), flat_of(metal, 0, &first), &list),
            case(&format!("K10 the last millisecond of {name}'s windows"), flat_of(metal, 0, &last), &list),
        ]
    };
    METALS.into_iter().flat_map(made).collect()
}

/// K11: spans weigh by their milliseconds, not by their number.
fn unequal() -> Vec<NamedCase> {
    let three = [bid(0, 10), bid(299_000, 1_000), bid(LAST, 100_000)];
    let mut hundred: Vec<Field> = (0..100).map(|after| bid(after, 10)).collect();
    hundred.push(bid(100, 70));
    let mut restated: Vec<Field> = (0..10).map(|place| bid(3_000 * place, 30)).collect();
    restated.push(empty(30_000));
    let trades = [traded(0, 100), traded(3_000, 200), traded(6_000, 300), traded(9_000, 7)];
    let minute = flat(&[bid_3m(0, 900_500), quote(ANCHOR + 60_000, 0, 0, 0, 0)]);
    vec![
        m3("K11 299,000 milliseconds, 999 and 1", &three, "900014", 0),
        m3("K11 a hundred short spans and a long one", &hundred, "900070", 0),
        m3("K11 a bid given ten times in half a minute", &restated, "900003", 0),
        m3("K11 three trades in nine seconds and a fourth", &trades, "900013", 4),
        case("K11 3M: a minute of five", minute, &all_at("900100")),
    ]
}

/// The list of the flat sheet with this M4, on which nothing goes.
fn m4_list(price: &str) -> String {
    copper([FLAT, FLAT, FLAT, &format!("TWAP {price} 0"), FLAT, FLAT])
}

/// The marks of M3-3M and of M3-M4.
const M3_3M: u16 = 0x0001;
const M3_M4: u16 = 0x0010;

/// K12: -100 for 60,000, the bid of -40 for 120,000 and the offer of -130 for
/// 120,000 are -26,400,000, which is -88 on average.
fn below_zero() -> Vec<NamedCase> {
    let on = |spread: u8| {
        let bid = quote(SPREAD + 60_000, spread, BID, -40, 0);
        [trade(NOON, spread, -100, 1), bid, quote(SPREAD + 180_000, spread, OFFER, 0, -130)]
    };
    let m3_marked = flat_of(COPPER, M3_3M, &on(1));
    let m4_marked = flat_of(COPPER, M3_M4, &on(5));
    let around = [traded(0, -300_000), traded(150_000, 300_000)];
    let reversed = flat_of(COPPER, M3_3M, &[traded(0, -450_000), traded(1, -150_000)]);
    vec![
        m3("K12 prices below 0", &on(1), "899912", 0),
        case("K12 prices below 0, marked", m3_marked, &m3_list("TWAP 900088 0", "900088")),
        case("K12 M4: prices below 0", flat(&on(5)), &m4_list("900088")),
        case("K12 M4: prices below 0, marked", m4_marked, &m4_list("899912")),
        m3("K12 as far below 0 as above it", &around, "900000", 2),
        case("K12 the first millisecond, marked", reversed, &m3_list("TWAP 1050001 2", "1050001")),
    ]
}

/// K12: -150,000 for the last millisecond, half a cent down or, turned round, up.
fn halves_below_zero() -> Vec<NamedCase> {
    let sheet =
        |marks: u16, spread: u8| flat_of(COPPER, marks, &[quote(SPREAD + LAST, spread, OFFER, 0, -150_000)]);
    vec![
        case("K12 half a cent below 0", sheet(0, 1), &m3_list(FLAT, "900000")),
        case("K12 half a cent below 0, marked", sheet(M3_3M, 1), &m3_list("TWAP 900001 0", "900001")),
        case("K12 M4: half a cent below 0", sheet(0, 5), &m4_list("900001")),
        case("K12 M4: half a cent below 0, marked", sheet(M3_M4, 5), &m4_list("900000")),
    ]
}

/// K12: a bid of 10 for 240,000, 180,000, 120,000, 60,000 and 30,000 milliseconds
/// on the five TWAP spreads: 8, 6, 4, 2 and 1 on average.
fn every_spread() -> Vec<NamedCase> {
    let bids = [(1, 60_000), (3, 120_000), (5, 180_000), (7, 240_000), (11, 270_000)];
    let bids = bids.map(|(spread, after)| quote(SPREAD + after, spread, BID, 10, 0));
    let list = |prices: [&str; 5]| {
        let prices = prices.map(|price| format!("TWAP {price} 0"));
        let [m3, m2, m4, m1, cash] = prices.each_ref().map(String::as_str);
        copper([FLAT, m3, m2, m4, m1, cash])
    };
    let plain = list(["900008", "900014", "900004", "900016", "900017"]);
    let turned = list(["899992", "899986", "899996", "899984", "899983"]);
    vec![
        case("K12 every TWAP spread bid for", flat(&bids), &plain),
        case("K12 every TWAP spread bid for, marked", flat_of(COPPER, 0x0455, &bids), &turned),
    ]
}
