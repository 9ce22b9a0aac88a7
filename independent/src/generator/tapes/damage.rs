//! The kinds of damage, by name.

use super::parts::Parts;
use super::{bytes, lines, names, numerals, values};
use crate::random::Random;

/// Damage to a text, by its items or by its bytes.
#[derive(Clone, Copy)]
enum Work {
    Items(fn(&mut Random, &mut Parts)),
    Bytes(fn(&mut Random, &mut Vec<u8>)),
}

/// One kind of damage.
#[derive(Clone, Copy)]
pub struct Damage {
    pub name: &'static str,
    work: Work,
}

impl Damage {
    /// The text with this damage done.
    pub fn done_to(&self, random: &mut Random, mut text: Vec<u8>) -> Vec<u8> {
        match self.work {
            Work::Items(work) => {
                let mut parts = Parts::of(&text);
                work(random, &mut parts);
                parts.text()
            }
            Work::Bytes(work) => {
                work(random, &mut text);
                text
            }
        }
    }
}

/// The text with one damage, or now and then with two.
pub(super) fn damaged(random: &mut Random, text: Vec<u8>) -> Vec<u8> {
    let text = random.pick(&DAMAGES).done_to(random, text);
    if random.chance(15) {
        return random.pick(&DAMAGES).done_to(random, text);
    }
    text
}

const fn items(name: &'static str, work: fn(&mut Random, &mut Parts)) -> Damage {
    Damage { name, work: Work::Items(work) }
}

const fn bytes(name: &'static str, work: fn(&mut Random, &mut Vec<u8>)) -> Damage {
    Damage { name, work: Work::Bytes(work) }
}

pub static DAMAGES: [Damage; 61] = [
    items("leading zero", numerals::leading_zero),
    items("plus sign", numerals::plus_sign),
    items("minus on a number", numerals::minus_sign),
    items("negative zero", numerals::negative_zero),
    items("the other sign", numerals::turned_sign),
    items("decimals", numerals::decimals),
    items("needless decimals", numerals::needless_decimals),
    items("no whole part", numerals::no_whole_part),
    items("empty numeral", numerals::empty_item),
    items("no digit", numerals::no_digit),
    items("sign alone", numerals::sign_alone),
    items("many digits", numerals::many_digits),
    items("past its width", numerals::past_its_width),
    items("marks out of range", values::marks),
    items("third value out of range", values::third),
    items("time out of range", values::time),
    items("price out of range", values::price),
    items("lots out of range", values::lots),
    items("several values out of range", values::several),
    items("time falls", values::falling_time),
    items("bid above offer", values::crossed),
    items("unknown metal", names::metal),
    items("unknown instrument", names::instrument),
    items("another name", names::other_name),
    items("unknown word", names::word),
    items("TRADE for QUOTE", names::other_word),
    items("a minus for an item", names::absent),
    items("items swapped", names::swapped),
    items("item missing", names::dropped),
    items("item twice", names::doubled),
    items("item of another line", names::foreign),
    items("third value malformed", names::third_value),
    items("fourth value", names::fourth_value),
    items("another third value", names::other_third),
    items("instrument barred", names::barred),
    items("METAL later", lines::metal_later),
    items("METAL twice", lines::metal_twice),
    items("METAL missing", lines::metal_missing),
    items("PREV behind a record", lines::close_behind_record),
    items("PREV not rising", lines::close_not_rising),
    items("lines swapped", lines::swapped),
    items("line twice", lines::repeated),
    items("line missing", lines::missing),
    items("whole text twice", lines::whole_text_twice),
    items("empty line", lines::empty_line),
    items("foreign line", lines::foreign_line),
    items("no line feed between", lines::joined_lines),
    items("line feed for a comma", lines::broken_line),
    items("no comma", lines::no_comma),
    items("a comma more", lines::comma_more),
    items("space", lines::space),
    bytes("carriage return", bytes::carriage_return),
    bytes("no last line feed", bytes::no_last_line_feed),
    bytes("NUL", bytes::nul),
    bytes("beyond ASCII", bytes::beyond_ascii),
    bytes("any byte", bytes::any_byte),
    bytes("any digit", |random, text| bytes::any_digit(random, text)),
    bytes("any sign", bytes::any_sign),
    bytes("cut", bytes::cut),
    bytes("cut in front", bytes::cut_in_front),
    bytes("empty text", bytes::empty),
];
