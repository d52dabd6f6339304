//! Lines that are no calls, for every word of every call, beside lines that just are.

use super::desk::Desk;
use super::frames::{plain, write_line};
use super::settings;
use crate::message::{fields, ANNOUNCE, DELAY_RESP, SYNC};
use crate::text::{Range, I64, U16, U32, U64, U8};

/// What a word of a call has to be.
#[derive(Clone, PartialEq)]
enum Kind {
    Number(Range),
    Clock,
    Octets,
}

/// A good line and what each word behind the first is.
struct Form {
    line: String,
    kinds: Vec<Kind>,
}

fn form(line: &str, kinds: Vec<Kind>) -> Form {
    let line = line.to_string();
    Form { line, kinds }
}

fn numbers(ranges: &[Range]) -> Vec<Kind> {
    ranges.iter().cloned().map(Kind::Number).collect()
}

fn unit_form() -> Form {
    let mut kinds = vec![Kind::Number(U8), Kind::Clock, Kind::Number(U16)];
    kinds.extend(numbers(&vec![I64; 11]));
    form(&settings::line(&settings::bench()), kinds)
}

fn write_form(kind: i128) -> Form {
    let mut kinds: Vec<Kind> = fields(kind)
        .map(|field| match field.clock {
            true => Kind::Clock,
            false => Kind::Number(field.word()),
        })
        .collect();
    kinds.extend([Kind::Octets, Kind::Number(0..=70_000)]);
    form(&write_line(&plain(kind).with_suffix(&[0, 8, 0, 0]), 70), kinds)
}

fn unit_call_forms() -> Vec<Form> {
    let mut receive = numbers(&[U64, U64, U32]);
    receive.push(Kind::Octets);
    vec![
        form("receive 5 6 7 00", receive),
        form("request 5 58", numbers(&[U64, 0..=2_000])),
        form("sent 5 6 7 8", numbers(&[U64, U16, U64, U32])),
        form("time 5", numbers(&[U64])),
        form("tick 5 6", numbers(&[I64, I64])),
        form("reset", vec![]),
        form("line", vec![]),
        form("show", vec![]),
    ]
}

/// Everything but `unit`: a list of the wire makes no unit.
fn forms() -> Vec<Form> {
    let mut forms = vec![
        form("lend 5", numbers(&[0..=8])),
        form("read 00", vec![Kind::Octets]),
        write_form(DELAY_RESP),
        write_form(ANNOUNCE),
    ];
    forms.extend(unit_call_forms());
    forms
}

/// Words that a number can't be.
fn bad_numbers(range: &Range) -> Vec<String> {
    let plain = [
        "",
        "+1",
        "--1",
        "-",
        "1-",
        "x",
        "1x",
        "0x1",
        "1.0",
        "1e1",
        "1,0",
        "-+1",
        "+",
        "'1'",
        "99999999999999999999999999999999999999999999",
        "-99999999999999999999999999999999999999999999",
    ];
    let mut words: Vec<String> = plain.iter().map(|word| word.to_string()).collect();
    words.push((range.end() + 1).to_string());
    words.push((range.start() - 1).to_string());
    words.push(format!("00{}", range.end() + 1));
    if *range.start() == 0 {
        words.push(String::from("-0"));
        words.push(String::from("-00"));
    } else {
        words.push(format!("-00{}", 1 - range.start()));
    }
    words
}

/// Numbers at their ends, and with zeros before them.
fn good_numbers(range: &Range) -> Vec<String> {
    let mut words = vec![range.end().to_string(), range.start().to_string()];
    words.push(format!("0000000000000000000000000000{}", range.end()));
    words.push(String::from("00"));
    if *range.start() < 0 {
        words.push(String::from("-0"));
        words.push(String::from("-0001"));
        words.push(format!("-00000000000000000000000{}", -range.start()));
    }
    words
}

fn bad_clocks() -> Vec<String> {
    let words = [
        "",
        "-",
        "0",
        "020000fffe00000",
        "020000fffe0000011",
        "020000fffe00000g",
        "0x0000fffe000001",
        "-20000fffe000001",
        "+20000fffe000001",
        "020000-fffe00001",
        "02:00:00:ff:fe:01",
    ];
    words.map(String::from).to_vec()
}

fn bad_octets() -> Vec<String> {
    let words =
        ["", "0", "000", "0A", "A0", "FF", "0g", "--", "-00", "00-", "0x00", "+0", "0_00", "00,0"];
    words.map(String::from).to_vec()
}

fn bad_words(kind: &Kind) -> Vec<String> {
    match kind {
        Kind::Number(range) => bad_numbers(range),
        Kind::Clock => bad_clocks(),
        Kind::Octets => bad_octets(),
    }
}

fn good_words(kind: &Kind) -> Vec<String> {
    match kind {
        Kind::Number(range) => good_numbers(range),
        Kind::Clock => {
            ["ABCDEF0123456789", "ffffffffffffffff", "AbCdEf0000000000"].map(String::from).to_vec()
        }
        Kind::Octets => ["-", "00", "0123456789abcdef"].map(String::from).to_vec(),
    }
}

/// The line with another word in a place; place 0 is the call's own word.
fn with_word(line: &str, place: usize, word: &str) -> String {
    let mut words: Vec<&str> = line.split(' ').collect();
    words[place] = word;
    words.join(" ")
}

/// Lines that differ from a good one by spaces, words, letters or octets.
fn spoilt(line: &str) -> Vec<Vec<u8>> {
    let (first, _) = line.split_once(' ').unwrap_or((line, ""));
    let capital = first[..1].to_uppercase() + &first[1..];
    let texts = [
        format!(" {line}"),
        format!("{line} "),
        format!("{line}  "),
        format!("{line} 0"),
        format!("{line} -"),
        format!("{line} #"),
        format!("{line}\t"),
        format!("{line}\r"),
        format!("{line}\0"),
        format!("{line}\u{7f}"),
        format!("{line}é"),
        format!("\u{feff}{line}"),
        line.replacen(' ', "  ", 1) + if line.contains(' ') { "" } else { "  " },
        line.replacen(' ', "\t", 1) + if line.contains(' ') { "" } else { "\t" },
        line.replacen(first, &first.to_uppercase(), 1),
        line.replacen(first, &capital, 1),
        line.replacen(first, &first[1..], 1),
        line.replacen(first, &format!("{first}s"), 1),
        line.replacen(' ', ",", 1) + if line.contains(' ') { "" } else { "," },
    ];
    let mut lines: Vec<Vec<u8>> = texts.into_iter().map(String::into_bytes).collect();
    lines.push([line.as_bytes(), &[0xff]].concat());
    lines
}

pub fn write(desk: &mut Desk) {
    passed_over(desk);
    desk.note("no calls at all");
    let lines = [
        "?", "-", "0", "help", "quit", " ", "  ", " #", "unit", "wire", "ok", "bad line", "\r",
        "\t",
    ];
    desk.say_all(lines);
    spoil(desk, &unit_form());
    desk.note("unit: a word too few");
    desk.say(&unit_form().line[..20]);
    for form in forms() {
        spoil(desk, &form);
        good(desk, &form);
    }
    kinds(desk);
    lends(desk);
}

fn passed_over(desk: &mut Desk) {
    desk.note("passed over: empty lines and lines that begin with #, whatever they hold");
    desk.say_all(["", "#", "# show", "#show", "##", "#\t\r", "#\u{7f}é"]);
    desk.say([b'#', 0xff, 0x00, 0x80]);
    desk.say("");
}

fn spoil(desk: &mut Desk, form: &Form) {
    let (first, _) = form.line.split_once(' ').unwrap_or((&form.line, ""));
    desk.note(&format!("bad lines of {first}"));
    desk.say_all(spoilt(&form.line));
    if let Some((shorter, _)) = form.line.rsplit_once(' ') {
        desk.say(shorter);
        desk.say(first);
        desk.say(format!("{first} "));
    }
    let mut seen = Vec::new();
    for (place, kind) in form.kinds.iter().enumerate() {
        // Fields of one type are read alike: the first of them meets every bad word.
        let known = seen.contains(kind);
        let words = bad_words(kind).into_iter();
        for word in words.filter(|word| !known || tells(kind, word)) {
            desk.say(with_word(&form.line, place + 1, &word));
        }
        seen.push(kind.clone());
    }
}

/// A bad word that shows which range a field has, or how it takes an empty word.
fn tells(kind: &Kind, word: &str) -> bool {
    match kind {
        Kind::Number(range) => {
            let past = [range.end() + 1, range.start() - 1].map(|value| value.to_string());
            word.is_empty() || past.contains(&word.to_string())
        }
        Kind::Clock => word.len() >= 15,
        Kind::Octets => true,
    }
}

fn good(desk: &mut Desk, form: &Form) {
    desk.say(&form.line);
    // The kind of a `write` decides its other words: it is left as it is here.
    let first = usize::from(form.line.starts_with("write"));
    let mut seen = Vec::new();
    for (place, kind) in form.kinds.iter().enumerate().skip(first) {
        let count = if seen.contains(kind) { 2 } else { 99 };
        for word in good_words(kind).iter().take(count) {
            desk.say(with_word(&form.line, place + 1, word));
        }
        seen.push(kind.clone());
    }
}

/// `write` with every kind and with the words of another kind's body.
fn kinds(desk: &mut Desk) {
    desk.note("write: kinds and bodies that don't go together");
    for kind in [SYNC, DELAY_RESP, ANNOUNCE] {
        let line = write_form(kind).line;
        for other in (0..20).chain([255, 256]) {
            desk.say(with_word(&line, 1, &other.to_string()));
        }
        desk.say(with_word(&line, 1, &format!("000{kind}")));
    }
}

fn lends(desk: &mut Desk) {
    desk.note("lend is no unit call");
    for count in 0..=10 {
        desk.say(format!("lend {count}"));
        desk.say("time 0");
        desk.say("show");
    }
    desk.say("lend 5");
}
