//! The page: what the list was, a section for each unit, and the counts.

use super::course::course;
use super::draw::escaped;
use super::drift::overview;
use super::scale::count;
use super::story::{tell, Life, Story};
use super::windows::windows;
use crate::refusal::NAMES;
use std::collections::BTreeMap;

/// How many units have a section of their own, and how many wipes a row.
const UNITS: usize = 8;
const ROWS: usize = 60;

const STYLE: &str = include_str!("style.css");

/// The page of a list with this name.
pub fn page(name: &str, list: &[u8]) -> String {
    let story = tell(list);
    let name = escaped(name);
    let mut page = format!(
        "<!DOCTYPE html>\n<html lang=\"en\">\n<head>\n<meta charset=\"utf-8\">\n\
         <title>Sinezhab: {name}</title>\n<style>\n{STYLE}</style>\n</head>\n<body>\n\
         <h1>{name}</h1>\n<p>{}</p>\n",
        summary(&story)
    );
    for (number, life) in story.units.iter().take(UNITS).enumerate() {
        page += &section(number, life);
    }
    if story.units.len() > UNITS {
        let more = count(story.units.len() - UNITS);
        page += &format!("<p>{more} more units are counted below and not drawn.</p>\n");
    }
    page + &counts(&story) + "</body>\n</html>\n"
}

fn plural(number: usize, one: &str) -> String {
    let end = if number == 1 { "" } else { "s" };
    format!("{} {one}{end}", count(number))
}

fn summary(story: &Story) -> String {
    let calls = plural(story.calls.values().sum(), "call");
    let units = plural(story.units.len(), "unit");
    let wipes = plural(story.units.iter().map(|life| life.wipes.len()).sum(), "wipe");
    let refused = plural(story.refusals.values().sum(), "refusal");
    format!("{calls}, {units}, {wipes}, {refused}. The answers are those of the second program.")
}

fn section(number: usize, life: &Life) -> String {
    let mut text = format!("<h2>Unit {}, line {}</h2>\n", number + 1, count(life.line));
    text += &format!("<p><code>{}</code></p>\n", escaped(&life.settings));
    if let Some(picture) = course(life) {
        text += "<h3>Offset and output</h3>\n";
        text += &figure(&picture, COURSE);
    }
    if let Some(picture) = overview(life) {
        text += "<h3>Drift watch</h3>\n";
        text += &figure(&picture, DRIFT);
    }
    let (panels, left_out) = windows(life);
    if !panels.is_empty() {
        text += "<h3>Windows and their lines</h3>\n<div class=\"panels\">\n";
        panels.iter().for_each(|panel| text += panel);
        text += &format!("</div>\n<p class=\"caption\">{WINDOWS}</p>\n");
    }
    if left_out > 0 {
        text += &format!("<p>{} with fewer samples not drawn.</p>\n", plural(left_out, "window"));
    }
    text + &wipes(life)
}

const COURSE: &str = "<b class=\"offset\">&#9679;</b> offset of each accepted measurement \
    <b class=\"output\">&#9473;</b> output (positive slows the clock) \
    <b class=\"wipe\">&#9478;</b> wipe, numbered as in the table. Where measurements are many, a column shows \
    what they span and their mean. Where a few offsets stand far out, the scale has a step for each power of ten.";

const DRIFT: &str =
    "<b class=\"sample\">&#9679;</b> valid sample <b class=\"invalid\">&#9675;</b> invalid sample \
    <b class=\"wipe\">&#9478;</b> wipe. y is clock less reference, \
    counted from the first sample since the wipe. An invalid sample far out stands at the edge.";

const WINDOWS: &str =
    "The samples that the window holds before the wipe, with the drift line; below, \
    the samples less the line.";

fn figure(picture: &str, caption: &str) -> String {
    format!("<figure>\n{picture}<figcaption>{caption}</figcaption>\n</figure>\n")
}

fn wipes(life: &Life) -> String {
    if life.wipes.is_empty() {
        return String::from("<p>No wipe.</p>\n");
    }
    let mut causes: BTreeMap<&str, usize> = BTreeMap::new();
    life.wipes.iter().for_each(|wipe| *causes.entry(wipe.cause).or_default() += 1);
    let causes: Vec<String> = causes.iter().map(|(cause, n)| format!("{cause} {n}")).collect();
    let mut text = format!("<h3>Wipes</h3>\n<p>By cause: {}.</p>\n", causes.join(", "));
    text += "<table><tr><th>Wipe</th><th>now, ms</th><th>Line</th><th>Cause</th><th>Master then</th></tr>\n";
    for (number, wipe) in life.wipes.iter().take(ROWS).enumerate() {
        let until = life.masters.iter().take_while(|(now, _)| *now <= wipe.now);
        let master = until.last().and_then(|(_, master)| *master);
        let master = master.map_or(String::from("none"), crate::answer::identity_text);
        text += &format!(
            "<tr><td>{}</td><td>{}</td><td>{}</td><td>{}</td><td>{master}</td></tr>\n",
            number + 1,
            count(wipe.now as usize),
            count(wipe.line),
            wipe.cause
        );
    }
    let more = life.wipes.len().saturating_sub(ROWS);
    let more =
        if more == 0 { String::new() } else { format!("<p>and {} more.</p>\n", count(more)) };
    text + "</table>\n" + &more
}

fn counts(story: &Story) -> String {
    let mut text = String::from("<h2>Counts</h2>\n<div class=\"tables\">\n");
    text += "<table><tr><th>Refusal</th><th>Name</th><th>Times</th></tr>\n";
    for (number, times) in &story.refusals {
        let name = NAMES[usize::from(*number) - 1];
        text += &format!("<tr><td>{number}</td><td>{name}</td><td>{}</td></tr>\n", count(*times));
    }
    if story.refusals.is_empty() {
        text += "<tr><td colspan=\"3\">none</td></tr>\n";
    }
    text += "</table>\n<table><tr><th>Call</th><th>Times</th></tr>\n";
    for (call, times) in &story.calls {
        text += &format!("<tr><td>{}</td><td>{}</td></tr>\n", escaped(call), count(*times));
    }
    for (name, times) in [("bad lines", story.bad_lines), ("answered no unit", story.without_unit)]
    {
        text += &format!("<tr><td>{name}</td><td>{}</td></tr>\n", count(times));
    }
    text + "</table>\n</div>\n"
}
