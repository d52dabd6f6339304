//! What is wrong with a page.

use crate::page::{in_role, quoted, Page, Rule};
use crate::{places, Repository};

/// The roles that every rule has. A fifth, Book, is had by those that are read off the calls too.
const ROLES: [&str; 4] = ["Definition", "Code", "Theorem", "Refused"];

/// Which folders of a crate a role's places are in.
fn folders(role: &str) -> &[&str] {
    match role {
        "Code" => &["src"],
        "Theorem" => &["proofs"],
        "Refused" => &["must-fail", "tried"],
        _ => &["specs", "src", "proofs"],
    }
}

/// `none, since ..` stands for no place.
fn is_none(part: &str) -> bool {
    part.starts_with("none, ")
}

/// What is wrong with the places of a role.
fn in_places(role: &str, part: &str, repository: Repository) -> Vec<String> {
    let names = quoted(part);
    let mut faults: Vec<String> = vec![];
    if names.is_empty() {
        faults.push(format!("has no {role}"));
    }
    for place in names {
        if !folders(role).contains(&places::folder(place)) {
            faults.push(format!("has `{place}`, which is no place of {role}"));
        }
        faults.extend(places::fault(place, repository));
    }
    faults
}

/// `contract` stands where one of the rule's functions has one.
fn in_contract(all: &str, repository: Repository) -> Vec<String> {
    let code = in_role(all, "Code").map(quoted).unwrap_or_default();
    if code.iter().any(|place| places::has_contract(place, repository)) {
        return vec![];
    }
    vec!["says contract, and none of its functions has an ensures".to_string()]
}

fn of_role(role: &str, all: &str, repository: Repository) -> Vec<String> {
    match in_role(all, role) {
        None => vec![format!("has no {role}")],
        Some(part) if is_none(part) => vec![],
        Some("contract") if role == "Theorem" => in_contract(all, repository),
        Some(part) => in_places(role, part, repository),
    }
}

fn of_rule(rule: &Rule, repository: Repository) -> Vec<String> {
    let name = format!("rule {}.{}", rule.number.0, rule.number.1);
    let Some((line, all)) = &rule.places else {
        return vec![format!("line {}: {name} has no places", rule.line)];
    };
    let mut faults: Vec<String> = vec![];
    if rule.text.is_empty() {
        faults.push("says nothing".to_string());
    }
    for part in all.split(" · ") {
        let (role, _) = part.split_once(": ").unwrap_or((part, ""));
        if role == "Book" {
            faults.extend(of_role(role, all, repository));
        } else if !ROLES.contains(&role) {
            faults.push(format!("has {role}, which is no role"));
        }
    }
    faults.extend(ROLES.iter().flat_map(|role| of_role(role, all, repository)));
    faults.into_iter().map(|fault| format!("line {line}: {name} {fault}")).collect()
}

/// Sections are 1, 2, 3 and so on, as the contents say.
fn of_sections(page: &Page) -> Vec<String> {
    let mut faults = vec![];
    for (section, due) in page.sections.iter().zip(1..) {
        if section.number != due {
            faults.push(format!(
                "line {}: section {} stands for {due}",
                section.line, section.number
            ));
        }
    }
    let titled =
        page.sections.iter().map(|section| format!("{} {}", section.number, section.title));
    if !titled.eq(page.contents.iter().cloned()) {
        faults.push("the contents are not the sections".to_string());
    }
    faults
}

/// Each rule stands in its section, and the numbers rise, so that none stands twice.
fn of_order(page: &Page) -> Vec<String> {
    let mut faults = vec![];
    let mut before = (0, 0);
    for rule in &page.rules {
        let name = format!("line {}: rule {}.{}", rule.line, rule.number.0, rule.number.1);
        if rule.number <= before {
            faults.push(format!("{name} stands behind {}.{}", before.0, before.1));
        }
        let over = page.sections.iter().rev().find(|section| section.line < rule.line);
        if over.map(|section| section.number) != Some(rule.number.0) {
            faults.push(format!("{name} stands in another section"));
        }
        before = before.max(rule.number);
    }
    faults
}

/// How many rules have such a part in this role.
fn count(page: &Page, role: &str, such: fn(&str) -> bool) -> usize {
    let places = page.rules.iter().filter_map(|rule| rule.places.as_ref());
    places.filter_map(|(_, all)| in_role(all, role)).filter(|part| such(part)).count()
}

/// What the page says of its gaps is what it has.
fn of_counts(page: &Page) -> Vec<String> {
    let due = format!(
        "There are {} rules. {} of them have the contract as their theorem and {} none; \
         for {} only a near wrong answer was tried and for {} none.",
        page.rules.len(),
        count(page, "Theorem", |part| part == "contract"),
        count(page, "Theorem", is_none),
        count(page, "Refused", |part| part.starts_with("near ")),
        count(page, "Refused", is_none),
    );
    let said = page.text.contains(&due);
    (!said).then(|| format!("the page's counts are not: {due}")).into_iter().collect()
}

/// How many lines a reader reads: no empty ones, no comments, no `use`.
fn lines(file: &str) -> usize {
    let read =
        |line: &&str| !line.is_empty() && !line.starts_with("--") && !line.starts_with("use ");
    file.lines().map(str::trim).filter(read).count()
}

/// The number in the page's `some 1,100 lines`.
fn said(page: &Page) -> usize {
    let rest = page.text.split_once("some ").map_or("", |(_, rest)| rest);
    let number = rest.split_once(" lines").map_or("", |(number, _)| number);
    number.replace(',', "").parse().unwrap_or(0)
}

/// The files to read are there, and as long as the page says, give or take a tenth.
fn of_list(page: &Page, repository: Repository) -> Vec<String> {
    let mut faults = vec![];
    let mut sum = 0;
    for (line, file) in &page.list {
        match places::path(file).and_then(|path| repository(&path)) {
            Some(held) => sum += lines(&held),
            None => faults.push(format!("line {line}: there is no file for `{file}`")),
        }
    }
    if sum.abs_diff(said(page)) * 10 > sum {
        faults.push(format!("the files to read have {sum} lines, not some {}", said(page)));
    }
    faults
}

/// A place or a file that is named anywhere else is there.
fn of_others(page: &Page, repository: Repository) -> Vec<String> {
    let mut faults = vec![];
    for (line, word) in &page.quoted {
        let file = places::path(word).filter(|_| !word.contains(':'));
        let fault = match file {
            Some(path) => repository(&path).is_none().then(|| format!("there is no {path}")),
            None if places::folder(word).is_empty() => None,
            None => places::fault(word, repository),
        };
        faults.extend(fault.map(|fault| format!("line {line}: {fault}")));
    }
    faults
}

pub fn of(page: &Page, repository: Repository) -> Vec<String> {
    let mut faults: Vec<String> = vec![];
    faults.extend(page.rules.iter().flat_map(|rule| of_rule(rule, repository)));
    faults.extend(of_sections(page));
    faults.extend(of_order(page));
    faults.extend(of_counts(page));
    faults.extend(of_list(page, repository));
    faults.extend(of_others(page, repository));
    faults
}
