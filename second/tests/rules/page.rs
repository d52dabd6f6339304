//! The page as it is read: its sections, its rules with their places, its contents and its list of
//! files to read.

/// A rule's section and its number within it.
pub type Number = (u32, u32);

pub struct Section {
    pub line: usize,
    pub number: u32,
    pub title: String,
}

pub struct Rule {
    pub line: usize,
    pub number: Number,
    pub text: String,
    /// The line of places under the rule, and where it stands.
    pub places: Option<(usize, String)>,
}

#[derive(Default)]
pub struct Page {
    pub sections: Vec<Section>,
    pub rules: Vec<Rule>,
    pub contents: Vec<String>,
    pub list: Vec<(usize, String)>,
    /// The quoted words of all other lines.
    pub quoted: Vec<(usize, String)>,
    pub text: String,
}

/// `4.7` is section 4, number 7.
pub fn number(word: &str) -> Option<Number> {
    let (section, rule) = word.split_once('.')?;
    let digits = |part: &str| part.chars().all(|c| c.is_ascii_digit());
    if !digits(section) || !digits(rule) {
        return None;
    }
    Some((section.parse().ok()?, rule.parse().ok()?))
}

/// The quoted words of a line, as `name`.
pub fn quoted(text: &str) -> Vec<&str> {
    text.split('`').skip(1).step_by(2).collect()
}

/// What stands in a role of a line of places: after `Code: `, up to the next role.
pub fn in_role<'a>(places: &'a str, role: &str) -> Option<&'a str> {
    places.split(" · ").find_map(|part| part.strip_prefix(role)?.strip_prefix(": "))
}

/// `## 4 Settings` is section 4.
fn section(line: usize, heading: &str) -> Option<Section> {
    let (number, title) = heading.split_once(' ')?;
    Some(Section { line, number: number.parse().ok()?, title: title.to_string() })
}

/// `**4.7** Limit ..` begins rule 4.7.
fn rule(line: usize, text: &str) -> Option<Rule> {
    let (word, text) = text.strip_prefix("**")?.split_once("**")?;
    Some(Rule { line, number: number(word)?, text: text.trim().to_string(), places: None })
}

/// `4. [Settings](#4-settings)` is a line of the contents.
fn entry(line: &str) -> Option<String> {
    let (number, link) = line.split_once(". [")?;
    let (title, _) = link.split_once("](#")?;
    Some(format!("{number} {title}"))
}

impl Page {
    /// Adds a line that stands under a heading.
    fn add(&mut self, at: usize, line: &str, heading: &str) {
        if let Some(rule) = rule(at, line) {
            self.rules.push(rule);
        } else if let (Some(places), Some(rule)) = (line.strip_prefix("> "), self.rules.last_mut())
        {
            rule.places = Some((at, places.to_string()));
        } else if heading == "Contents" {
            self.contents.extend(entry(line));
        } else if heading == "What to read" && line.starts_with('|') {
            self.list.extend(quoted(line).into_iter().map(|file| (at, file.to_string())));
        } else {
            self.quoted.extend(quoted(line).into_iter().map(|word| (at, word.to_string())));
        }
    }
}

pub fn read(text: &str) -> Page {
    let mut page = Page { text: text.to_string(), ..Page::default() };
    let mut under = "";
    for (line, at) in text.lines().zip(1..) {
        if let Some(heading) = line.strip_prefix("## ") {
            under = heading;
            page.sections.extend(section(at, heading));
        } else {
            page.add(at, line, under);
        }
    }
    page
}
