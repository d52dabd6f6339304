//! Every public contract of the core settles the answer and everything lent: it says that each is
//! what a definition gives, under no condition. So any two answers that it permits are equal.

use std::path::{Path, PathBuf};

/// The leaves of reading and writing, which alone ask something of their caller.
const LEAVES: [&str; 9] = [
    "octets_at",
    "u16_at",
    "u48_at",
    "copy_in",
    "length_in",
    "port_at",
    "header_of",
    "stamp_at",
    "offer_of",
];

/// A public function: its name, its parameters, and what stands between them and its body.
struct Function {
    name: String,
    parameters: String,
    promises: String,
}

/// Where the bracket that opens a text is closed.
fn closed(text: &str) -> usize {
    let mut depth = 0;
    for (at, c) in text.char_indices() {
        depth += i32::from(c == '(') - i32::from(c == ')');
        if depth == 0 {
            return at;
        }
    }
    panic!("a bracket is not closed: {text}")
}

/// The function whose name a text begins with. Its body begins with a line's last `{`, a clause ends with `}`.
fn function(text: &str) -> Function {
    let (name, rest) = text.split_once('(').expect("a function has parameters");
    let rest = &text[text.len() - rest.len() - 1..];
    let (parameters, behind) = rest.split_at(closed(rest));
    let promises = match behind.lines().position(|line| line.ends_with('{')) {
        Some(body) => behind.lines().take(body + 1).map(|line| format!("{line}\n")).collect(),
        None => panic!("{name} has no body"),
    };
    let name = name.split('<').next().unwrap_or(name);
    Function { name: name.to_string(), parameters: parameters[1..].to_string(), promises }
}

/// A source without its comments.
fn uncommented(file: &str) -> String {
    let code = file.lines().filter(|line| !line.trim_start().starts_with("//"));
    code.map(|line| format!("{line}\n")).collect()
}

fn functions(file: &str) -> Vec<Function> {
    let code = uncommented(file);
    let starts = ["\npub fn ", " pub fn ", "pub extern \"C\" fn "];
    starts.iter().flat_map(|start| code.split(start).skip(1).map(function)).collect()
}

/// The parameters that are lent to be changed, `self` among them.
fn lent(function: &Function) -> Vec<&str> {
    let changed = |parameter: &str| match parameter.trim().split_once(':') {
        Some((_, of)) => of.trim().starts_with("&mut "),
        None => parameter.trim() == "&mut self",
    };
    let parameters = function.parameters.split(',').filter(|parameter| changed(parameter));
    parameters
        .map(|p| p.trim().trim_start_matches("&mut ").split(':').next().unwrap_or(p))
        .collect()
}

/// What a conversion gives is settled: by its last name alone, by a value that is not said by it,
/// under no condition, for every value that it is given.
fn gives(block: &str) -> bool {
    let clause = block.split_once("from_gives = { λ ").and_then(|(_, rest)| rest.split_once(" };"));
    let Some((names, told)) = clause.and_then(|(told, _)| told.split_once(". ")) else {
        return false;
    };
    let Some((_, given)) = names.split_once(' ') else {
        return false;
    };
    let value = told.strip_prefix(&format!("{given} ≡ "));
    let parts = |c: char| !c.is_alphanumeric() && c != '_';
    value.is_some_and(|value| {
        !value.contains(['→', '⊎']) && !value.split(parts).any(|word| word == given)
    })
}

/// The conversions of a source that don't say what they give, or ask something of their caller.
fn open_conversions(file: &str) -> Vec<String> {
    let code = uncommented(file);
    let blocks = code.split("\nimpl").skip(1);
    let blocks = blocks.map(|block| block.split("\n}\n").next().unwrap_or(block));
    let fault = |block: &str| {
        let head = block.lines().next().unwrap_or("").trim_end_matches(" {").trim();
        let converts = head.contains("From<");
        if converts && !gives(block) {
            return Some(format!("{head}: what it gives is not said"));
        }
        (converts && block.contains("requires"))
            .then(|| format!("{head}: it asks something of its caller"))
    };
    blocks.filter_map(fault).collect()
}

/// What a reader of the contract would miss.
fn faults(function: &Function) -> Vec<String> {
    let (result, clauses) =
        function.promises.split_once("ensures").unwrap_or((&function.promises, ""));
    let mut found = vec![];
    let settled = |clause: &str| {
        clause
            .split_once("{ ")
            .is_some_and(|(_, told)| told.trim_start_matches('(').starts_with("result ≡ "))
    };
    if result.contains("->") && !clauses.split("ensures").any(settled) {
        found.push(format!("{}: its answer is not settled", function.name));
    }
    let told = |name: &str| {
        ["{ ", "("].iter().any(|before| clauses.contains(&format!("{before}{name}.new ≡ ")))
    };
    let open = |name: &&str| !told(name);
    found.extend(
        lent(function)
            .into_iter()
            .filter(open)
            .map(|name| format!("{}: {name} is not settled", function.name)),
    );
    if clauses.contains('→') || clauses.contains('⊎') {
        found.push(format!("{}: it promises under a condition", function.name));
    }
    if function.promises.contains("requires") && !LEAVES.contains(&function.name.as_str()) {
        found.push(format!("{}: it asks something of its caller", function.name));
    }
    found
}

/// The sources under a folder.
fn sources(folder: PathBuf) -> Vec<PathBuf> {
    let entries = std::fs::read_dir(folder).expect("a folder of sources");
    let paths = entries.map(|entry| entry.expect("an entry").path());
    let under = |path: PathBuf| if path.is_dir() { sources(path) } else { vec![path] };
    paths.flat_map(under).collect()
}

#[test]
fn every_contract_settles_its_answer_and_what_is_lent() {
    let crates = Path::new(env!("CARGO_MANIFEST_DIR")).join("../crates");
    let mut read = 0;
    let mut found = vec![];
    for entry in std::fs::read_dir(crates).expect("the crates") {
        let entry = entry.expect("a crate");
        if entry.file_name().to_string_lossy().starts_with("bench") {
            continue; // of its text nothing is promised but that it ends
        }
        for source in sources(entry.path().join("src")) {
            if source.extension() != Some("rt".as_ref()) {
                continue;
            }
            let file = std::fs::read_to_string(&source).expect("a source");
            let all = functions(&file);
            read += all.len();
            let fault = |fault| format!("{}: {fault}", source.display());
            found.extend(all.iter().flat_map(faults).map(fault));
            found.extend(open_conversions(&file).into_iter().map(fault));
        }
    }
    assert!(read > 150, "only {read} public functions were found");
    assert!(found.is_empty(), "{} faults:\n{}", found.len(), found.join("\n"));
}

#[test]
fn a_contract_that_leaves_something_open_is_found() {
    let faulty = |text: &str| functions(text).iter().flat_map(faults).collect::<Vec<String>>();
    let promised =
        "\npub fn f(a: u8, b: &mut [u8]) -> u8\n    ensures { (result ≡ g a) × (b.new ≡ h) }\n{\n";
    assert_eq!(faulty(promised), [""; 0]);
    let labelled = promised.replace(
        "{ (result ≡ g a) × (b.new ≡ h) }",
        "value { result ≡ g a }\n    ensures after { b.new ≡ h }",
    );
    assert_eq!(faulty(&labelled), [""; 0]);
    assert_eq!(
        faulty(&promised.replace("result ≡ g a", "result ≤ g a")),
        ["f: its answer is not settled"]
    );
    assert_eq!(faulty(&promised.replace("b.new", "b.old")), ["f: b is not settled"]);
    let open = ["f: b is not settled"];
    assert_eq!(faulty(&promised.replace("(b.new ≡ h)", "(length b.new ≡ h)")), open);
    assert_eq!(faulty(&promised.replace("(b.new ≡ h)", "(ab.new ≡ h)")), open);
    assert_eq!(faulty(&labelled.replace("{ b.new ≡ h }", "{ take 3 b.new ≡ h }")), open);
    assert_eq!(faulty(&promised.replace("(result ≡ g a)", "(c → result ≡ g a)")).len(), 2);
    assert_eq!(
        faulty(&promised.replace("    ensures", "    requires { c }\n    ensures")),
        ["f: it asks something of its caller"]
    );
    let method = promised.replace("a: u8, b: &mut [u8]", "&mut self, a: u8");
    assert_eq!(faulty(&method.replace("b.new", "self.new")), [""; 0]);
    assert_eq!(faulty(&method.replace("b.new", "self.old")), ["f: self is not settled"]);
    let emptied = "\n    pub fn g(&mut self)\n    {\n        self.0 = 0;\n    }\n";
    assert_eq!(faulty(emptied), ["g: self is not settled"]);
    let bare = "\npub fn e() -> u8 {\n    1\n}\n";
    assert_eq!(faulty(&format!("{bare}{promised}")), ["e: its answer is not settled"]);
    assert_eq!(faulty("\n// pub fn f() -> u8 {\nfn g() -> u8 {\n"), [""; 0]);
}

#[test]
fn a_conversion_that_says_nothing_is_found() {
    let silent = "\nimpl From<A> for B {\n    fn from(a: A) -> B {\n        B(a.0)\n    }\n}\n";
    assert_eq!(open_conversions(silent), ["From<A> for B: what it gives is not said"]);
    let told =
        silent.replace("    fn from", "    ghost from_gives = { λ a b. b ≡ f a };\n\n    fn from");
    assert_eq!(open_conversions(&told), [""; 0]);
    assert_eq!(open_conversions(&told.replace("b ≡ f a", "b.0 ≡ f a")).len(), 1);
    assert_eq!(open_conversions(&told.replace("b ≡ f a", "a ≡ a")).len(), 1);
    assert_eq!(open_conversions(&told.replace("b ≡", "b ≢")).len(), 1);
    for open in ["b ≡ b", "b ≡ f a ⊎ b ≡ g a", "b ≡ (f b)", "b ≡ [b]", "b ≡ f(c→b.x)"]
    {
        assert_eq!(open_conversions(&told.replace("b ≡ f a", open)).len(), 1);
    }
    assert_eq!(open_conversions(&format!("{told}{silent}")).len(), 1);
    assert_eq!(open_conversions(&told.replace("ghost from", "// ghost from")).len(), 1);
    assert_eq!(open_conversions(&told.replace("impl From", "impl<T> From")), [""; 0]);
    assert_eq!(open_conversions(&silent.replace("impl From", "impl<T> From")).len(), 1);
    let asking = told.replace("-> B {", "-> B\n        requires { c }\n    {");
    assert_eq!(open_conversions(&asking), ["From<A> for B: it asks something of its caller"]);
}
