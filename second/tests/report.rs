//! `second report`: a page that stands alone, for any list.

use second::lists::{hour, random};
use second::report::page;
use std::process::Command;

const SECOND: &str = env!("CARGO_BIN_EXE_second");

/// The page's text holds together and asks nothing of the network.
fn check(page: &str) {
    assert!(page.starts_with("<!DOCTYPE html>\n") && page.ends_with("</html>\n"));
    for word in ["http:", "https:", "src=", "href=", "url(", "@import", "<script", "NaN", "inf\""] {
        assert!(!page.contains(word), "{word}");
    }
    for tag in ["svg", "figure", "table", "tr", "td", "text", "div", "p", "h2", "h3", "title"] {
        let count = |text: &str| page.matches(text).count();
        let opened = count(&format!("<{tag}>")) + count(&format!("<{tag} "));
        assert_eq!(opened, count(&format!("</{tag}>")), "{tag}");
    }
}

#[test]
fn the_example_of_two_halls() {
    let path = concat!(env!("CARGO_MANIFEST_DIR"), "/../examples/two-halls.txt");
    let output = Command::new(SECOND).args(["report", path]).output().unwrap();
    assert!(output.status.success());
    let page = String::from_utf8(output.stdout).unwrap();
    check(&page);
    for part in [
        "<h1>two-halls.txt</h1>",
        "29 calls, 1 unit, 3 wipes, 1 refusal.",
        "By cause: master lost 1, new master 2.",
        ">from wipe 1 to wipe 2: master lost<",
        "4 taken, 4 in the window, 4 valid; slope 50.0 ns/s",
        "4 taken, 4 in the window, 4 valid; slope -120.0 ns/s",
        "<td>21</td><td>NOT_READY</td><td>1</td>",
        "<td>2</td><td>7,152</td><td>35</td><td>master lost</td><td>none</td>",
    ] {
        assert!(page.contains(part), "{part}");
    }
}

#[test]
fn lists_with_nothing_to_draw() {
    for list in ["", "# nothing\n", "show\nbad\n", "unit 1 2 3\n", "read -\n"] {
        let page = page("list", list.as_bytes());
        check(&page);
        assert!(!page.contains("<svg"), "{list}");
    }
    let unit = "unit 0 0080a1fffe000007 1 0 0 700 300 100000 4 2 0 2000000 1000000 2000000\n";
    check(&page("list", unit.as_bytes()));
    check(&page("list", format!("{unit}tick 5 5\ntime 7\n").as_bytes()));
}

#[test]
fn any_random_list() {
    for seed in 1..=12 {
        check(&page("<list> & \"more\"", &random::list(seed, 1_500)));
    }
}

/// Some minutes of the hour: the page does not grow with the measurements.
#[test]
fn many_measurements() {
    let list = hour::list(400);
    let page = page("list", &list);
    check(&page);
    assert!(page.contains("class=\"offset span\""));
    assert!(page.len() < 300_000, "{} octets", page.len());
}

#[test]
fn what_can_not_be_read() {
    let output = Command::new(SECOND).args(["report", "/no/such/list"]).output().unwrap();
    assert_eq!(output.status.code(), Some(1));
    assert!(String::from_utf8_lossy(&output.stderr).contains("/no/such/list"));
    let output = Command::new(SECOND).args(["report"]).output().unwrap();
    assert_eq!(output.status.code(), Some(2));
}
