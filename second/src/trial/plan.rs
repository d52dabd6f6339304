//! The words of a trial: what is played, against what, for how long.

/// Each with the value that it has where it is not said.
#[derive(Clone, Debug, PartialEq)]
pub struct Plan {
    pub seed: u64,
    pub lists: u64,
    pub calls: usize,
    pub seconds: u64,
    pub silence: u64,
    /// A file whose list is played in place of random ones.
    pub list: Option<String>,
    pub against: Vec<String>,
    /// Where a list that differs is written.
    pub to: String,
    pub command: Vec<String>,
}

impl Plan {
    /// The plan that the words before and behind `--` say; else what is wrong with them.
    pub fn read(words: &[&str]) -> Result<Plan, String> {
        let place = words.iter().position(|word| *word == "--");
        let place = place.ok_or("no `--` before the command")?;
        let command: Vec<String> = words[place + 1..].iter().map(|word| word.to_string()).collect();
        if command.is_empty() {
            return Err(String::from("no command behind `--`"));
        }
        let mut plan = Plan {
            seed: 1,
            lists: 1_000,
            calls: 1_000,
            seconds: 60,
            silence: 5,
            list: None,
            against: vec![String::from("./bench")],
            to: String::from("differs.txt"),
            command,
        };
        for word in &words[..place] {
            plan.take(word).ok_or(format!("`{word}` is no word of try"))?;
        }
        Ok(plan)
    }

    fn take(&mut self, word: &str) -> Option<()> {
        let (name, value) = word.split_once('=')?;
        let count = || value.parse::<u64>().ok().filter(|count| *count > 0);
        match name {
            "seed" => self.seed = value.parse().ok()?,
            "lists" => self.lists = count()?,
            "calls" => self.calls = usize::try_from(count()?).ok()?,
            "seconds" => self.seconds = count()?,
            "silence" => self.silence = count()?,
            "list" if !value.is_empty() => {
                self.list = Some(value.to_string());
                self.lists = 1;
            }
            "against" => {
                self.against = value.split_whitespace().map(String::from).collect();
                self.against.first()?;
            }
            "to" if !value.is_empty() => self.to = value.to_string(),
            _ => return None,
        }
        Some(())
    }
}

#[cfg(test)]
mod tests {
    use super::*;

    #[test]
    fn words_have_their_values() {
        let plan = Plan::read(&["--", "build", "-x"]).unwrap();
        assert_eq!((plan.seed, plan.lists, plan.calls, plan.seconds), (1, 1_000, 1_000, 60));
        assert_eq!((plan.silence, plan.to.as_str(), plan.list), (5, "differs.txt", None));
        assert_eq!(
            (plan.against, plan.command),
            (vec!["./bench".into()], vec!["build".into(), "-x".into()])
        );
        let words = "seed=0 lists=2 calls=3 seconds=4 silence=5 to=a -- b".split(' ');
        let plan = Plan::read(&words.collect::<Vec<_>>()).unwrap();
        assert_eq!((plan.seed, plan.lists, plan.calls, plan.seconds), (0, 2, 3, 4));
        let plan = Plan::read(&["against=second answer", "list=x", "--", "b"]).unwrap();
        assert_eq!(plan.against, ["second", "answer"]);
        assert_eq!((plan.list.as_deref(), plan.lists), (Some("x"), 1));
    }

    #[test]
    fn what_is_wrong_is_told() {
        let wrong = |words: &[&str]| Plan::read(words).unwrap_err();
        assert!(wrong(&["build"]).contains("`--`"));
        assert!(wrong(&["--"]).contains("no command"));
        for word in ["seed", "seed=x", "seed=-1", "lists=0", "calls=", "speed=3", "to=", "against="]
        {
            assert!(wrong(&[word, "--", "b"]).contains(word), "{word}");
        }
    }
}
