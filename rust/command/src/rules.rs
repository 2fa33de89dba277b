//! A plan's rules as text, one a line, and that text read again.
//!
//! ```text
//! narrow
//! start 7
//! 0 = empty
//! 1 = node 97 0
//! 4 = part 99 3 2
//! 7 = pair 6 3
//! ```
//!
//! The format and the start come first when they are written. When they are read they may stand anywhere or be left out: then the plan is narrow
//! unless a label is above 255, and the start is the last rule. Rules may stand in any order, each number once, from 0 without a gap. Behind `#` a
//! line is a comment.
use crate::trouble::Trouble;
use mealplan::{Format, Plan, Rule};
use std::fmt::Write;
use std::str::FromStr;

/// The kinds by name, in the order of their numbers, and how many numbers follow each.
const KINDS: [(&str, usize); 6] = [("empty", 0), ("pair", 2), ("node", 2), ("fill", 2), ("part", 3), ("join", 2)];

/// A plan's rules as text.
pub fn written(plan: Plan) -> String {
    let mut text = format!("{}\nstart {}\n", format_name(plan.format()), plan.start());
    for (number, rule) in plan.rules().enumerate() {
        // A string takes all.
        let _ = writeln!(text, "{number} = {}", told(rule));
    }
    text
}

pub fn format_name(format: Format) -> &'static str {
    match format {
        Format::Narrow => "narrow",
        Format::Wide => "wide",
    }
}

/// A rule's right-hand side in words.
pub fn told(rule: Rule) -> String {
    match rule {
        Rule::Empty => "empty".into(),
        Rule::Pair(b, c) => format!("pair {b} {c}"),
        Rule::Node(label, c) => format!("node {label} {c}"),
        Rule::Fill(b, c) => format!("fill {b} {c}"),
        Rule::Part(label, l, r) => format!("part {label} {l} {r}"),
        Rule::Join(b, c) => format!("join {b} {c}"),
    }
}

/// Rules that a text says, not judged yet, with the line of each.
#[derive(Debug, PartialEq)]
pub struct Draft {
    pub format: Format,
    pub start: u16,
    pub rules: Vec<Rule>,
    pub lines: Vec<usize>,
}

/// Reads the text of a file of this name.
pub fn read(name: &str, text: &str) -> Result<Draft, Trouble> {
    let (mut format, mut start) = (None, None);
    let mut rules: Vec<(u16, Rule, usize)> = Vec::new();
    for (i, line) in text.lines().enumerate() {
        let wrong = |what: String| Trouble::Text(name.to_owned(), i + 1, what);
        let words: Vec<&str> = line.split('#').next().unwrap_or_default().split_whitespace().collect();
        match words[..] {
            [] => {}
            ["narrow"] if format.is_none() => format = Some(Format::Narrow),
            ["wide"] if format.is_none() => format = Some(Format::Wide),
            ["start", number] if start.is_none() => start = Some(rule_number(number).map_err(wrong)?),
            ["narrow" | "wide" | "start", ..] => return Err(wrong("this was said before, or says too much".into())),
            [number, "=", kind, ref values @ ..] => {
                let number = rule_number(number).map_err(wrong)?;
                rules.push((number, rule(kind, values).map_err(wrong)?, i + 1));
            }
            _ => return Err(wrong("this is no rule, as '7 = pair 6 3' is one".into())),
        }
    }
    rules.sort_by_key(|(number, ..)| *number);
    for (expected, (number, _, line)) in rules.iter().enumerate() {
        if usize::from(*number) < expected {
            return Err(Trouble::Text(name.to_owned(), *line, format!("rule {number} is there twice")));
        }
        if usize::from(*number) > expected {
            return Err(Trouble::Text(
                name.to_owned(),
                *line,
                format!("there is a rule {number}, but no rule {expected}"),
            ));
        }
    }
    let last = u16::try_from(rules.len()).ok().and_then(|n| n.checked_sub(1));
    let labels = rules.iter().filter_map(|(_, rule, _)| rule.label());
    let fitting = if labels.max() > Some(Format::Narrow.most_label()) { Format::Wide } else { Format::Narrow };
    Ok(Draft {
        format: format.unwrap_or(fitting),
        start: start.or(last).unwrap_or_default(),
        lines: rules.iter().map(|(_, _, line)| *line).collect(),
        rules: rules.into_iter().map(|(_, rule, _)| rule).collect(),
    })
}

/// A rule by the name of its kind and the numbers behind it.
fn rule(kind: &str, values: &[&str]) -> Result<Rule, String> {
    let Some((_, count)) = KINDS.into_iter().find(|(name, _)| *name == kind) else {
        return Err(format!("there is no kind '{kind}': it is empty, pair, node, fill, part or join"));
    };
    if values.len() != count {
        return Err(format!("behind '{kind}' there are {count} numbers, not {}", values.len()));
    }
    let label = || number(values[0], "label");
    let named = |i: usize| rule_number(values[i]);
    Ok(match kind {
        "pair" => Rule::Pair(named(0)?, named(1)?),
        "node" => Rule::Node(label()?, named(1)?),
        "fill" => Rule::Fill(named(0)?, named(1)?),
        "part" => Rule::Part(label()?, named(1)?, named(2)?),
        "join" => Rule::Join(named(0)?, named(1)?),
        _ => Rule::Empty,
    })
}

fn rule_number(text: &str) -> Result<u16, String> {
    number(text, "rule")
}

fn number<N: FromStr>(text: &str, what: &str) -> Result<N, String> {
    text.parse().map_err(|_| format!("'{text}' is no number of a {what}"))
}

#[cfg(test)]
mod tests {
    use super::*;
    use mealplan::seal_rules;

    fn wrong(text: &str) -> (usize, String) {
        match read("x", text) {
            Err(Trouble::Text(_, line, wrong)) => (line, wrong),
            other => panic!("{other:?}"),
        }
    }

    #[test]
    fn what_is_written_is_read_again() {
        let rules = [
            Rule::Empty,
            Rule::Node(70_000, 0),
            Rule::Part(0, 1, 0),
            Rule::Part(9, 0, 1),
            Rule::Join(3, 2),
            Rule::Fill(4, 1),
            Rule::Pair(5, 1),
        ];
        for format in [Format::Narrow, Format::Wide] {
            let rules = rules.map(|rule| match (rule, format) {
                (Rule::Node(_, c), Format::Narrow) => Rule::Node(255, c),
                _ => rule,
            });
            let bytes = seal_rules(&rules, format, 5).expect("a plan");
            let text = written(Plan::new(&bytes).expect("it was sealed"));
            let draft = Draft { format, start: 5, rules: rules.to_vec(), lines: (3..10).collect() };
            assert_eq!(read("x", &text).expect("what was written"), draft);
        }
    }

    #[test]
    fn what_is_left_out_is_taken_for_granted() {
        let draft = read("x", "# two\n\n 1=2\n").map(|_| ());
        assert!(draft.is_err());
        let draft = read("x", "1 = node 256 0 # wide\n0 = empty\n").expect("rules");
        assert_eq!((draft.format, draft.start, draft.lines), (Format::Wide, 1, vec![2, 1]));
        assert_eq!(draft.rules, [Rule::Empty, Rule::Node(256, 0)]);
        let draft = read("x", "0 = empty").expect("rules");
        assert_eq!((draft.format, draft.start), (Format::Narrow, 0));
        assert_eq!(read("x", "").expect("no rules").rules, []);
    }

    #[test]
    fn a_faulty_line_is_named() {
        assert_eq!(wrong("0 = empty\n2 = empty\n"), (2, "there is a rule 2, but no rule 1".into()));
        assert_eq!(wrong("0 = empty\n0 = pair 0 0\n"), (2, "rule 0 is there twice".into()));
        assert_eq!(wrong("0 = heap 1").0, 1);
        assert_eq!(wrong("\n0 = pair 1"), (2, "behind 'pair' there are 2 numbers, not 1".into()));
        assert_eq!(wrong("0 = pair 1 65536"), (1, "'65536' is no number of a rule".into()));
        assert_eq!(wrong("0 = node 4294967296 0"), (1, "'4294967296' is no number of a label".into()));
        assert_eq!(wrong("narrow\nwide").0, 2);
        assert_eq!(wrong("start 1\nstart 1").0, 2);
        assert_eq!(wrong("start").0, 1);
        assert_eq!(wrong("pair 6 3").0, 1);
    }
}
