//! What the commands do: a file read, a call of the library, its answer printed.
use crate::arguments::{Arguments, number};
use crate::list::List;
use crate::progress::during;
use crate::show::{self as tree, Shown};
use crate::trouble::{Outcome, Trouble};
use crate::{files, rules};
use mealplan::{Compared, Format, Label, Plan, Refusal, Walker};
use std::fmt::Write;
use std::io;

/// The most bytes of a text, lines of a tree and pairs of nodes where nobody says how many.
const MOST_TEXT: usize = 1 << 28;
const MOST_LINES: u64 = 200;
const BUDGET: u32 = 10_000_000;

/// The plan in these bytes of a file.
fn checked<'a>(name: &str, bytes: &'a [u8]) -> Result<Plan<'a>, Trouble> {
    during("checking", || Plan::new(bytes)).map_err(Trouble::refused(name))
}

/// A walker above a plan's forest, or above that of a rule.
pub fn walker_of<'a>(plan: Plan<'a>, rule: Option<u16>) -> Result<Walker<'a>, Trouble> {
    rule.map_or(Ok(plan.walker()), |rule| plan.walker_of(rule).map_err(Trouble::refused(&format!("rule {rule}"))))
}

pub fn check(arguments: &Arguments) -> Outcome {
    let [name] = arguments.words()?;
    let bytes = files::read(name)?;
    let plan = checked(name, &bytes)?;
    let (n, start, cover) = (plan.n(), plan.start(), plan.prefix().len());
    let text = format!("format {}\nrules {n}\nstart {start}\ncover {cover}\n", rules::format_name(plan.format()));
    files::print(text.as_bytes())
}

pub fn measure(arguments: &Arguments) -> Outcome {
    let [name] = arguments.words()?;
    let bytes = files::read(name)?;
    let plan = checked(name, &bytes)?;
    let size = during("measuring", || plan.measure()).map_err(Trouble::refused(name))?;
    files::print(format!("trees {}\nentries {}\nlevels {}\n", size.trees, size.entries, size.levels).as_bytes())
}

pub fn spread(arguments: &Arguments) -> Outcome {
    let [name] = arguments.words()?;
    let most = arguments.number("--most", MOST_TEXT)?;
    let bytes = files::read(name)?;
    let plan = checked(name, &bytes)?;
    let text = during("spreading", || plan.spread(most)).map_err(Trouble::refused(name))?;
    if arguments.has("--decimal") { files::print(&decimal(&text, plan.format())) } else { files::print(&text) }
}

/// A text with its labels as decimal numbers. Behind each opening bracket stands a label; all other bytes are brackets.
fn decimal(text: &[u8], format: Format) -> Vec<u8> {
    let mut out = Vec::with_capacity(2 * text.len());
    let mut rest = text;
    while let Some((bracket, behind)) = rest.split_first() {
        out.push(*bracket);
        rest = behind;
        if *bracket == b'('
            && let Some((label, behind)) = rest.split_at_checked(format.label_bytes())
        {
            let label = label.iter().rev().fold(0_u32, |sum, byte| 256 * sum + u32::from(*byte));
            out.extend(label.to_string().bytes());
            rest = behind;
        }
    }
    out
}

pub fn write_rules(arguments: &Arguments) -> Outcome {
    let [name] = arguments.words()?;
    let bytes = files::read(name)?;
    files::print(rules::written(checked(name, &bytes)?).as_bytes())
}

pub fn seal(arguments: &Arguments) -> Outcome {
    let [name] = arguments.words()?;
    let draft = rules::read(name, &files::read_text(name)?)?;
    let sealed = during("sealing", || mealplan::seal_rules(&draft.rules, draft.format, draft.start));
    let plan = sealed.map_err(|refused| {
        // Of a refusal whose position is a rule, the line that says the rule.
        use Refusal::{Cycle, Malformed, NotBelow, WrongSort};
        let is_of_rule = matches!(refused.refusal(), Some(Malformed | NotBelow | WrongSort | Cycle));
        let rule = usize::try_from(refused.position).ok().filter(|_| is_of_rule);
        Trouble::Refused(name.clone(), refused, rule.and_then(|rule| draft.lines.get(rule)).copied())
    })?;
    files::write_plan(arguments.value("-o"), &plan)
}

pub fn show(arguments: &Arguments) -> Outcome {
    let [name] = arguments.words()?;
    let shown =
        Shown { depth: arguments.number("--depth", u64::MAX)?, lines: arguments.number("--lines", MOST_LINES)? };
    let rule = arguments.given("--rule")?;
    let bytes = files::read(name)?;
    let mut walker = walker_of(checked(name, &bytes)?, rule)?;
    if let Some(keys) = arguments.value("--at") {
        press(&mut walker, keys)?;
        if walker.label().is_none() {
            return Err(Trouble::refused(&format!("keys {keys}"))(Refusal::Place.at(0)));
        }
    }
    let mut out = io::BufWriter::new(io::stdout().lock());
    tree::show(&mut walker, shown, &mut out).and_then(|()| io::Write::flush(&mut out)).map_err(Trouble::output)
}

/// Walks by keys that the user gave.
fn press(walker: &mut Walker, keys: &str) -> Result<Vec<Option<Label>>, Trouble> {
    walker.walk(keys.as_bytes()).map_err(Trouble::refused(&format!("keys {keys}")))
}

pub fn walk(arguments: &Arguments) -> Outcome {
    let [name, keys] = arguments.words()?;
    let rule = arguments.given("--rule")?;
    let bytes = files::read(name)?;
    let mut walker = walker_of(checked(name, &bytes)?, rule)?;
    let mut text = String::new();
    for (key, label) in keys.chars().zip(press(&mut walker, keys)?) {
        // A string takes all.
        let _ = match label {
            Some(label) => writeln!(text, "{key} {label}"),
            None => writeln!(text, "{key} -"),
        };
    }
    files::print(text.as_bytes())
}

pub fn why(arguments: &Arguments) -> Outcome {
    let [name, keys, asked] = arguments.words()?;
    let rule = arguments.given("--rule")?;
    let bytes = files::read(name)?;
    let mut walker = walker_of(checked(name, &bytes)?, rule)?;
    press(&mut walker, keys)?;
    let mut text = String::new();
    for key in asked.bytes() {
        let key_told = key.escape_ascii();
        let reason = walker.why(key).map_err(Trouble::refused(&format!("key {key_told}")))?;
        let _ = writeln!(text, "{key_told} {} {reason}", reason.number());
    }
    files::print(text.as_bytes())
}

pub fn compare(arguments: &Arguments) -> Outcome {
    let [name, first, second] = arguments.words()?;
    let budget = arguments.number("--budget", BUDGET)?;
    let rule = arguments.given("--rule")?;
    let with_rule = arguments.given("--with-rule")?.or(rule);
    let bytes = files::read(name)?;
    let plan = checked(name, &bytes)?;
    let (mut walker, mut other) = (walker_of(plan, rule)?, walker_of(plan, with_rule)?);
    press(&mut walker, first)?;
    press(&mut other, second)?;
    let compared = during("comparing", || walker.compare(&other.place(), budget)).map_err(Trouble::refused(name))?;
    let text = match compared {
        Compared::Same(count) => format!("same {count}\n"),
        Compared::Differ(count) => format!("differ {count}\n"),
        Compared::Spent(count) => format!("spent {count}\n"),
    };
    files::print(text.as_bytes())
}

pub fn classes(arguments: &Arguments) -> Outcome {
    let (name, labels) = arguments.first_word()?;
    let list = List::read(name, &files::read_text(name)?)?;
    let classes = list.classes()?;
    if labels.is_empty() {
        return files::print(format!("rows {}\n", list.rows.len()).as_bytes());
    }
    let mut text = String::new();
    for label in labels {
        let class = classes.class_of(number("a label", label)?).map_err(Trouble::refused(&format!("label {label}")))?;
        let _ = writeln!(text, "{label} {class}");
    }
    files::print(text.as_bytes())
}

pub fn copy(arguments: &Arguments) -> Outcome {
    let [name, list, class] = arguments.words()?;
    let class = number("the class", class)?;
    let bytes = files::read(name)?;
    let list = List::read(list, &files::read_text(list)?)?;
    let plan = checked(name, &bytes)?;
    let classes = list.classes()?;
    let copied = during("copying", || plan.copy(classes, class)).map_err(|refused| match refused.refusal() {
        // The list is sound, so it is the client's class.
        Some(Refusal::Row) => Trouble::Refused(format!("class {class}"), refused, None),
        _ => Trouble::Refused(name.clone(), refused, None),
    })?;
    files::write_plan(arguments.value("-o"), &copied)
}

pub fn grams(arguments: &Arguments) -> Outcome {
    let [name, list] = arguments.words()?;
    let bytes = files::read(name)?;
    let list = List::read(list, &files::read_text(list)?)?;
    let plan = checked(name, &bytes)?;
    let classes = list.classes()?;
    let grams = during("weighing", || plan.grams(classes)).map_err(Trouble::refused(name))?;
    files::print(format!("grams {grams}\n").as_bytes())
}

#[cfg(test)]
mod tests {
    use super::*;

    #[test]
    fn labels_of_a_text_in_decimal() {
        assert_eq!(decimal(b"(c(a)(()())))", Format::Narrow), b"(99(97)(40)(41)))");
        assert_eq!(decimal(b"((\x01\x00(\xFF\xFF\xFF))", Format::Wide), b"(296(16777215))");
        assert_eq!(decimal(b"(a", Format::Wide), b"(a");
    }
}
