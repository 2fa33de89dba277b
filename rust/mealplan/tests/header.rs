//! The crate's numbers and names beside those of include/mealplan.h.
use mealplan::*;

fn header() -> String {
    let file = concat!(env!("CARGO_MANIFEST_DIR"), "/../../include/mealplan.h");
    std::fs::read_to_string(file).expect("the header")
}

/// The number behind a macro's name, or an enum's.
fn number(header: &str, name: &str) -> u64 {
    let mut words = header.split_whitespace().skip_while(|word| *word != format!("MEALPLAN_{name}"));
    let mut value = words.nth(1).unwrap_or_else(|| panic!("{name} has no value"));
    if value == "=" {
        value = words.next().unwrap_or_default();
    }
    value.trim_end_matches([',', 'u']).parse().unwrap_or_else(|_| panic!("{name} is no number: {value}"))
}

/// A name as C has it: NotBelow is NOT_BELOW.
fn in_capitals(name: &str) -> String {
    let mut capitals = String::new();
    for (i, letter) in name.chars().enumerate() {
        if i > 0 && letter.is_uppercase() {
            capitals.push('_');
        }
        capitals.extend(letter.to_uppercase());
    }
    capitals
}

#[test]
fn limits_are_the_headers() {
    let header = header();
    for (name, own) in [
        ("NARROW", NARROW.into()),
        ("WIDE", WIDE.into()),
        ("MOST_RULES", MOST_RULES as u64),
        ("FEW_RULES", FEW_RULES as u64),
        ("MOST_COPIED", MOST_COPIED as u64),
        ("NOWHERE", NOWHERE.into()),
        ("DIVIDER", DIVIDER.into()),
        ("LAST_LABEL", LAST_LABEL.into()),
        ("LAST_CLASS", LAST_CLASS.into()),
    ] {
        assert_eq!(number(&header, name), own, "{name}");
    }
}

#[test]
fn refusals_are_the_headers() {
    let header = header();
    for refusal in Refusal::ALL {
        let name = in_capitals(&format!("{refusal:?}"));
        assert_eq!(number(&header, &name), refusal.number().into(), "{name}");
    }
    let listed =
        header.split("enum mealplan_refusal {").nth(1).and_then(|text| text.split("};").next()).expect("the refusals");
    assert_eq!(listed.matches("MEALPLAN_").count(), Refusal::ALL.len() + 1);
}

#[test]
fn reasons_are_the_headers() {
    let header = header();
    for reason in Reason::ALL {
        let name = in_capitals(&format!("{reason:?}"));
        assert_eq!(number(&header, &name), reason.number().into(), "{name}");
    }
    let listed =
        header.split("enum mealplan_reason {").nth(1).and_then(|text| text.split("};").next()).expect("the reasons");
    assert_eq!(listed.matches("MEALPLAN_").count(), Reason::ALL.len());
}
