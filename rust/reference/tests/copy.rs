//! The client's copy (document 02, Note 6): the visible forest of the sample plan and of plans at random, held to their texts with the hidden
//! parts struck out, and their grams and those of what is taken out (Note 8); prints of forests beside the forests themselves; refusals in their
//! order.
use reference::copy::{self, Client, MOST_COPIED, copy_bytes};
use reference::plan::{self, Rule, SAMPLE, Sort, WORDS, work_bytes};
use reference::rows::{LAST_LABEL, Row};
use reference::unfolded::Unfolded;
use reference::{Checked, Format, Why, rules};
use std::collections::HashMap;

fn plan_of(format: Format, rules: &[Rule], start: u16) -> Vec<u8> {
    let records: Vec<[u16; WORDS]> = rules.iter().map(|rule| rule.words()).collect();
    let words = records.iter().flat_map(|record| &record[..format.words()]);
    let mut plan: Vec<u8> = words.flat_map(|word| word.to_le_bytes()).collect();
    plan.extend(plan::trailer(format, rules.len(), start));
    plan
}

/// A client for whom the labels below 256 are of these classes, and weigh as many grams as the label's square.
fn client(class: u16, of: impl Fn(u32) -> u16) -> Client {
    let row = |lowest: u32, highest, class| Row { lowest, highest, class, grams: (lowest * lowest) as u16 };
    let mut rows: Vec<Row> = (0..256).map(|label| row(label, label, of(label))).collect();
    rows.push(row(256, LAST_LABEL, 0));
    Client { rows, class }
}

/// The same by the text alone: each bracket whose label is hidden is struck out up to the one that closes it.
fn struck_out(text: &str, hidden: &str) -> String {
    let (mut left, mut depth, mut gone) = (String::new(), 0, 0);
    let letters: Vec<char> = text.chars().collect();
    for (index, letter) in letters.iter().enumerate() {
        if *letter == '(' {
            depth += 1;
            if gone == 0 && hidden.contains(letters[index + 1]) {
                gone = depth;
            }
        }
        if gone == 0 {
            left.push(*letter);
        }
        if *letter == ')' {
            if gone == depth {
                gone = 0;
            }
            depth -= 1;
        }
    }
    left
}

/// The text of a forest whose labels are letters.
fn text(forest: &[copy::Node]) -> String {
    forest.iter().map(|node| format!("({}{})", char::from(node.label as u8), text(&node.below))).collect()
}

/// The grams of a text, by such a list.
fn grams(text: &str) -> u64 {
    text.bytes().filter(u8::is_ascii_lowercase).map(|letter| u64::from(letter).pow(2)).sum()
}

#[test]
fn the_sample_plan() {
    const WHOLE: &str = "(c(a)(b)(c(a)(b)(a)(b))(b))(a)(b)";
    for format in Format::BOTH {
        let unfolded = Unfolded::of(&plan_of(format, &SAMPLE, 7), 11).expect("eleven nodes");
        let all = copy::nodes(&unfolded.forest.trees);
        assert_eq!((text(&all).as_str(), copy::count(&all)), (WHOLE, 11));
        assert_eq!(copy::told(&all), "(99(97)(98)(99(97)(98)(97)(98))(98))(97)(98)");
        for (hidden, seen) in [
            ("", WHOLE),
            ("a", "(c(b)(c(b)(b))(b))(b)"),
            ("b", "(c(a)(c(a)(a)))(a)"),
            ("c", "(a)(b)"),
            ("ab", "(c(c))"),
            ("bc", "(a)"),
            ("abc", ""),
        ] {
            assert_eq!(struck_out(WHOLE, hidden), seen);
            let class = |label: u32| if hidden.contains(char::from(label as u8)) { 2 } else { 1 };
            for (of_client, seen) in [(3, WHOLE), (2, WHOLE), (1, seen)] {
                assert_eq!(
                    text(&unfolded.visible(&client(of_client, class))),
                    seen,
                    "{hidden} hidden, class {of_client}"
                );
            }
            assert_eq!(text(&unfolded.visible(&client(0, class))), "", "all are of a higher class");
        }
    }
}

/// Pseudo-random numbers (splitmix64).
struct Random(u64);

impl Random {
    fn below(&mut self, bound: usize) -> usize {
        self.0 = self.0.wrapping_add(0x9E37_79B9_7F4A_7C15);
        let mut mixed = self.0;
        mixed = (mixed ^ (mixed >> 30)).wrapping_mul(0xBF58_476D_1CE4_E5B9);
        mixed = (mixed ^ (mixed >> 27)).wrapping_mul(0x94D0_49BB_1331_11EB);
        ((mixed ^ (mixed >> 31)) % bound as u64) as usize
    }
}

/// Rules at random that name lower ones, with labels from a to f.
fn any_rules(random: &mut Random, n: usize) -> Vec<Rule> {
    let mut rules = vec![Rule::Empty];
    while rules.len() < n {
        let mut name = |sort: Sort| {
            let fitting: Vec<u16> =
                (0..rules.len() as u16).filter(|rule| sort.has(rules[usize::from(*rule)].words()[0])).collect();
            if fitting.is_empty() { None } else { Some(fitting[random.below(fitting.len())]) }
        };
        let names = [Sort::CLOSED, Sort::CLOSED, Sort::HOLED, Sort::HOLED, Sort::TREE].map(&mut name);
        let label = 97 + random.below(6) as u32;
        let rule = match (random.below(6), names) {
            (0 | 1, [Some(b), Some(c), ..]) => Rule::Pair(b, c),
            (2, [Some(c), ..]) => Rule::Node(label, c),
            (3, [_, _, Some(b), _, Some(c)]) => Rule::Fill(b, c),
            (4, [Some(l), Some(r), ..]) => Rule::Part(label, l, r),
            (5, [_, _, Some(b), Some(c), _]) => Rule::Join(b, c),
            _ => continue,
        };
        rules.push(rule);
    }
    rules
}

#[test]
fn plans_at_random() {
    let mut random = Random(6);
    let mut forests: HashMap<u64, String> = HashMap::new();
    let mut tried = 0;
    while tried < 3_000 {
        let n = 2 + random.below(30);
        let rules = any_rules(&mut random, n);
        let closed: Vec<u16> =
            (0..n as u16).filter(|rule| Sort::CLOSED.has(rules[usize::from(*rule)].words()[0])).collect();
        let plan = plan_of(Format::Narrow, &rules, closed[random.below(closed.len())]);
        let Some(unfolded) = Unfolded::of(&plan, 400) else { continue };
        let all = text(&copy::nodes(&unfolded.forest.trees));
        let hidden: String = ('a'..='f').filter(|_| random.below(4) == 0).collect();
        let client = client(0, |label| u16::from(hidden.contains(char::from(label as u8))));
        let seen = text(&unfolded.visible(&client));
        assert_eq!(seen, struck_out(&all, &hidden), "of {all} without {hidden}");
        let weighed = rules::grams(&plan, &client.rows, &mut vec![7; work_bytes(n)]);
        assert_eq!((weighed, unfolded.grams(&client.rows, &mut vec![7; work_bytes(n)])), (Ok(grams(&all)), weighed));
        let out: u64 = client.taken_out(&unfolded.forest.trees).iter().map(|label| u64::from(*label).pow(2)).sum();
        assert_eq!(grams(&seen) + out, grams(&all), "of {all} without {hidden}");
        assert_eq!(rules::taken_out(&plan, &client), Ok(Some(out.into())), "of {all} without {hidden}");
        // Equal forests have equal prints, whatever the rules and whatever is hidden, and no two others here have one in common.
        for (forest, sees) in [(seen, &(|label| client.sees(label)) as &dyn Fn(u32) -> bool), (all, &|_| true)] {
            let print = rules::visible_print(&plan, sees, 0x1234_5678_9ABC_DEF1).expect("a valid plan");
            assert_eq!(forests.entry(print).or_insert_with(|| forest.clone()), &forest);
        }
        tried += 1;
    }
    assert!(forests.len() > 500, "{} forests", forests.len());
}

#[test]
fn refusals_in_their_order() {
    let row = |lowest, highest, class| Row { lowest, highest, class, grams: 65_535 };
    let sound = vec![row(0, LAST_LABEL, 2)];
    let unsound = vec![row(0, 9, 0), row(11, LAST_LABEL, 0)];
    let judge = |plan: &[u8], rows: &[Row], class: u16, work: usize, out: usize| {
        Client { rows: rows.to_vec(), class }.judge(plan, work, out)
    };
    for format in Format::BOTH {
        let plan = plan_of(format, &SAMPLE, 7);
        let (work, out) = (work_bytes(8), copy_bytes(8));
        assert_eq!((work, out), (512, 330));
        for class in 0..=3 {
            assert_eq!(judge(&plan, &sound, class, work, out), Ok(Checked { n: 8, start: 7 }));
        }
        assert_eq!(judge(&plan, &sound, 0, work - 1, out), Err(Why::Lent.here()));
        assert_eq!(judge(&plan, &sound, 0, work, out - 1), Err(Why::Lent.here()));
        assert_eq!(judge(&plan, &unsound, 0, work - 1, out - 1), Err(Why::Gap.at(1)));
        assert_eq!(judge(&plan, &[], 0, work, out), Err(Why::Gap.here()));
        for class in [4, 65_535] {
            assert_eq!(judge(&plan, &unsound, class, 0, 0), Err(Why::Row.here()), "before the list is read");
        }
        assert_eq!(judge(&plan[1..], &unsound, 4, 0, 0), Err(Why::Distance.here()), "as check, before all else");
        for n in [MOST_COPIED, MOST_COPIED + 1] {
            let plan = plan_of(format, &vec![Rule::Empty; n], 0);
            let (work, out) = (80 * n, 40 * n + 10);
            if n > MOST_COPIED {
                assert_eq!(judge(&plan, &sound, 0, 0, 0), Err(Why::TooMany.here()), "before 8");
                assert_eq!(judge(&plan, &sound, 0, work, out), Err(Why::TooMany.here()));
                assert_eq!(judge(&plan, &unsound, 0, work, out), Err(Why::Gap.at(1)), "after the list's check");
                assert_eq!(judge(&plan, &unsound, 4, work, out), Err(Why::Row.here()));
            } else {
                assert_eq!(judge(&plan, &sound, 0, work, out), Ok(Checked { n: n as u16, start: 0 }));
                assert_eq!(judge(&plan, &sound, 0, work - 1, out), Err(Why::Lent.here()));
                assert_eq!(judge(&plan, &sound, 0, work, out - 1), Err(Why::Lent.here()));
            }
        }
    }
}
