//! Walking one rule alone (document 02, Note 10), in both formats and by both references. Word 1 of cell 0 names the rule; answers and places are then
//! those of the same plan started there; the word stays; a number beyond the rules or of a holed rule is refused with 10; and each cursor of compare
//! has its own word.
use reference::place::{self, Cell};
use reference::plan::{self, MAX_RULES, Rule, SAMPLE, WORDS, cursor_bytes, work_bytes};
use reference::unfolded::Unfolded;
use reference::{Compared, Format, NOWHERE, Refused, Why, answers, rules, words};

const CLOSED: [u16; 6] = [0, 1, 2, 3, 6, 7];

/// Strings of letters that lead everywhere in the sample plan, and nowhere in many ways.
const STRINGS: [&[u8]; 7] = [b"", b"s", b"annu", b"afnnfnnnnununnn", b"zplplpuufnns", b"zzaalfpnu", b"flnpus"];

fn plan_of(format: Format, rules: &[Rule], start: u16) -> Vec<u8> {
    let records: Vec<[u16; WORDS]> = rules.iter().map(|rule| rule.words()).collect();
    let words = records.iter().flat_map(|record| &record[..format.words()]);
    let mut plan: Vec<u8> = words.flat_map(|word| word.to_le_bytes()).collect();
    plan.extend(plan::trailer(format, rules.len(), start));
    plan
}

/// A cursor with these words in cell 0 and these cells, and anything behind them.
fn cursor_of(n: usize, head: [u16; 4], cells: &[Cell]) -> Vec<u8> {
    let mut cursor = vec![7; cursor_bytes(n) + 5];
    let all = std::iter::once(head).chain(cells.iter().map(|cell| cell.0));
    all.zip(cursor.as_chunks_mut().0).for_each(|(cell, room)| *room = words::pack(cell));
    cursor
}

/// What both references make of a walk, where the forest walked has few nodes, or that by rules alone: the answers, or the refusal and the cursor as it
/// was.
fn walk(plan: &[u8], n: usize, cursor: &mut [u8], letters: &[u8]) -> Result<Vec<u32>, Refused> {
    let before = cursor.to_vec();
    let by_rules = |work: &mut [u8], cursor: &mut [u8], out: &mut [u8]| rules::walk(plan, work, cursor, letters, out);
    let (mut work, mut out) = (vec![5; work_bytes(n)], vec![9; answers::LENGTH * letters.len()]);
    let walked = by_rules(&mut work, cursor, &mut out);
    assert!(walked.is_ok() || (before == cursor && out.iter().all(|byte| *byte == 9)), "refused, all is as it was");
    assert_eq!(place::word(cursor), place::word(&before), "the word stays");
    let few = Unfolded::of(plan, 100);
    let (mut other, mut answered) = (before, vec![9; out.len()]);
    if let Some(by_finger) = few.and_then(|few| few.walk(&mut work, &mut other, letters, &mut answered)) {
        assert_eq!((by_finger, &other[..], answered), (walked, &*cursor, out.clone()), "the references agree");
    }
    walked.map(|()| (0..letters.len()).map(|index| answers::get(&out, index)).collect())
}

/// The used cells; behind them there are zeros.
fn cells(cursor: &[u8], n: usize) -> Vec<Cell> {
    let cells = place::used(cursor).expect("cell 0");
    assert!(cursor[8 * (cells.len() + 1)..cursor_bytes(n)].iter().all(|byte| *byte == 0));
    cells
}

#[test]
fn a_day_of_the_sample_plan() {
    for format in Format::BOTH {
        let plan = plan_of(format, &SAMPLE, 7);
        let mut cursor = cursor_of(8, [0, 4, 0, 0], &[]);
        assert_eq!(walk(&plan, 8, &mut cursor, b"a"), Ok(vec![97]));
        assert_eq!(cells(&cursor, 8), [[1, 0, 3, 0], [3, 3, 1, 0], [2, 1, 0, 0]].map(Cell));
        assert_eq!(words::unpack(cursor.as_chunks().0[0]), [3, 4, 0, 0]);
        assert_eq!(walk(&plan, 8, &mut cursor, b"nnu"), Ok(vec![98, NOWHERE, NOWHERE]));
        assert_eq!(cells(&cursor, 8), [[1, 0, 3, 0], [4, 3, 2, 0], [2, 2, 0, 0]].map(Cell));
        assert_eq!(walk(&plan, 8, &mut cursor, b"x"), Err(Why::Letter.at(0)));
        assert_eq!(words::unpack(cursor.as_chunks().0[0]), [3, 4, 0, 0]);
        // The empty rule is closed: it is walked, and has no tree.
        let mut cursor = cursor_of(8, [0, 1, 0, 0], &[]);
        assert_eq!(walk(&plan, 8, &mut cursor, b"azs"), Ok(vec![NOWHERE; 3]));
        assert_eq!(words::unpack(cursor.as_chunks().0[0]), [0, 1, 0, 0]);
    }
}

/// Walks with the word that names a rule, and on the plan started there with word 0: the same answers and cells, by lists of calls.
fn as_started_there(format: Format, rules: &[Rule], start: u16, rule: u16) {
    let (plan, there) = (plan_of(format, rules, start), plan_of(format, rules, rule));
    let n = rules.len();
    let mut by_start = cursor_of(n, [0; 4], &[]);
    let mut by_word = cursor_of(n, [0, rule + 1, 0, 0], &[]);
    for letters in STRINGS {
        let answers = walk(&there, n, &mut by_start, letters);
        assert!(answers.is_ok());
        assert_eq!(walk(&plan, n, &mut by_word, letters), answers, "rule {rule} of a plan started at {start}");
        assert_eq!(cells(&by_word, n), cells(&by_start, n));
        assert_eq!((&by_word[..2], &by_word[4..]), (&by_start[..2], &by_start[4..]), "they differ in word 1 alone");
    }
}

#[test]
fn every_rule_as_if_started_there() {
    for format in Format::BOTH {
        for (start, rule) in CLOSED.into_iter().flat_map(|start| CLOSED.map(|rule| (start, rule))) {
            as_started_there(format, &SAMPLE, start, rule);
        }
    }
}

#[test]
fn words_that_name_no_closed_rule() {
    for format in Format::BOTH {
        for start in CLOSED {
            let plan = plan_of(format, &SAMPLE, start);
            for word in 0..=u16::MAX {
                let closed = word == 0 || CLOSED.contains(&(word - 1));
                let mut cursor = cursor_of(8, [0, word, 0, 0], &[]);
                let walked = rules::walk(&plan, &mut vec![5; work_bytes(8)], &mut cursor, b"", &mut []);
                assert_eq!(walked, if closed { Ok(()) } else { Err(Why::Place.here()) }, "word {word}");
            }
            for word in [5, 6, 9, 10, 65_535] {
                let mut cursor = cursor_of(8, [0, word, 0, 0], &[]);
                assert_eq!(walk(&plan, 8, &mut cursor, b"a"), Err(Why::Place.here()));
                assert_eq!(walk(&plan, 8, &mut cursor, b"ax"), Err(Why::Letter.at(1)), "9 comes before 10");
                let lent = walk(&plan, 8, &mut cursor[..cursor_bytes(8) - 1], b"x");
                assert_eq!(lent, Err(Why::Lent.here()), "and 8 before 9");
            }
            for (two, three) in [(1, 0), (0, 1), (65_535, 65_535)] {
                for word in [0, 1, 4, 8] {
                    let mut cursor = cursor_of(8, [0, word, two, three], &[]);
                    assert_eq!(walk(&plan, 8, &mut cursor, b"a"), Err(Why::Place.here()), "words 2 and 3 must be 0");
                }
            }
        }
    }
}

#[test]
fn places_are_those_of_the_rule_named() {
    // Rule 8 is a one-sided pair: its places are those of its other side.
    let sides = [&SAMPLE[..], &[Rule::Pair(0, 3)]].concat();
    for format in Format::BOTH {
        let plan = plan_of(format, &sides, 7);
        let all = Unfolded::of(&plan, 100).expect("eleven nodes");
        let forest = |word: u16| all.walked(word).expect("closed").expect("eleven nodes");
        for (own, word) in CLOSED.iter().chain(&[8]).flat_map(|own| CLOSED.map(|rule| (own + 1, rule + 1))) {
            for place in forest(own).places() {
                let mut cursor = cursor_of(9, [place.len() as u16, word, 0, 0], place);
                let there = forest(word).path_of(place).is_some();
                assert_eq!(walk(&plan, 9, &mut cursor, b"s").is_ok(), there, "{place:?} of {own} by {word}");
                assert!(!there || own == word || place.is_empty() || (own, word) == (9, 4));
            }
        }
    }
}

#[test]
fn each_cursor_of_compare_has_its_own_word() {
    for format in Format::BOTH {
        let plan = plan_of(format, &SAMPLE, 7);
        let all = Unfolded::of(&plan, 11).expect("eleven nodes");
        let compare = |first: &[u8], second: &[u8], budget| {
            let compared = rules::compare(&plan, &mut vec![5; work_bytes(8)], first, second, budget);
            let by_finger = all.compare(&mut vec![5; work_bytes(8)], first, second, budget);
            assert_eq!(by_finger, Some(compared), "the references agree");
            compared
        };
        let mut nodes = Vec::new();
        for word in [0].into_iter().chain(CLOSED.map(|rule| rule + 1)) {
            let forest = all.walked(word).expect("closed").expect("eleven nodes");
            for place in forest.places().filter(|place| !place.is_empty()) {
                let path = forest.path_of(place).expect("a place has a path");
                let listed: Vec<_> = forest.node_at(&path).expect("a node").listed().collect();
                nodes.push((cursor_of(8, [place.len() as u16, word, 0, 0], place), listed));
            }
        }
        assert_eq!(nodes.len(), 2 * 11 + 1 + 1 + 2 + 9);
        for (first, one) in &nodes {
            for (second, other) in &nodes {
                let agree = one.iter().zip(other).take_while(|(one, other)| one == other).count() as u32;
                let expected = if one == other { Compared::Same(agree) } else { Compared::Differ(agree + 1) };
                assert_eq!(compare(first, second, u32::MAX), Ok(expected));
            }
            for word in [5, 6, 9, 65_535] {
                let bad = cursor_of(8, [0, word, 0, 0], &[]);
                assert_eq!(compare(first, &bad, 9), Err(Why::Place.here()));
                assert_eq!(compare(&bad, first, 9), Err(Why::Place.here()));
            }
        }
    }
}

#[test]
fn rules_of_a_ward() {
    for format in Format::BOTH {
        for n in [1, 1_024, 1_025, MAX_RULES] {
            // Each rule but the first is a node over the one before it; the start is the empty one.
            let node =
                |rule: usize| if rule == 0 { Rule::Empty } else { Rule::Node(rule as u32 % 200, rule as u16 - 1) };
            let all: Vec<Rule> = (0..n).map(node).collect();
            let plan = plan_of(format, &all, 0);
            for rule in [0, n / 2, n - 1] {
                let mut cursor = cursor_of(n, [0, rule as u16 + 1, 0, 0], &[]);
                let label = |rule: usize| if rule == 0 { NOWHERE } else { rule as u32 % 200 };
                let down = [label(rule), label(rule.saturating_sub(1))];
                assert_eq!(walk(&plan, n, &mut cursor, b"af"), Ok(down.to_vec()));
                assert_eq!(cells(&cursor, n).len(), 2 * rule.min(2));
            }
            for word in [n as u16 + 1, n as u16 + 2, 65_535] {
                let mut cursor = cursor_of(n, [0, word, 0, 0], &[]);
                assert_eq!(walk(&plan, n, &mut cursor, b"a"), Err(Why::Place.here()));
            }
        }
    }
}
