//! Why a letter moves or doesn't (document 02, Note 11), in both formats and by both references: each reason on the sample plan, 0 exactly where a walk
//! of the letter leads to a node, refusals in their order as in a walk of that letter, and the cursor as it was.
use reference::place::{self, Cell};
use reference::plan::{self, FEW_RULES, MAX_RULES, Rule, SAMPLE, WORDS, cursor_bytes, work_bytes};
use reference::unfolded::Unfolded;
use reference::{Format, LETTERS, NOWHERE, Reason, Refused, Why, answers, rules, words};

const CLOSED: [u16; 6] = [0, 1, 2, 3, 6, 7];

fn plan_of(format: Format, rules: &[Rule], start: u16) -> Vec<u8> {
    let records: Vec<[u16; WORDS]> = rules.iter().map(|rule| rule.words()).collect();
    let words = records.iter().flat_map(|record| &record[..format.words()]);
    let mut plan: Vec<u8> = words.flat_map(|word| word.to_le_bytes()).collect();
    plan.extend(plan::trailer(format, rules.len(), start));
    plan
}

/// A cursor with these words in cell 0 and these cells, and anything behind them.
fn cursor_of(n: usize, head: [u16; 4], cells: &[Cell]) -> Vec<u8> {
    let mut cursor = vec![7; cursor_bytes(n) + 5];
    let all = std::iter::once(head).chain(cells.iter().map(|cell| cell.0));
    all.zip(cursor.as_chunks_mut().0).for_each(|(cell, room)| *room = words::pack(cell));
    cursor
}

/// What both references say, where the forest walked has few nodes, or that by rules alone. Past 8 the work ends as zeros.
fn reason(plan: &[u8], n: usize, cursor: &[u8], letter: u8) -> Result<Reason, Refused> {
    let mut work = vec![5; work_bytes(n) + 3];
    let by_rules = rules::reason(plan, &mut work, cursor, letter);
    let cleared = if by_rules == Err(Why::Lent.here()) { 0 } else { work_bytes(n) };
    assert!(work[..cleared].iter().all(|byte| *byte == 0) && work[cleared..].iter().all(|byte| *byte == 5));
    let mut work = vec![5; work_bytes(n)];
    if let Some(few) = Unfolded::of(plan, 100).and_then(|few| few.reason(&mut work, cursor, letter)) {
        assert_eq!(few, by_rules, "the references agree");
    }
    by_rules
}

/// The label that a walk of the letter arrives at, and whether it is refused.
fn walk(plan: &[u8], n: usize, cursor: &[u8], letter: u8) -> Result<u32, Refused> {
    let (mut cursor, mut out) = (cursor.to_vec(), vec![9; answers::LENGTH]);
    rules::walk(plan, &mut vec![5; work_bytes(n)], &mut cursor, &[letter], &mut out)?;
    Ok(answers::get(&out, 0))
}

/// The cursor behind letters from above the forest of the rule that a word names.
fn at(plan: &[u8], n: usize, word: u16, letters: &[u8]) -> Vec<u8> {
    let mut cursor = cursor_of(n, [0, word, 0, 0], &[]);
    let mut out = vec![0; answers::LENGTH * letters.len()];
    rules::walk(plan, &mut vec![0; work_bytes(n)], &mut cursor, letters, &mut out).expect("from above");
    cursor
}

#[test]
fn each_reason_on_the_sample_plan() {
    use Reason::{Above, FirstSibling, LastSibling, Moves, NoChildren, NoTrees, Root};
    for format in Format::BOTH {
        let plan = plan_of(format, &SAMPLE, 7);
        // The reasons of a z f l n p u s.
        for (word, keys, expected) in [
            (0, "", [Moves, Moves, Above, Above, Above, Above, Above, Above]),
            (0, "a", [Moves, Moves, Moves, Moves, Moves, FirstSibling, Root, Moves]),
            (0, "an", [Moves, Moves, NoChildren, NoChildren, Moves, Moves, Root, Moves]),
            (0, "z", [Moves, Moves, NoChildren, NoChildren, LastSibling, Moves, Root, Moves]),
            (0, "af", [Moves, Moves, NoChildren, NoChildren, Moves, FirstSibling, Moves, Moves]),
            (0, "afnn", [Moves, Moves, Moves, Moves, Moves, Moves, Moves, Moves]),
            (0, "al", [Moves, Moves, NoChildren, NoChildren, LastSibling, Moves, Moves, Moves]),
            (0, "afnnfnnn", [Moves, Moves, NoChildren, NoChildren, LastSibling, Moves, Moves, Moves]),
            (8, "a", [Moves, Moves, Moves, Moves, Moves, FirstSibling, Root, Moves]),
            // Rule 6 is one tree, and rule 1 one node.
            (7, "a", [Moves, Moves, Moves, Moves, LastSibling, FirstSibling, Root, Moves]),
            (2, "a", [Moves, Moves, NoChildren, NoChildren, LastSibling, FirstSibling, Root, Moves]),
            (4, "", [Moves, Moves, Above, Above, Above, Above, Above, Above]),
            (4, "z", [Moves, Moves, NoChildren, NoChildren, LastSibling, Moves, Root, Moves]),
            (1, "", [NoTrees; 8]),
        ] {
            let cursor = at(&plan, 8, word, keys.as_bytes());
            let came = LETTERS.map(|letter| reason(&plan, 8, &cursor, letter));
            assert_eq!(came, expected.map(Ok), "behind {keys} in the forest of word {word}");
        }
    }
}

#[test]
fn moving_is_not_being_told_nowhere() {
    for format in Format::BOTH {
        let plan = plan_of(format, &SAMPLE, 7);
        let all = Unfolded::of(&plan, 11).expect("eleven nodes");
        let mut came = [0; Reason::ALL.len()];
        for word in [0].into_iter().chain(CLOSED.map(|rule| rule + 1)) {
            for place in all.walked(word).expect("closed").expect("eleven nodes").places() {
                let cursor = cursor_of(8, [place.len() as u16, word, 0, 0], place);
                for letter in LETTERS {
                    let reason = reason(&plan, 8, &cursor, letter).expect("a place and a letter");
                    let nowhere = walk(&plan, 8, &cursor, letter) == Ok(NOWHERE);
                    assert_eq!(reason == Reason::Moves, !nowhere, "{place:?}, {}", char::from(letter));
                    came[reason as usize] += 1;
                }
            }
        }
        assert!(came.iter().all(|count| *count > 0), "{came:?}");
    }
}

#[test]
fn refused_as_a_walk_of_that_letter() {
    for format in Format::BOTH {
        let plan = plan_of(format, &SAMPLE, 7);
        let above = cursor_of(8, [0; 4], &[]);
        for byte in 0..=255 {
            let expected = if LETTERS.contains(&byte) { None } else { Some(Why::Letter.at(0)) };
            assert_eq!(reason(&plan, 8, &above, byte).err(), expected, "byte {byte}");
        }
        let no_place = [[1, 0, 0, 0], [0, 5, 0, 0], [0, 9, 0, 0], [0, 0, 1, 0], [0, 0, 0, 1], [65_535, 0, 0, 0]];
        for head in no_place {
            let cursor = cursor_of(8, head, &[]);
            for letter in LETTERS {
                assert_eq!(reason(&plan, 8, &cursor, letter), Err(Why::Place.here()), "{head:?}");
                assert_eq!(walk(&plan, 8, &cursor, letter), Err(Why::Place.here()));
            }
            assert_eq!(reason(&plan, 8, &cursor, b'x'), Err(Why::Letter.at(0)), "9 comes before 10");
            let short = &cursor[..cursor_bytes(8) - 1];
            let lent = rules::reason(&plan, &mut vec![5; work_bytes(8)], short, b'x');
            assert_eq!(lent, Err(Why::Lent.here()), "and 8 before 9");
            let lent = rules::reason(&plan, &mut vec![5; work_bytes(8) - 1], &cursor, b'x');
            assert_eq!(lent, Err(Why::Lent.here()), "for the work too");
            assert_eq!(rules::reason(&plan[1..], &mut [], &[], b'x'), Err(Why::Distance.here()), "and check before 8");
        }
        // What stands behind the place isn't judged, and the cursor is only read.
        let cursor = at(&plan, 8, 0, b"afnn");
        let used = 8 * (place::used(&cursor).expect("cell 0").len() + 1);
        let mut behind = cursor.clone();
        behind[used..].fill(255);
        assert_eq!(reason(&plan, 8, &behind, b'n'), reason(&plan, 8, &cursor, b'n'));
    }
}

#[test]
fn reasons_in_a_ward() {
    for format in Format::BOTH {
        for n in [FEW_RULES, FEW_RULES + 1, MAX_RULES] {
            // Nodes one over the other, the last of them the start.
            let node =
                |rule: usize| if rule == 0 { Rule::Empty } else { Rule::Node(rule as u32 % 200, rule as u16 - 1) };
            let all: Vec<Rule> = (0..n).map(node).collect();
            let plan = plan_of(format, &all, n as u16 - 1);
            let root = at(&plan, n, 0, b"a");
            let bottom = at(&plan, n, 0, &[&b"a"[..], &vec![b'f'; n]].concat());
            let reasons = |cursor: &[u8]| b"fnpu".map(|letter| reason(&plan, n, cursor, letter).expect("a place"));
            use Reason::{FirstSibling, LastSibling, Moves, NoChildren, Root};
            assert_eq!(reasons(&root), [Moves, LastSibling, FirstSibling, Root]);
            assert_eq!(reasons(&bottom), [NoChildren, LastSibling, FirstSibling, Moves]);
        }
    }
}
