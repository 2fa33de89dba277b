//! Plans of more rules (document 02, Note 3), in both formats: the limit, the words of work on both sides of 1,024 rules, and places of many
//! cells.
use reference::place::{self, Cell};
use reference::plan::{self, FEW_RULES, MAX_RULES, Rule, WORDS, cursor_bytes, work_bytes};
use reference::unfolded::Unfolded;
use reference::{Checked, Format, Measured, NOWHERE, Refused, Unsealed, Why, answers, rules};

/// A plan without cover, whatever its rules.
fn plan_of(format: Format, records: &[[u16; WORDS]], start: u16) -> Vec<u8> {
    let words = records.iter().flat_map(|record| &record[..format.words()]);
    let mut plan: Vec<u8> = words.flat_map(|word| word.to_le_bytes()).collect();
    plan.extend(plan::trailer(format, records.len(), start));
    plan
}

/// The sizes: on both sides of where a rule's work grows, between, and on both sides of the limit.
const SIZES: [usize; 7] = [1_023, 1_024, 1_025, 2_000, 16_383, 16_384, 16_385];

/// Rule 0 is empty and each other is made from its number.
fn made(n: usize, rule: impl Fn(u16) -> Rule) -> Vec<[u16; WORDS]> {
    (0..n as u16).map(|number| if number == 0 { Rule::Empty } else { rule(number) }.words()).collect()
}

/// Node over node, n − 1 levels.
fn nodes(n: usize) -> Vec<[u16; WORDS]> {
    made(n, |number| Rule::Node(97, number - 1))
}

/// A leaf, and pairs with it on either side by turns.
fn zigzag(n: usize) -> Vec<[u16; WORDS]> {
    made(n, |number| match number {
        1 => Rule::Node(97, 0),
        2 => Rule::Node(98, 0),
        _ if number % 2 == 0 => Rule::Pair(number - 1, 1),
        _ => Rule::Pair(1, number - 1),
    })
}

/// The same rules numbered from the other end.
fn backwards(records: &[[u16; WORDS]]) -> Vec<[u16; WORDS]> {
    let of = |rule: u16| records.len() as u16 - 1 - rule;
    let renamed = |record: &[u16; WORDS]| match Rule::of(*record) {
        Rule::Empty => Rule::Empty,
        Rule::Pair(b, c) => Rule::Pair(of(b), of(c)),
        Rule::Node(label, c) => Rule::Node(label, of(c)),
        _ => unreachable!("rows and nodes alone"),
    };
    records.iter().rev().map(|record| renamed(record).words()).collect()
}

#[test]
fn the_limit() {
    for format in Format::BOTH {
        for n in SIZES {
            let plan = plan_of(format, &vec![[0; WORDS]; n], 3);
            let words = &plan[..format.record() * n];
            let (mut sealed, mut unsealed) = (vec![7; plan.len()], vec![7; words.len()]);
            let written = plan::seal(words, format.record_length(), 3, &mut sealed);
            let read = plan::unseal(&plan, &mut unsealed);
            if n > 16_384 {
                assert_eq!(plan::check(&plan), Err(Why::Count.here()));
                assert_eq!((written, read), (Err(Why::Count.here()), Err(Why::Count.here())));
                assert!(sealed.iter().chain(&unsealed).all(|byte| *byte == 7), "refused, nothing is written");
                continue;
            }
            let record_length = format.record_length();
            assert_eq!(plan::check(&plan), Ok(Checked { n: n as u16, start: 3 }));
            assert_eq!((written, sealed == plan), (Ok(plan.len() as u64), true));
            assert_eq!((read, unsealed), (Ok(Unsealed { record_length, n: n as u16, start: 3 }), words.to_vec()));
        }
        // n comes before the distance, and behind the mark.
        for n in [1_025, 16_384, 16_385, 65_535_u16] {
            let trailer = |mark: [u8; 2]| [&n.to_le_bytes()[..], &[0, 0, 8, 0, 0, 0], &mark].concat();
            let expected = if n > 16_384 { Why::Count } else { Why::Distance };
            assert_eq!(plan::check(&trailer(format.mark())), Err(expected.here()));
            assert_eq!(plan::check(&trailer(*b"mr")), Err(Why::Mark.here()));
        }
    }
    assert_eq!((FEW_RULES, MAX_RULES), (1_024, 16_384));
}

/// What measure, spread and a walk without letters say, with so many bytes of work; and how many at its front they cleared.
fn worked(plan: &[u8], n: usize, bytes: usize) -> [(Option<Refused>, usize); 3] {
    let mut work = vec![5; bytes];
    let cleared = |refused: Option<Refused>, work: &mut Vec<u8>| {
        let zeros = work.iter().take_while(|byte| **byte == 0).count();
        assert!(work[zeros..].iter().all(|byte| *byte == 5), "behind what is cleared nothing changes");
        work.fill(5);
        (refused, zeros)
    };
    let measured = rules::measure(plan, &mut work).err();
    let measured = cleared(measured, &mut work);
    let spread = rules::spread(plan, &mut work, &mut []).err();
    let spread = cleared(spread, &mut work);
    let walked = rules::walk(plan, &mut work, &mut vec![0; cursor_bytes(n)], &[], &mut []).err();
    [measured, spread, cleared(walked, &mut work)]
}

#[test]
fn words_of_work() {
    for format in Format::BOTH {
        for n in SIZES.into_iter().filter(|n| *n <= MAX_RULES) {
            let words = if n > 1_024 { 40 * n } else { 32 * n };
            assert_eq!(work_bytes(n), 2 * words);
            let plan = plan_of(format, &vec![[0; WORDS]; n], 0);
            for bytes in [2 * words, 2 * words + 1, 80 * n, 80 * n + 9] {
                assert_eq!(worked(&plan, n, bytes), [(None, 2 * words); 3], "{n} rules, {bytes} bytes");
            }
            for bytes in [0, 64 * n - 1, 2 * words - 2, 2 * words - 1] {
                assert_eq!(worked(&plan, n, bytes), [(Some(Why::Lent.here()), 0); 3], "{n} rules, {bytes} bytes");
            }
            let short = rules::walk(&plan, &mut vec![5; 2 * words], &mut vec![0; cursor_bytes(n) - 1], &[], &mut []);
            assert_eq!(short, Err(Why::Lent.here()), "the cursor is 16 × (n + 1) words as before");
        }
    }
}

/// Walks by rules from a cursor; gives the labels.
fn walk(plan: &[u8], n: usize, cursor: &mut [u8], letters: &[u8]) -> Result<Vec<u32>, Refused> {
    let mut out = vec![9; answers::LENGTH * letters.len()];
    rules::walk(plan, &mut vec![5; work_bytes(n)], cursor, letters, &mut out)?;
    Ok((0..letters.len()).map(|index| answers::get(&out, index)).collect())
}

#[test]
fn places_of_many_cells() {
    for format in Format::BOTH {
        for n in SIZES.into_iter().filter(|n| *n <= MAX_RULES) {
            for (records, start) in [(nodes(n), n - 1), (backwards(&nodes(n)), 0)] {
                let plan = plan_of(format, &records, start as u16);
                let levels = n as u64 - 1;
                let measured = rules::measure(&plan, &mut vec![5; work_bytes(n)]);
                assert_eq!(measured, Ok(Measured { trees: 1, entries: levels, levels }));
                // A row and a spine for each node, down to the last.
                let mut cursor = vec![0; cursor_bytes(n)];
                let down = [b"a", &vec![b'f'; n][..]].concat();
                let labels = walk(&plan, n, &mut cursor, &down).expect("from above");
                assert!(labels[..n - 1].iter().all(|label| *label == 97) && labels[n - 1..] == [NOWHERE; 2]);
                let number = |level: usize| if start == 0 { level as u16 } else { (start - level) as u16 };
                let cell = |index: usize| match index % 2 {
                    0 => Cell([Cell::ROW, 0, number(index / 2), 0]),
                    _ => Cell::spine(number(index / 2)),
                };
                let cells: Vec<Cell> = (0..2 * (n - 1)).map(cell).collect();
                assert_eq!(place::used(&cursor), Ok(cells));
                // A place again, with anything behind it, but not one cell shorter or with a cell changed.
                let stored = cursor.clone();
                cursor[8 * (2 * n - 1)..].fill(7);
                assert_eq!(walk(&plan, n, &mut cursor, b"sfnu"), Ok(vec![97, NOWHERE, NOWHERE, 97]));
                assert_eq!(cursor[8..8 * (2 * n - 3)], stored[8..8 * (2 * n - 3)], "the upper cells stay");
                for (at, byte) in
                    [(0, stored[0] ^ 1), (8 * n, stored[8 * n] ^ 3), (16 * n - 14, stored[16 * n - 14] ^ 1)]
                {
                    let mut other = stored.clone();
                    other[at] = byte;
                    assert_eq!(walk(&plan, n, &mut other, b"s"), Err(Why::Place.here()), "byte {at}");
                }
            }
        }
    }
}

#[test]
fn the_finger_on_more_rules() {
    let n = 2_000;
    for format in Format::BOTH {
        for (records, start) in
            [(nodes(n), n - 1), (backwards(&nodes(n)), 0), (zigzag(n), n - 1), (backwards(&zigzag(n)), 0)]
        {
            let plan = plan_of(format, &records, start as u16);
            let unfolded = Unfolded::of(&plan, n).expect("fewer nodes than rules");
            let counts = rules::measure(&plan, &mut vec![5; work_bytes(n)]);
            assert_eq!(unfolded.measure(&mut vec![5; work_bytes(n)]), counts);
            let nodes = rules::nodes(&plan, &mut vec![5; work_bytes(n)]).expect("it is measured") as usize;
            let mut texts = [vec![0; format.node() * nodes], vec![0; format.node() * nodes]];
            let [by_rules, by_finger] = &mut texts;
            let length = Ok((format.node() * nodes) as u64);
            assert_eq!(rules::spread(&plan, &mut vec![5; work_bytes(n)], by_rules), length);
            assert_eq!(unfolded.spread(&mut vec![5; work_bytes(n)], by_finger), length);
            assert!(by_rules == by_finger, "the same text");
            let mut cursors = [vec![0; cursor_bytes(n)], vec![0; cursor_bytes(n)]];
            for letters in [&b"aff"[..], &[b'f'; 700], &[b'n'; 900], b"ufplnpsz", &[b'p'; 1_100], b"uuu", b"zlll"] {
                let [by_rules, by_finger] = &mut cursors;
                let mut out = vec![9; answers::LENGTH * letters.len()];
                let walked = unfolded.walk(&mut vec![5; work_bytes(n)], by_finger, letters, &mut out);
                assert_eq!(walked, Some(Ok(())), "from above");
                let labels = (0..letters.len()).map(|index| answers::get(&out, index)).collect();
                assert_eq!(walk(&plan, n, by_rules, letters), Ok(labels));
                assert!(by_rules == by_finger, "the same place");
            }
        }
    }
}

#[test]
fn texts_of_the_most_rules() {
    let deep = std::thread::Builder::new().stack_size(64 << 20).spawn(|| {
        let n = MAX_RULES;
        for (records, start) in [(nodes(n), n - 1), (backwards(&nodes(n)), 0)] {
            let plan = plan_of(Format::Narrow, &records, start as u16);
            let mut text = vec![1; 3 * (n - 1)];
            let short = rules::spread(&plan, &mut vec![5; work_bytes(n)], &mut text[1..]);
            assert_eq!((short, text.iter().all(|byte| *byte == 1)), (Err(Why::Output.here()), true));
            assert_eq!(rules::spread(&plan, &mut vec![5; work_bytes(n)], &mut text), Ok(text.len() as u64));
            assert_eq!(text, [b"(a".repeat(n - 1), b")".repeat(n - 1)].concat());
        }
    });
    deep.expect("a thread can be started").join().expect("the text is as it is to be");
}
