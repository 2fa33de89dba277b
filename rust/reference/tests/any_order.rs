//! Rules in any order (document 02, Note 1), in both formats: refusals 4 to 7 and 12 against a closure of what is named, and the sample plan
//! with its rules numbered in every way.
use reference::place::Cell;
use reference::plan::{self, Rule, SAMPLE, Sort, WORDS, cursor_bytes, work_bytes};
use reference::unfolded::Unfolded;
use reference::{Checked, Format, Measured, NOWHERE, Refused, Why, answers, place, rules};

/// A plan without cover, whatever its rules.
fn plan_of(format: Format, records: &[[u16; WORDS]], start: u16) -> Vec<u8> {
    let words = records.iter().flat_map(|record| &record[..format.words()]);
    let mut plan: Vec<u8> = words.flat_map(|word| word.to_le_bytes()).collect();
    plan.extend(plan::trailer(format, records.len(), start));
    plan
}

/// What check says of rules and a start, after seal has said the same.
fn check_in(format: Format, records: &[[u16; WORDS]], start: u16) -> Result<Checked, Refused> {
    let plan = plan_of(format, records, start);
    let checked = plan::check(&plan);
    let mut sealed = vec![0; plan.len()];
    let words = &plan[..format.record() * records.len()];
    let written = plan::seal(words, format.record_length(), start, &mut sealed);
    assert_eq!(written.map(|_| ()), checked.map(|_| ()), "seal judges as check does");
    assert!(written.is_err() || sealed == plan, "what is sealed is the plan");
    checked
}

/// What check says in both formats, for labels that both have.
fn check(records: &[[u16; WORDS]], start: u16) -> Result<Checked, Refused> {
    let [narrow, wide] = Format::BOTH.map(|format| check_in(format, records, start));
    assert_eq!(narrow, wide, "the formats are judged alike");
    narrow
}

/// The lowest rule that reaches itself, by Warshall's closure.
fn lowest_by_closure(rules: &[Rule]) -> Option<usize> {
    let n = rules.len();
    let mut reaches = vec![vec![false; n]; n];
    for (rule, reached) in rules.iter().zip(&mut reaches) {
        rule.named().for_each(|named| reached[usize::from(named)] = true);
    }
    for through in 0..n {
        let beyond = reaches[through].clone();
        for reached in reaches.iter_mut().filter(|reached| reached[through]) {
            reached.iter_mut().zip(&beyond).for_each(|(reached, beyond)| *reached |= beyond);
        }
    }
    (0..n).find(|rule| reaches[*rule][*rule])
}

/// Check and the closure agree on rules of the right sort.
fn agree(rules: &[Rule], start: u16) -> bool {
    let records: Vec<_> = rules.iter().map(|rule| rule.words()).collect();
    let lowest = lowest_by_closure(rules);
    let expected = match lowest {
        Some(lowest) => Err(Why::Cycle.at(lowest)),
        None => Ok(Checked { n: rules.len() as u16, start }),
    };
    assert_eq!(check(&records, start), expected, "{rules:?}");
    lowest.is_some()
}

#[test]
fn every_plan_of_four_empty_rules_and_pairs() {
    let (mut cyclic, mut all) = (0, 0);
    for n in 1..=4_u16 {
        let choices = usize::from(1 + n * n);
        for code in 0..choices.pow(n.into()) {
            let digit = |place: u32| (code / choices.pow(place) % choices) as u16;
            let rules: Vec<Rule> = (0..u32::from(n))
                .map(|place| match digit(place) {
                    0 => Rule::Empty,
                    pair => Rule::Pair((pair - 1) / n, (pair - 1) % n),
                })
                .collect();
            cyclic += usize::from(agree(&rules, 0));
            all += 1;
        }
    }
    println!("{all} plans, {cyclic} of them with a rule that reaches itself");
    assert!(all == 2 + 25 + 1_000 + 83_521 && cyclic > 0);
}

/// xorshift.
struct Random(u64);

impl Random {
    fn below(&mut self, bound: usize) -> usize {
        self.0 ^= self.0 << 13;
        self.0 ^= self.0 >> 7;
        self.0 ^= self.0 << 17;
        ((self.0 >> 11) % bound as u64) as usize
    }
}

/// Rules of every kind that name any others of the right sort; sparse ones name mostly the first rules.
fn any_rules(random: &mut Random, n: usize) -> Vec<Rule> {
    let kinds: Vec<u16> = (0..n).map(|rule| [0, 2, 4].get(rule).copied().unwrap_or(random.below(6) as u16)).collect();
    let near = random.below(4) > 0;
    let mut name = |rule: usize, sort: Sort| {
        let fitting: Vec<usize> = (0..n).filter(|named| sort.has(kinds[*named])).collect();
        let lower: Vec<usize> = fitting.iter().copied().filter(|named| *named < rule).collect();
        let among = if near && !lower.is_empty() && random.below(8) > 0 { &lower } else { &fitting };
        among[random.below(among.len())] as u16
    };
    let mut rule = |number: usize| match kinds[number] {
        0 => Rule::Empty,
        1 => Rule::Pair(name(number, Sort::CLOSED), name(number, Sort::CLOSED)),
        2 => Rule::Node(97, name(number, Sort::CLOSED)),
        3 => Rule::Fill(name(number, Sort::HOLED), name(number, Sort::TREE)),
        4 => Rule::Part(98, name(number, Sort::CLOSED), name(number, Sort::CLOSED)),
        _ => Rule::Join(name(number, Sort::HOLED), name(number, Sort::HOLED)),
    };
    (0..n).map(&mut rule).collect()
}

#[test]
fn plans_at_random() {
    let mut random = Random(88_172_645_463_325_252);
    let mut cyclic = 0;
    for _ in 0..20_000 {
        let n = 3 + random.below(30);
        cyclic += usize::from(agree(&any_rules(&mut random, n), 0));
    }
    println!("20,000 plans, {cyclic} of them with a rule that reaches itself");
    assert!((4_000..16_000).contains(&cyclic), "{cyclic}");
}

#[test]
fn order_of_the_refusals() {
    // Four words a rule, and in a wide plan a fifth that is 0.
    let with_fifth = |records: &[[u16; 4]]| records.iter().map(|[k, a, b, c]| [*k, *a, *b, *c, 0]).collect::<Vec<_>>();
    let check = |records: &[[u16; 4]], start| check(&with_fifth(records), start);
    let refused = |records: &[[u16; 4]], start| check(records, start).expect_err("it is to be refused");
    assert_eq!(refused(&[[1, 0, 0, 0]], 0), Why::Cycle.at(0));
    assert_eq!(refused(&[[1, 0, 1, 0]], 0), Why::NotBelow.at(0));
    assert_eq!(refused(&[[1, 65_535, 0, 0]], 0), Why::NotBelow.at(0));
    // A kind above 5: 6 where the naming rule comes first, else 4.
    assert_eq!(refused(&[[2, 97, 1, 0], [6, 0, 0, 0]], 0), Why::Sort.at(0));
    assert_eq!(refused(&[[6, 0, 0, 0], [2, 97, 0, 0]], 1), Why::Record.at(0));
    // A fine kind in a rule that isn't: 4 at that rule.
    assert_eq!(refused(&[[2, 97, 1, 0], [0, 0, 0, 7]], 0), Why::Record.at(1));
    // Rule 0 only reaches the two that reach themselves; so does the rule between two cycles.
    assert_eq!(refused(&[[2, 97, 1, 0], [2, 97, 2, 0], [2, 97, 1, 0]], 0), Why::Cycle.at(1));
    assert_eq!(refused(&[[2, 97, 2, 0], [1, 1, 0, 0], [2, 97, 2, 0]], 0), Why::Cycle.at(1));
    // 4 to 6 of a later rule come first; 7 comes after; nothing has to name the cycle.
    for (record, why) in [([0, 0, 0, 1], Why::Record), ([1, 0, 2, 0], Why::NotBelow), ([3, 0, 0, 0], Why::Sort)] {
        assert_eq!(refused(&[[1, 0, 0, 0], record], 0), why.at(1));
        assert_eq!(refused(&[record, [1, 1, 1, 0]], 0), why.at(0));
    }
    assert_eq!(refused(&[[1, 0, 0, 0]], 1), Why::Cycle.at(0));
    assert_eq!(refused(&[[0; 4], [4, 97, 0, 0], [2, 97, 2, 0]], 1), Why::Cycle.at(2));
    assert_eq!(refused(&[[0; 4], [4, 97, 0, 0]], 1), Why::Start.here());
    // A higher rule may be named.
    assert_eq!(check(&[[2, 97, 1, 0], [0; 4]], 0), Ok(Checked { n: 2, start: 0 }));
}

#[test]
fn long_ones() {
    for n in [1_023, 1_024, 1_025, 2_000, 16_383, 16_384_u16] {
        let node = |to: &dyn Fn(u16) -> u16| (0..n).map(|rule| Rule::Node(97, to(rule)).words()).collect::<Vec<_>>();
        let last = usize::from(n) - 1;
        assert_eq!(check(&node(&|rule| (rule + 1) % n), 0), Err(Why::Cycle.at(0)));
        assert_eq!(check(&node(&|rule| (rule + n - 1) % n), 0), Err(Why::Cycle.at(0)));
        assert_eq!(check(&node(&|rule| (rule + 1).min(n - 1)), 0), Err(Why::Cycle.at(last)));
        assert_eq!(check(&node(&|rule| rule.saturating_sub(1)), 0), Err(Why::Cycle.at(0)));
        let mut backwards = node(&|rule| (rule + 1).min(n - 1));
        backwards[last] = Rule::Empty.words();
        let mut work = vec![3; work_bytes(n.into())];
        for format in Format::BOTH {
            let measured = rules::measure(&plan_of(format, &backwards, 0), &mut work);
            let levels = u64::from(n) - 1;
            assert_eq!(measured, Ok(Measured { trees: 1, entries: levels, levels }));
        }
    }
}

/// A rule of the sample plan with other numbers for the rules named.
fn renamed(rule: Rule, of: impl Fn(u16) -> u16) -> Rule {
    match rule {
        Rule::Empty => Rule::Empty,
        Rule::Pair(b, c) => Rule::Pair(of(b), of(c)),
        Rule::Node(label, c) => Rule::Node(label, of(c)),
        Rule::Fill(b, c) => Rule::Fill(of(b), of(c)),
        Rule::Part(label, l, r) => Rule::Part(label, of(l), of(r)),
        Rule::Join(b, c) => Rule::Join(of(b), of(c)),
    }
}

/// The sample plan by a numbering has the text, the counts, the answers and, with the rules renumbered, the cells of the sample plan.
fn as_the_sample(number: &[u16]) {
    let of = |rule: u16| number[usize::from(rule)];
    let mut records = [[0; WORDS]; 8];
    for (rule, to) in SAMPLE.iter().zip(number) {
        records[usize::from(*to)] = renamed(*rule, of).words();
    }
    let plan = plan_of(Format::Narrow, &records, of(7));
    let mut work = vec![3; work_bytes(8)];
    assert_eq!(check(&records, of(7)), Ok(Checked { n: 8, start: of(7) }));
    let unfolded = Unfolded::of(&plan, 11).expect("eleven nodes");
    let counts = Ok(Measured { trees: 3, entries: 11, levels: 3 });
    assert_eq!((rules::measure(&plan, &mut work), unfolded.measure(&mut work)), (counts, counts));
    for by_rules in [true, false] {
        let mut text = [0; 33];
        let written = match by_rules {
            true => rules::spread(&plan, &mut work, &mut text),
            false => unfolded.spread(&mut work, &mut text),
        };
        assert_eq!((written, &text), (Ok(33), b"(c(a)(b)(c(a)(b)(a)(b))(b))(a)(b)"));
        let mut cursor = vec![0; cursor_bytes(8)];
        for (letters, labels, cells) in [
            ("a", &[99][..], &[[1, 0, 7, 0], [3, 7, 6, 0], [2, 6, 0, 0], [3, 5, 4, 0]][..]),
            (
                "fnnfnn",
                &[97, 98, 99, 97, 98, 97],
                &[[1, 0, 7, 0], [3, 7, 6, 0], [2, 6, 0, 0], [4, 5, 4, 0], [2, 1, 0, 0]],
            ),
            ("nnununn", &[98, NOWHERE, 99, 98, 99, 97, 98], &[[1, 0, 7, 0], [4, 7, 2, 0], [2, 2, 0, 0]]),
        ] {
            let mut out = vec![0; answers::LENGTH * letters.len()];
            let walked = match by_rules {
                true => rules::walk(&plan, &mut work, &mut cursor, letters.as_bytes(), &mut out),
                false => unfolded.walk(&mut work, &mut cursor, letters.as_bytes(), &mut out).expect("eleven nodes"),
            };
            let answers: Vec<u32> = (0..letters.len()).map(|index| answers::get(&out, index)).collect();
            let cells: Vec<Cell> = cells.iter().map(|cell| Cell(*cell).renumbered(number)).collect();
            assert_eq!((walked, &answers[..]), (Ok(()), labels));
            assert_eq!(place::used(&cursor), Ok(cells), "{letters} by {number:?}");
        }
    }
}

#[test]
fn the_sample_plan_numbered_in_every_way() {
    let mut numberings = 0;
    let mut number: Vec<u16> = (0..8).collect();
    // Heap's algorithm.
    let mut turns = [0; 8];
    as_the_sample(&number);
    let mut place = 1;
    while place < 8 {
        if turns[place] < place {
            number.swap(if place % 2 == 0 { 0 } else { turns[place] }, place);
            as_the_sample(&number);
            numberings += 1;
            turns[place] += 1;
            place = 1;
        } else {
            turns[place] = 0;
            place += 1;
        }
    }
    assert_eq!(numberings + 1, 40_320);
}
