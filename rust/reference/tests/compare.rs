//! Compare (document 02, Note 4), in both formats: every pair of nodes of the sample plan and of plans at random, at budgets around the count,
//! against lists written out whole; subtrees that differ in a label, in a level, in their length; forests that nobody lists; refusals in
//! their order, and what becomes of work.
use reference::compare::Listed;
use reference::place::{self, Cell};
use reference::plan::{self, Rule, SAMPLE, Sort, WORDS, cursor_bytes, work_bytes};
use reference::unfolded::Unfolded;
use reference::{Compared, Format, NOWHERE, Refused, Why, answers, rules};

fn plan_of(format: Format, rules: &[Rule], start: u16) -> Vec<u8> {
    let records: Vec<[u16; WORDS]> = rules.iter().map(|rule| rule.words()).collect();
    let words = records.iter().flat_map(|record| &record[..format.words()]);
    let mut plan: Vec<u8> = words.flat_map(|word| word.to_le_bytes()).collect();
    plan.extend(plan::trailer(format, rules.len(), start));
    plan
}

/// A plan, and the cursors and work that go with it.
struct Desk {
    plan: Vec<u8>,
    n: usize,
}

impl Desk {
    fn new(format: Format, rules: &[Rule], start: u16) -> Desk {
        Desk { plan: plan_of(format, rules, start), n: rules.len() }
    }

    fn cursor(&self, cells: &[Cell]) -> Vec<u8> {
        let mut cursor = vec![0; cursor_bytes(self.n)];
        place::store(cells, &mut cursor);
        cursor
    }

    /// The cursor where letters lead to from above the forest.
    fn at(&self, letters: &str) -> Vec<u8> {
        let (mut work, mut cursor) = (vec![9; work_bytes(self.n)], self.cursor(&[]));
        let mut out = vec![0; answers::LENGTH * letters.len()];
        rules::walk(&self.plan, &mut work, &mut cursor, letters.as_bytes(), &mut out).expect("from above");
        assert_ne!(answers::get(&out, letters.len() - 1), NOWHERE, "{letters} leads somewhere");
        cursor
    }

    /// What both references say, where the forest is small, or that by rules alone. Work ends as zeros.
    fn compare(&self, first: &[u8], second: &[u8], budget: u32) -> Result<Compared, Refused> {
        let mut work = vec![9; work_bytes(self.n) + 3];
        let compared = rules::compare(&self.plan, &mut work, first, second, budget);
        let (needed, past) = work.split_at(work_bytes(self.n));
        assert!(needed.iter().all(|byte| *byte == 0) && past == [9; 3], "past 8 work is zeros");
        if let Some(unfolded) = Unfolded::of(&self.plan, 3_000) {
            work.fill(9);
            assert_eq!(unfolded.compare(&mut work, first, second, budget), Some(compared), "the references agree");
            let (needed, past) = work.split_at(work_bytes(self.n));
            assert!(needed.iter().all(|byte| *byte == 0) && past == [9; 3], "past 8 work is zeros");
        }
        compared
    }
}

/// The same by the Note's sentences, on lists that are written out whole.
fn by_lists(first: &[Listed], second: &[Listed], budget: u32) -> Compared {
    let agree = first.iter().zip(second).take_while(|(one, other)| one == other).count();
    let same = agree == first.len() && agree == second.len();
    let number = if same { agree } else { agree + 1 } as u32;
    match same {
        _ if number > budget => Compared::Spent(budget),
        true => Compared::Same(number),
        false => Compared::Differ(number),
    }
}

/// The nodes of a tree, by recursion.
fn list(tree: &reference::unfolded::forest::Tree, level: u64, listed: &mut Vec<Listed>) {
    listed.push(Listed { label: tree.label, level });
    tree.children.iter().for_each(|child| list(child, level + 1, listed));
}

/// Pairs of places with their lists, every one or some; at budgets around each count. Gives how often each verdict came.
fn every_pair(desk: &Desk, unfolded: &Unfolded, mut some: impl FnMut() -> bool) -> [usize; 3] {
    let mut nodes = Vec::new();
    for place in unfolded.forest.places().filter(|place| !place.is_empty()) {
        let path = unfolded.forest.path_of(place).expect("a place has a path");
        let mut listed = Vec::new();
        list(unfolded.forest.node_at(&path).expect("a path has a node"), 0, &mut listed);
        nodes.push((desk.cursor(place), listed));
    }
    let mut came = [0; 3];
    for (first, one) in &nodes {
        for (second, other) in nodes.iter().filter(|_| some()) {
            let (Compared::Same(number) | Compared::Differ(number) | Compared::Spent(number)) =
                by_lists(one, other, u32::MAX);
            for budget in [0, 1, number - 1, number, number + 1, u32::MAX] {
                let expected = by_lists(one, other, budget);
                assert_eq!(desk.compare(first, second, budget), Ok(expected));
                match expected {
                    Compared::Same(_) => came[0] += 1,
                    Compared::Differ(_) => came[1] += 1,
                    Compared::Spent(_) => came[2] += 1,
                }
            }
        }
    }
    came
}

#[test]
fn every_two_places_of_the_sample_plan() {
    for format in Format::BOTH {
        let desk = Desk::new(format, &SAMPLE, 7);
        let unfolded = Unfolded::of(&desk.plan, 11).expect("eleven nodes");
        let came = every_pair(&desk, &unfolded, || true);
        assert_eq!(came.iter().sum::<usize>(), 6 * 11 * 11);
        assert!(came.iter().all(|came| *came > 100), "{came:?}");
    }
}

/// xorshift.
struct Random(u64);

impl Random {
    fn below(&mut self, bound: usize) -> usize {
        self.0 ^= self.0 << 13;
        self.0 ^= self.0 >> 7;
        self.0 ^= self.0 << 17;
        ((self.0 >> 11) % bound as u64) as usize
    }
}

/// Rules that name lower ones, few labels, so that subtrees are often alike.
fn any_rules(random: &mut Random, n: usize) -> Vec<Rule> {
    let mut rules = vec![Rule::Empty, Rule::Node(97, 0), Rule::Part(97, 0, 1)];
    while rules.len() < n {
        let mut name = |sort: Sort| {
            let fitting: Vec<u16> =
                (0..rules.len() as u16).filter(|rule| sort.has(rules[usize::from(*rule)].words()[0])).collect();
            fitting[random.below(fitting.len())]
        };
        let (closed, other, tree) = (name(Sort::CLOSED), name(Sort::CLOSED), name(Sort::TREE));
        let (holed, inner) = (name(Sort::HOLED), name(Sort::HOLED));
        let label = 97 + (random.below(5) / 4) as u32;
        rules.push(match random.below(6) {
            0 | 1 => Rule::Pair(closed, other),
            2 => Rule::Node(label, closed),
            3 => Rule::Fill(holed, tree),
            4 => Rule::Part(label, closed, other),
            _ => Rule::Join(holed, inner),
        });
    }
    rules
}

#[test]
fn plans_at_random() {
    let mut random = Random(88_172_645_463_325_252);
    let (mut came, mut plans) = ([0; 3], 0);
    while plans < 400 {
        let n = 4 + random.below(14);
        let rules = any_rules(&mut random, n);
        let closed = (0..n as u16).rev().find(|rule| Sort::CLOSED.has(rules[usize::from(*rule)].words()[0]));
        let desk = Desk::new(Format::BOTH[plans % 2], &rules, closed.expect("rule 0 is closed"));
        let Some(unfolded) = Unfolded::of(&desk.plan, 60) else { continue };
        plans += 1;
        let all = every_pair(&desk, &unfolded, || random.below(8) == 0);
        came.iter_mut().zip(all).for_each(|(came, more)| *came += more);
    }
    println!("{} comparisons on {plans} plans: {came:?} same, differ and spent", came.iter().sum::<usize>());
    assert!(came.iter().all(|came| *came > 1_000), "{came:?}");
}

/// Five trees: a(a(a)), a(a a), a(a a a), b(a a), and the second once more, by a part and by rules of its own.
#[test]
fn a_label_a_level_a_length() {
    let rules = [
        Rule::Empty,
        Rule::Node(97, 0),
        Rule::Node(97, 1),
        Rule::Node(97, 2),
        Rule::Pair(1, 1),
        Rule::Node(97, 4),
        Rule::Pair(4, 1),
        Rule::Node(97, 6),
        Rule::Node(98, 4),
        Rule::Part(97, 1, 0),
        Rule::Fill(9, 1),
        Rule::Pair(3, 5),
        Rule::Pair(11, 7),
        Rule::Pair(12, 8),
        Rule::Pair(13, 10),
    ];
    for format in Format::BOTH {
        let desk = Desk::new(format, &rules, 14);
        let [nested, two, three, other, again] = ["a", "an", "ann", "annn", "annnn"].map(|letters| desk.at(letters));
        for (first, second, expected) in [
            (&nested, &two, Compared::Differ(3)),
            (&two, &three, Compared::Differ(4)),
            (&three, &two, Compared::Differ(4)),
            (&two, &other, Compared::Differ(1)),
            (&two, &again, Compared::Same(3)),
            (&again, &two, Compared::Same(3)),
            (&other, &other, Compared::Same(3)),
        ] {
            for budget in 0..6 {
                let (Compared::Same(number) | Compared::Differ(number) | Compared::Spent(number)) = expected;
                let expected = if number > budget { Compared::Spent(budget) } else { expected };
                assert_eq!(desk.compare(first, second, budget), Ok(expected));
            }
        }
        // What stands beside a place or above it doesn't count.
        assert_eq!(desk.compare(&desk.at("af"), &desk.at("zl"), 9), Ok(Compared::Differ(2)));
        assert_eq!(desk.compare(&desk.at("aff"), &desk.at("zl"), 9), Ok(Compared::Same(1)));
    }
}

/// A row doubled so often that nobody lists it, and a spine of as many parts: a budget bounds what is looked at.
#[test]
fn forests_that_nobody_lists() {
    const N: u16 = 2_000;
    let mut rules = vec![Rule::Empty, Rule::Node(97, 0)];
    rules.extend((2..N).map(|rule| Rule::Pair(rule - 1, rule - 1)));
    let (last, mut part) = (N - 1, N);
    rules.extend([Rule::Part(98, 1, 1), Rule::Join(part, part)]);
    while rules.len() < usize::from(2 * N) {
        part = rules.len() as u16 - 1;
        rules.push(Rule::Join(part, part));
    }
    let spine = rules.len() as u16 - 1;
    let row = rules.len() as u16;
    rules.extend([Rule::Node(99, last), Rule::Fill(spine, row), Rule::Pair(row, row + 1)]);
    let desk = Desk::new(Format::Wide, &rules, row + 2);
    let [row, spine] = ["a", "z"].map(|letters| desk.at(letters));
    for budget in [0, 1, 2, 1_000, 20_000] {
        assert_eq!(desk.compare(&row, &row, budget), Ok(Compared::Spent(budget)));
        assert_eq!(desk.compare(&spine, &spine, budget), Ok(Compared::Spent(budget)));
        let expected = if budget == 0 { Compared::Spent(0) } else { Compared::Differ(1) };
        assert_eq!(desk.compare(&row, &spine, budget), Ok(expected));
    }
    // The part below the first is the same for as long as anyone looks.
    let below = desk.at("zfn");
    assert_eq!(desk.compare(&spine, &below, 5_000), Ok(Compared::Spent(5_000)));
}

#[test]
fn refusals_in_their_order() {
    for format in Format::BOTH {
        let desk = Desk::new(format, &SAMPLE, 7);
        let (plan, needed, length) = (&desk.plan, work_bytes(8), cursor_bytes(8));
        let unfolded = Unfolded::of(plan, 11).expect("eleven nodes");
        let (node, above, mut headed) = (desk.at("af"), desk.cursor(&[]), desk.at("a"));
        headed[2] = 1;
        let no_place = desk.cursor(&[Cell([1, 0, 7, 0])]);
        let comes = |bytes: usize, first: &[u8], second: &[u8], why: Option<Why>| {
            for budget in [0, u32::MAX] {
                let mut work = vec![9; bytes];
                let compared = rules::compare(plan, &mut work, first, second, budget);
                let cleared = if why == Some(Why::Lent) { 0 } else { needed };
                assert!(work[..cleared].iter().all(|byte| *byte == 0) && work[cleared..].iter().all(|byte| *byte == 9));
                assert_eq!(compared.err(), why.map(Why::here));
                assert_eq!(unfolded.compare(&mut work, first, second, budget), Some(compared));
            }
        };
        comes(needed, &node, &node, None);
        comes(needed + 2, &[&node[..], &[7; 5]].concat(), &node, None);
        comes(needed - 1, &node, &node, Some(Why::Lent));
        comes(needed, &node[..length - 1], &node, Some(Why::Lent));
        comes(needed, &node, &node[..length - 1], Some(Why::Lent));
        comes(needed - 1, &no_place, &above, Some(Why::Lent));
        comes(needed, &no_place, &node[..length - 1], Some(Why::Lent));
        for wrong in [&above, &headed, &no_place] {
            comes(needed, wrong, &node, Some(Why::Place));
            comes(needed, &node, wrong, Some(Why::Place));
            comes(needed, wrong, wrong, Some(Why::Place));
        }
        // As check, before all else.
        let mut faulty = plan.clone();
        faulty[0] = 6;
        assert_eq!(rules::compare(&faulty, &mut [], &[], &[], 1), Err(Why::Record.at(0)));
    }
    // An empty forest has no place but the one above it.
    let desk = Desk::new(Format::Narrow, &[Rule::Empty], 0);
    let above = desk.cursor(&[]);
    assert_eq!(desk.compare(&above, &above, 5), Err(Why::Place.here()));
}

/// A budget of all 32 bits: the count is the common length, and a larger budget changes no same and no differ.
#[test]
fn larger_budgets() {
    let desk = Desk::new(Format::Narrow, &SAMPLE, 7);
    for (first, second) in [("a", "a"), ("a", "afnn"), ("af", "an"), ("afnn", "afnn")] {
        let [first, second] = [first, second].map(|letters| desk.at(letters));
        let found: Vec<Compared> =
            (0..20).map(|budget| desk.compare(&first, &second, budget).expect("nodes")).collect();
        let known = found.iter().position(|found| !matches!(found, Compared::Spent(_))).expect("twenty are enough");
        for (budget, found) in found.iter().enumerate().take(known) {
            assert_eq!(*found, Compared::Spent(budget as u32));
        }
        assert!(found[known..].iter().all(|later| *later == found[known]));
        assert_eq!(desk.compare(&first, &second, u32::MAX), Ok(found[known]));
    }
}
