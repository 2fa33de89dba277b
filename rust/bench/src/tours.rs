//! The letters that are measured, and where on a plan.
use reference::plan::Rule;
use reference::{NOWHERE, answers, rules};
use trials::call::{Call, Operation};
use trials::draft::Draft;
use trials::random::Random;

/// Letters to be measured, and those that go to where they begin.
pub struct Tour {
    pub begin: Vec<u8>,
    pub letters: Vec<u8>,
}

/// For each letter, whether it leads somewhere when they are all walked from above the forest.
fn leads(draft: &Draft, letters: &[u8]) -> Vec<bool> {
    let mut call = Call::new(Operation::Walk, draft.plan(), draft.n()).with_letters(letters);
    rules::walk(&call.plan, &mut call.work, &mut call.cursor, letters, &mut call.answers).expect("a valid plan");
    (0..letters.len()).map(|index| answers::get(&call.answers, index) != NOWHERE).collect()
}

/// A lap: letters to begin with, then one letter for as long as it leads somewhere, at most 1,000 times.
fn lap(draft: &Draft, begin: &[u8], letter: u8) -> Vec<u8> {
    let letters = [begin, &[letter; 1000]].concat();
    let length = leads(draft, &letters).into_iter().take_while(|leads| *leads).count();
    letters[..length].to_vec()
}

/// Laps of one letter.
pub fn repeating(draft: &Draft, letter: u8, count: usize) -> Tour {
    let begins: [&[u8]; 2] = if b"lp".contains(&letter) { [b"z", b"zl"] } else { [b"a", b"af"] };
    let one = match letter {
        b'u' => {
            let down = lap(draft, b"a", b'f');
            [&down[..], &vec![b'u'; down.len() - 1]].concat()
        }
        _ => begins.map(|begin| lap(draft, begin, letter)).into_iter().max_by_key(Vec::len).expect("two laps"),
    };
    Tour { begin: Vec::new(), letters: one.into_iter().cycle().take(count).collect() }
}

/// One letter for as long as it leads somewhere, at most 1,000 times, and another as often to come back; over and over.
pub fn there_and_back(draft: &Draft, there: u8, back: u8, count: usize) -> Tour {
    let steps = lap(draft, b"a", there).len() - 1;
    let one = [there, back].map(|letter| vec![letter; steps]).concat();
    Tour { begin: b"a".to_vec(), letters: one.into_iter().cycle().take(count).collect() }
}

/// The label asked for again and again where f leads no further.
pub fn staying_below(draft: &Draft, count: usize) -> Tour {
    let begin = [b"a", &vec![b'f'; draft.n()][..]].concat();
    Tour { begin, letters: vec![b's'; count] }
}

/// The parent asked for again and again from the middle of the forest's own row, or 500 trees from its start.
pub fn up_from_the_middle(draft: &Draft, count: usize) -> Tour {
    let row = lap(draft, b"a", b'n').len();
    let begin = [b"a", &vec![b'n'; row / 2][..]].concat();
    Tour { begin, letters: vec![b'u'; count] }
}

/// Letters at random that lead somewhere.
pub fn wandering(draft: &Draft, count: usize) -> Tour {
    let mut random = Random::new(9);
    let mut tried = b"a".to_vec();
    tried.extend((0..8 * count).map(|_| random.pick(b"flnpu")));
    let leads = leads(draft, &tried);
    let letters = tried.into_iter().zip(leads).skip(1).filter(|(_, leads)| *leads).map(|(letter, _)| letter);
    Tour { begin: b"a".to_vec(), letters: letters.take(count).collect() }
}

/// The number of nodes of every rule.
fn nodes(draft: &Draft) -> Vec<f64> {
    let mut counts: Vec<f64> = Vec::with_capacity(draft.n());
    for number in 0..draft.n() as u16 {
        let of = |rule: u16| counts[usize::from(rule)];
        counts.push(match draft.rule(number) {
            Rule::Empty => 0.0,
            Rule::Node(_, c) => 1.0 + of(c),
            Rule::Part(_, l, r) => 1.0 + of(l) + of(r),
            Rule::Pair(b, c) | Rule::Fill(b, c) | Rule::Join(b, c) => of(b) + of(c),
        });
    }
    counts
}

/// Starts the plan at its largest forest of no more nodes than this; gives their number.
pub fn start_below(draft: &mut Draft, most: f64) -> f64 {
    let counts = nodes(draft);
    let fits = |rule: &usize| draft.kind(*rule) <= 3 && counts[*rule] <= most;
    let largest = (0..draft.n()).filter(fits).max_by(|one, other| counts[*one].total_cmp(&counts[*other]));
    let largest = largest.expect("the empty rule fits");
    draft.start = largest as u16;
    counts[largest]
}

/// The plan of a family, of at most 256 rules, that has the largest forest of no more nodes than this; with their number.
pub fn largest_below(family: fn(usize) -> Draft, most: f64) -> (Draft, f64) {
    let plans = (8..=256).map(|n| {
        let mut draft = family(n);
        let nodes = start_below(&mut draft, most);
        (draft, nodes)
    });
    plans.max_by(|one, other| one.1.total_cmp(&other.1)).expect("there are plans")
}

/// The starts with just above 10 nodes, 100 and so on up to 2^900: a name and the rule.
pub fn starts(draft: &Draft) -> Vec<(String, u16)> {
    let counts = nodes(draft);
    let powers = [16, 32, 64, 128, 256, 400, 512, 700, 900].map(|power| (format!("2^{power}"), 2f64.powi(power)));
    let tens = [10.0, 100.0, 1000.0].map(|count| (format!("{count}"), count));
    let wanted = tens.into_iter().chain(powers);
    let found = wanted.filter_map(|(name, least)| {
        let rule = (0..draft.n()).find(|rule| counts[*rule] >= least)?;
        Some((name, rule as u16))
    });
    found.collect()
}
