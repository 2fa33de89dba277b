//! Crate `mealplan`'s plans, walkers and places on generated plans, held to the reference by rules.
use mealplan::{Compared, Place, Plan, Walker};
use reference::plan::{cursor_bytes, work_bytes};
use trials::call::EACH;
use trials::draft::Draft;
use trials::random::Random;
use trials::{families, random_plans};

const LETTERS: &[u8; 8] = b"azflnpus";

/// One move by the method that has the letter; none for s.
fn moved(walker: &mut Walker, letter: u8) -> Option<u32> {
    match letter {
        b'a' => walker.first_root(),
        b'z' => walker.last_root(),
        b'f' => walker.first_child(),
        b'l' => walker.last_child(),
        b'n' => walker.next_sibling(),
        b'p' => walker.previous_sibling(),
        b'u' => walker.parent(),
        _ => walker.label(),
    }
}

/// The reference's answers and the place that it ends at, in the forest of the rule that a word names.
fn reference(draft: &Draft, word: u16, letters: &[u8]) -> (Vec<Option<u32>>, Vec<u8>) {
    let (mut work, mut cursor) = (vec![0; work_bytes(draft.n())], vec![0; cursor_bytes(draft.n())]);
    reference::words::put(&mut cursor, 1, word);
    let mut answers = vec![0; 4 * letters.len()];
    reference::rules::walk(&draft.plan(), &mut work, &mut cursor, letters, &mut answers).expect("an accepted plan");
    (mealplan::labels(&answers).collect(), cursor)
}

#[test]
fn methods_answer_as_the_reference_does() {
    let mut random = Random::new(Random::seed());
    let (mut moves, mut days, mut holed) = (0, 0, 0);
    for round in 0..300 {
        let draft = if round % 2 == 0 { families::any(&mut random, 60) } else { random_plans::any(&mut random, 40) };
        let draft = if round % 3 == 0 { random_plans::widened(&draft, &mut random) } else { draft };
        let bytes = draft.plan();
        let plan = Plan::new(&bytes).expect("a generated plan");
        assert_eq!((usize::from(plan.n()), plan.start()), (draft.n(), draft.start));
        assert_eq!(plan.prefix(), draft.prefix);
        let own: Vec<[u16; 5]> = plan.rules().map(|rule| rule.words(plan.format())).collect();
        assert_eq!(own, draft.records);
        let mut work = vec![0; work_bytes(draft.n())];
        let nodes = reference::rules::grams(&bytes, &[EACH], &mut work);
        assert_eq!(plan.nodes().ok(), nodes.ok());
        let mut text =
            vec![0; nodes.map_or(0, |nodes| if nodes < 10_000 { nodes as usize } else { 0 }) * draft.format.node()];
        if reference::rules::spread(&bytes, &mut work, &mut text).is_ok() {
            assert_eq!(plan.spread(text.len()).as_ref(), Ok(&text));
        }

        // Every third walker is one of a rule by number, which may be holed.
        let rule = (round % 3 == 1).then(|| random.below(draft.n()) as u16);
        let made = |rule: Option<u16>| rule.map_or(Ok(plan.walker()), |rule| plan.walker_of(rule));
        let Ok(mut walker) = made(rule) else {
            assert!(
                rule.and_then(|rule| plan.rule(rule)).is_some_and(mealplan::Rule::is_holed),
                "only a holed rule isn't walked"
            );
            holed += 1;
            continue;
        };
        days += usize::from(rule.is_some());
        assert_eq!((walker.rule(), walker.place().rule()), (rule.unwrap_or(draft.start), rule));
        let letters: Vec<u8> = (0..40).map(|_| random.pick(LETTERS)).collect();
        let (expected, cursor) = reference(&draft, rule.map_or(0, mealplan::rule_word), &letters);
        let mut kept = Vec::new();
        let answers: Vec<Option<u32>> = letters
            .iter()
            .map(|letter| {
                let answer = moved(&mut walker, *letter);
                kept.push((walker.place(), walker.label()));
                answer
            })
            .collect();
        assert_eq!(answers, expected);
        assert_eq!(walker.place(), Place::from_bytes(&cursor));
        assert_eq!(made(rule).and_then(|mut walker| walker.walk(&letters)), Ok(expected));
        moves += answers.iter().flatten().count();

        // From there every letter has a reason, as the reference has it, and moves if that is 0.
        for letter in LETTERS {
            let why = walker.why(*letter).expect("a letter");
            let expected = reference::rules::reason(&bytes, &mut work, &cursor, *letter).expect("a place");
            assert_eq!(why.number(), expected as u32);
            assert_eq!(walker.clone().walk(&[*letter]).map(|answers| answers[0].is_some()), Ok(why.moves()));
        }
        assert_eq!(walker.place(), Place::from_bytes(&cursor), "nothing has moved");

        // Every place that was kept is gone back to, and is the same as itself.
        for (place, label) in kept {
            assert_eq!(walker.go_to(&place), Ok(label));
            assert_eq!(walker.place(), place);
            let compared = walker.compare(&place, 1_000);
            assert!(matches!(compared, Ok(Compared::Same(_) | Compared::Spent(1_000))) || label.is_none());
        }
    }
    assert!(moves > 3_000, "only {moves} letters led to a node");
    assert!(days > 30 && holed > 3, "only {days} rules were walked by number, and {holed} were holed");
}
