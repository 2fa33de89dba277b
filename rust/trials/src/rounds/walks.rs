//! Long walks, in lists of calls as demand 3 has them.
use crate::call::{Call, Operation};
use crate::draft::Draft;
use crate::trial::{Judged, Trial};
use crate::{families, random_plans, rounds};
use reference::plan::{FEW_RULES, work_bytes};
use reference::unfolded::finger::Finger;
use reference::{NOWHERE, answers, rules};

/// Lists of calls on forests small enough for the finger.
pub fn small(trial: &mut Trial, plans: usize, calls: usize) {
    for _ in 0..plans {
        let most = trial.random.pick(&[6, 15, 40, 200]);
        let draft = rounds::small(&mut trial.random, most);
        let draft = rounds::in_any_form(&mut trial.random, draft);
        list(trial, &draft, calls);
    }
}

/// Lists of calls on plans whose forests nobody can unfold.
pub fn large(trial: &mut Trial, plans: usize, calls: usize) {
    for _ in 0..plans {
        let n = trial.random.pick(&[30, 100, 300, FEW_RULES]);
        let draft = if trial.random.once_in(2) {
            families::any(&mut trial.random, n)
        } else {
            random_plans::any(&mut trial.random, n)
        };
        let draft = rounds::in_any_form(&mut trial.random, draft);
        list(trial, &draft, calls);
    }
}

/// One list of calls with one cursor, which begins above the forest of the start or of another rule. Some calls are refused (8 or 9) and leave the
/// place. Beside it goes a finger that is fed the letters and lengths alone, where the forest can be unfolded.
pub(super) fn list(trial: &mut Trial, draft: &Draft, calls: usize) {
    let plan = draft.plan();
    let mut call = Call::new(Operation::Walk, plan.clone(), draft.n());
    let longer = trial.random.below(40);
    call.cursor = trial.random.leftovers(call.cursor.len() + longer);
    call.cursor[..8].fill(0);
    let word = rounds::word(&mut trial.random, draft);
    call = call.with_word(word);
    let mut finger = Finger::default();
    let nodes = trial.forest.walked(&plan, word).map_or(calls, |forest| forest.places().count());
    for _ in 0..calls.min(nodes) {
        call = next_call(trial, call, draft.n());
        let Judged { outcome, after } = trial.judge(&call);
        if outcome.is_ok()
            && let Some(forest) = trial.forest.walked(&plan, word)
        {
            for (index, letter) in call.letters.iter().enumerate() {
                let answer = finger.answer(forest, *letter);
                assert_eq!(answers::get(&after.answers, index), answer, "demand 3: the finger's answers");
            }
            let place = forest.place_at(&finger.path);
            assert_eq!(reference::place::used(&after.cursor).expect("cell 0"), place, "demand 3: the finger's cells");
        }
        call.cursor = after.cursor;
    }
}

/// The next call of a list: other letters, another length of answers, other leftovers; now and then one to be refused.
fn next_call(trial: &mut Trial, mut call: Call, n: usize) -> Call {
    let count = match trial.random.below(10) {
        0 => trial.random.below(2),
        1 => 1,
        _ => trial.random.between(2, 400),
    };
    let longer = trial.random.below(9);
    call.work = trial.random.leftovers(work_bytes(n) + longer);
    let letters = rounds::letters(&mut trial.random, 3 * count);
    let mut letters = mostly_moving(trial, &call, letters);
    letters.truncate(count);
    let count = letters.len();
    call = call.with_letters(&letters);
    call.answers = trial.random.leftovers(call.answers.len() + longer);
    match trial.random.below(30) {
        0 if count > 0 => call.answers.truncate(answers::LENGTH * count - trial.random.between(1, 3)),
        1 => call.work.truncate(work_bytes(n) - 1),
        2 if count > 0 => call.letters[count / 2] = b'x',
        _ => (),
    }
    call
}

/// The letters without most of those that lead nowhere. The others lead where they did, since nowhere keeps the place.
pub(super) fn mostly_moving(trial: &mut Trial, call: &Call, letters: Vec<u8>) -> Vec<u8> {
    let mut scout = call.clone().with_letters(&letters);
    let walked = rules::walk(&scout.plan, &mut scout.work, &mut scout.cursor, &letters, &mut scout.answers);
    walked.expect("a list of calls stays in the forest");
    let moves = |index: usize| answers::get(&scout.answers, index) != NOWHERE;
    let kept = (0..letters.len()).filter(|index| moves(*index) || trial.random.once_in(6));
    kept.map(|index| letters[index]).collect()
}
