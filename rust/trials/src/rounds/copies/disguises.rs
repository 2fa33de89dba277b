//! What a client can tell of two plans that differ in what the client doesn't see, in labels, in shapes and in hidden nodes that one of them has more:
//! nothing.
use super::{client, copied, labels_of, varied, walk_of};
use crate::draft::Draft;
use crate::random::Random;
use crate::rounds::{self, walks};
use crate::trial::Trial;
use crate::{families, random_plans};
use reference::copy::Client;
use reference::plan::Rule::{self, Fill, Join, Node, Pair, Part};
use reference::plan::{self, Sort};
use reference::rows::LAST_CLASS;
use reference::rules;
use std::collections::BTreeMap;

/// Two plans that differ in what a client doesn't see alone: whatever the letters, both copies give the client the same answers.
pub(super) fn agree(trial: &mut Trial) {
    let n = trial.random.pick(&[6, 15, 40, 100]);
    let draft = match trial.random.below(3) {
        0 => rounds::small(&mut trial.random, n),
        1 => families::any(&mut trial.random, n),
        _ => random_plans::any(&mut trial.random, n),
    };
    let draft = varied(&mut trial.random, &draft);
    let class = trial.random.below(LAST_CLASS.into()) as u16;
    let mut seen: BTreeMap<u32, bool> =
        labels_of(&draft).into_iter().map(|label| (label, !trial.random.once_in(4))).collect();
    // There is a label to hide in whatever else isn't seen.
    let secret = random_plans::label(draft.format, &mut trial.random);
    seen.insert(secret, false);
    let client = client(&mut trial.random, class, &seen);
    let mut other = draft.clone();
    let mut changes = trial.random.between(1, 6);
    while changes > 0 || other.plan() == draft.plan() {
        let change = trial.random.pick(&DISGUISES);
        change(&mut other, &draft, &client, secret, &mut trial.random);
        changes = changes.saturating_sub(1);
    }
    let (sees, base) = (|label| client.sees(label), trial.random.number());
    let prints = [&draft, &other].map(|draft| rules::visible_print(&draft.plan(), sees, base));
    assert_eq!(prints[0], prints[1], "what is changed isn't seen");
    let both = [draft, other].map(|draft| rounds::in_any_order(&mut trial.random, draft));
    let copies = [0, 1].map(|which| copied(trial, &both[which], &client));
    trial.tally.disguised += 1;
    trial.tally.of_other_bytes += u64::from(copies[0] != copies[1]);
    let mut calls = [0, 1].map(|which| walk_of(&copies[which]));
    for turn in 0..5 {
        let letters = rounds::letters(&mut trial.random, 60);
        let letters = if turn == 0 { letters } else { walks::mostly_moving(trial, &calls[0], letters) };
        calls =
            calls.map(|call| trial.accepted(&call.with_letters(&letters), "a copy is walked from above or a place"));
        assert!(
            calls[0].answers == calls[1].answers,
            "copies of plans of which the same is seen have the same answers"
        );
        trial.tally.letters_on_copies += letters.len() as u64;
    }
}

/// A change of a plan that a client doesn't see, if the plan has a rule for it. The draft as it was tells which rules are below which: each of the
/// first plan's rules names lower ones only, and what is added names those below the rule that it is added to.
type Disguise = fn(&mut Draft, &Draft, &Client, u32, &mut Random);

/// A rule of the first plan that has this property, as it is now.
fn some_rule(now: &Draft, was: &Draft, random: &mut Random, fits: impl Fn(Rule) -> bool) -> Option<(usize, Rule)> {
    let fitting: Vec<u16> = (0..was.n() as u16).filter(|rule| fits(now.rule(*rule))).collect();
    if fitting.is_empty() {
        return None;
    }
    let rule = random.pick(&fitting);
    Some((rule.into(), now.rule(rule)))
}

/// A rule of a sort below one of the first plan's, if there is any.
fn below(was: &Draft, rule: usize, sort: Sort, random: &mut Random) -> Option<u16> {
    let fitting = was.of_sort(sort, rule);
    if fitting.is_empty() { None } else { Some(random.pick(&fitting)) }
}

/// Adds rules, and leaves the start.
fn added(draft: &mut Draft, rule: Rule) -> u16 {
    draft.records.push(rule.words());
    draft.n() as u16 - 1
}

/// Of each rule whether it has a hole that is seen.
fn holes_seen(draft: &Draft, client: &Client) -> Vec<bool> {
    let plan = draft.plan();
    let mut seen = vec![false; draft.n()];
    for number in plan::read(&plan).expect("a valid plan").order() {
        seen[usize::from(number)] = match draft.rule(number) {
            Part(label, ..) => client.sees(label),
            Join(b, c) => seen[usize::from(b)] && seen[usize::from(c)],
            _ => false,
        };
    }
    seen
}

const DISGUISES: [Disguise; 7] = [
    // Another hidden label.
    |draft, was, client, secret, random| {
        let hidden = |rule| matches!(rule, Node(label, _) | Part(label, ..) if !client.sees(label));
        let Some((number, rule)) = some_rule(draft, was, random, hidden) else { return };
        draft.records[number] = match rule {
            Node(_, c) => Node(secret, c),
            Part(_, l, r) => Part(secret, l, r),
            other => other,
        }
        .words();
    },
    // Other trees below a hidden node.
    |draft, was, client, _, random| {
        let hidden = |rule| matches!(rule, Node(label, _) if !client.sees(label));
        let Some((number, Node(label, c))) = some_rule(draft, was, random, hidden) else { return };
        let Some(other) = below(was, number, Sort::CLOSED, random) else { return };
        let both = added(draft, Pair(c, other));
        draft.records[number] = Node(label, random.pick(&[other, both])).words();
    },
    // Other arms of a hidden part.
    |draft, was, client, _, random| {
        let hidden = |rule| matches!(rule, Part(label, ..) if !client.sees(label));
        let Some((number, Part(label, l, r))) = some_rule(draft, was, random, hidden) else { return };
        let Some(other) = below(was, number, Sort::CLOSED, random) else { return };
        draft.records[number] = random.pick(&[Part(label, other, r), Part(label, l, other), Part(label, r, l)]).words();
    },
    // Another tree in a hole that isn't seen.
    |draft, was, client, _, random| {
        let holes = holes_seen(draft, client);
        let unseen = |rule| matches!(rule, Fill(b, _) if !holes[usize::from(b)]);
        let Some((number, Fill(b, _))) = some_rule(draft, was, random, unseen) else { return };
        let Some(other) = below(was, number, Sort::TREE, random) else { return };
        draft.records[number] = Fill(b, other).words();
    },
    // A hidden node made a hidden part around a tree, a hidden part one around another holed rule.
    |draft, was, client, secret, random| {
        let hidden = |rule| matches!(rule, Node(label, _) | Part(label, ..) if !client.sees(label));
        let Some((number, rule)) = some_rule(draft, was, random, hidden) else { return };
        let Some(arm) = below(was, number, Sort::CLOSED, random) else { return };
        let sort = if matches!(rule, Node(..)) { Sort::TREE } else { Sort::HOLED };
        let Some(inside) = below(was, number, sort, random) else { return };
        let part = added(draft, Part(secret, arm, arm));
        draft.records[number] = if sort == Sort::TREE { Fill(part, inside) } else { Join(part, inside) }.words();
    },
    // A hidden tree beside what a node or a part has below it.
    |draft, was, _, secret, random| {
        let labelled = |rule| matches!(rule, Node(..) | Part(..));
        let Some((number, rule)) = some_rule(draft, was, random, labelled) else { return };
        let Some(under) = below(was, number, Sort::CLOSED, random) else { return };
        let tree = added(draft, Node(secret, under));
        let mut beside = |c| if random.once_in(2) { added(draft, Pair(c, tree)) } else { added(draft, Pair(tree, c)) };
        let rule = match rule {
            Node(label, c) => Node(label, beside(c)),
            Part(label, l, r) if number % 2 == 0 => Part(label, beside(l), r),
            Part(label, l, r) => Part(label, l, beside(r)),
            other => other,
        };
        draft.records[number] = rule.words();
    },
    // A hidden root over all the forest, beside it.
    |draft, _, _, secret, random| {
        let start = draft.start;
        let tree = added(draft, Node(secret, start));
        draft.start = if random.once_in(2) { added(draft, Pair(start, tree)) } else { added(draft, Pair(tree, start)) };
    },
];
