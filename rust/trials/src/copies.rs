//! What must hold of a client's copy whatever rules it has (document 02, Note 6), asked of its bytes.
use reference::copy::{Client, Node, nodes};
use reference::plan::{self, Rule, TRAILER};
use reference::unfolded::Unfolded;
use reference::{Format, rules};

/// Judges the copy of a plan for a client; what is wrong with it, if anything is. The library and the reference accept it; it is a wide plan
/// without cover; it has at most three rules for each of the plan's, each names lower ones only, has no label of a higher class, and is the
/// start or reached from it; and its forest, by a print with this base, is what the client sees of the plan's.
pub fn judge(plan: &[u8], client: &Client, copy: &[u8], base: u64) -> Result<(), String> {
    if let Err(no) = mealplan::check(copy) {
        return Err(format!("the library refuses the copy with {} at {}", no.number, no.position));
    }
    let read = plan::read(copy).map_err(|no| format!("the reference refuses the copy with {no:?}"))?;
    let n = read.rules.count();
    if read.format() != Format::Wide || copy.len() != Format::Wide.record() * n + TRAILER {
        return Err("the copy isn't a wide plan without cover".to_string());
    }
    let most = 3 * usize::from(plan::check(plan).expect("what is copied is a plan").n);
    if n > most {
        return Err(format!("the copy has {n} rules, more than {most}"));
    }
    for number in 0..n as u16 {
        let rule = read.rules.get(number);
        if let Some(named) = rule.named().find(|named| *named >= number) {
            return Err(format!("rule {number} of the copy names rule {named}, which isn't lower"));
        }
        if let Rule::Node(label, _) | Rule::Part(label, ..) = rule
            && !client.sees(label)
        {
            return Err(format!("rule {number} of the copy has label {label}, which is of a higher class"));
        }
    }
    // Rules name lower ones only, so whatever names a rule comes before it on the way down.
    let mut reached = vec![false; n];
    reached[usize::from(read.start)] = true;
    for number in (0..n).rev() {
        if !reached[number] {
            return Err(format!("rule {number} of the copy isn't reached from the start"));
        }
        read.rules.get(number as u16).named().for_each(|named| reached[usize::from(named)] = true);
    }
    let seen = rules::visible_print(plan, |label| client.sees(label), base);
    if rules::visible_print(copy, |_| true, base) != seen {
        return Err("the copy has another forest than is seen".to_string());
    }
    Ok(())
}

/// The forest of a copy, unless it has more nodes than this.
pub fn unfolded(copy: &[u8], most: usize) -> Option<Vec<Node>> {
    Unfolded::of(copy, most).map(|unfolded| nodes(&unfolded.forest.trees))
}
