//! Rules that may name any others (document 02, Note 1): an order in which each comes after those that it names or, where there is none, the
//! lowest rule that reaches itself.
use crate::plan::Rules;

/// All rules, each after those that it names; an error with the lowest rule that reaches itself.
pub fn order(rules: Rules) -> Result<Vec<u16>, usize> {
    let order = peeled(rules);
    if order.len() == rules.count() { Ok(order) } else { Err(Components::of(rules).lowest) }
}

/// No edge.
const NONE: usize = usize::MAX;

/// Kahn's peeling: a rule is taken as soon as all that it names is taken. What is never taken reaches itself, or a rule that does.
fn peeled(rules: Rules) -> Vec<u16> {
    let n = rules.count();
    // How many of a rule's words name one that isn't taken; and the words that name a rule, each with the next such word.
    let mut open = vec![0_u8; n];
    let mut first = vec![NONE; n];
    let mut next = vec![NONE; 2 * n];
    for rule in 0..n {
        for (word, named) in rules.get(rule as u16).named().enumerate() {
            open[rule] += 1;
            next[2 * rule + word] = std::mem::replace(&mut first[usize::from(named)], 2 * rule + word);
        }
    }
    let mut order: Vec<u16> = (0..n as u16).filter(|rule| open[usize::from(*rule)] == 0).collect();
    let mut done = 0;
    while done < order.len() {
        let mut edge = first[usize::from(order[done])];
        done += 1;
        while edge != NONE {
            open[edge / 2] -= 1;
            if open[edge / 2] == 0 {
                order.push((edge / 2) as u16);
            }
            edge = next[edge];
        }
    }
    order
}

/// Tarjan's search for strongly connected components. A rule reaches itself if its component has another rule, or if it names itself.
struct Components<'a> {
    rules: Rules<'a>,
    /// When each rule was come to, from 1; 0 before.
    come_to: Vec<usize>,
    /// The earliest that is known to be reached from it and whose component is still open.
    earliest: Vec<usize>,
    /// The rules of open components, in the order in which they were come to.
    open: Vec<usize>,
    is_open: Vec<bool>,
    /// The lowest rule found so far that reaches itself, or n.
    lowest: usize,
}

impl<'a> Components<'a> {
    fn of(rules: Rules<'a>) -> Components<'a> {
        let n = rules.count();
        let (come_to, earliest, is_open) = (vec![0; n], vec![0; n], vec![false; n]);
        let mut components = Components { rules, come_to, earliest, open: Vec::new(), is_open, lowest: n };
        let mut time = 0;
        for root in 0..n {
            if components.come_to[root] == 0 {
                components.search(root, &mut time);
            }
        }
        components
    }

    /// Depth first from a rule. The path has each rule with how many of the rules that it names were looked at.
    fn search(&mut self, root: usize, time: &mut usize) {
        let mut path = Vec::new();
        self.come(root, time, &mut path);
        while let Some((rule, looked_at)) = path.last_mut() {
            let rule = *rule;
            let Some(named) = self.rules.get(rule as u16).named().nth(*looked_at).map(usize::from) else {
                path.pop();
                if let Some((above, _)) = path.last() {
                    self.earliest[*above] = self.earliest[*above].min(self.earliest[rule]);
                }
                self.close(rule);
                continue;
            };
            *looked_at += 1;
            if self.come_to[named] == 0 {
                self.come(named, time, &mut path);
            } else if self.is_open[named] {
                self.earliest[rule] = self.earliest[rule].min(self.come_to[named]);
            }
        }
    }

    fn come(&mut self, rule: usize, time: &mut usize, path: &mut Vec<(usize, usize)>) {
        *time += 1;
        (self.come_to[rule], self.earliest[rule], self.is_open[rule]) = (*time, *time, true);
        self.open.push(rule);
        path.push((rule, 0));
    }

    /// Closes the component that was first come to at this rule, if one was.
    fn close(&mut self, rule: usize) {
        if self.earliest[rule] != self.come_to[rule] {
            return;
        }
        let from = self.open.iter().rposition(|open| *open == rule).expect("a rule that wasn't closed");
        let component = self.open.split_off(from);
        for member in &component {
            self.is_open[*member] = false;
        }
        let names_itself = self.rules.get(rule as u16).named().any(|named| usize::from(named) == rule);
        if component.len() > 1 || names_itself {
            self.lowest = component.into_iter().fold(self.lowest, usize::min);
        }
    }
}
