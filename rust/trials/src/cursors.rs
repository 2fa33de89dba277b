//! Stored places and the ways to damage them (refusal 10).
use crate::draft::Draft;
use crate::random::Random;
use reference::place::Cell;
use reference::plan::{Rule, Sort};
use reference::{Side, words};

/// A stored place that may be damaged: cell 0, and the cells after it.
#[derive(Clone)]
pub struct Stored {
    pub head: [u16; 4],
    pub cells: Vec<Cell>,
}

impl Stored {
    pub fn of(place: &[Cell]) -> Stored {
        Stored { head: [place.len() as u16, 0, 0, 0], cells: place.to_vec() }
    }

    /// The place of a rule that this word names.
    pub fn with_word(mut self, word: u16) -> Stored {
        self.head[1] = word;
        self
    }

    /// Writes the cells over a cursor, as far as it goes; what is past them stays.
    pub fn write(&self, cursor: &mut [u8]) {
        let cells = std::iter::once(self.head).chain(self.cells.iter().map(|cell| cell.0));
        for (cell, room) in cells.zip(cursor.as_chunks_mut().0) {
            *room = words::pack(cell);
        }
    }

    /// Takes the number of cells for k.
    fn recount(&mut self) -> Option<()> {
        self.head[0] = self.cells.len() as u16;
        Some(())
    }

    /// A cell at random among those that fit.
    fn some(&self, random: &mut Random, fits: impl Fn(usize, Cell) -> bool) -> Option<usize> {
        let fitting: Vec<usize> = (0..self.cells.len()).filter(|index| fits(*index, self.cells[*index])).collect();
        if fitting.is_empty() { None } else { Some(random.pick(&fitting)) }
    }
}

/// What the damage needs to know of the plan.
pub struct Known {
    pub draft: Draft,
    representatives: Vec<Option<u16>>,
}

impl Known {
    pub fn of(draft: Draft) -> Known {
        Known { representatives: draft.representatives(), draft }
    }

    fn rule_numbers(&self, fits: impl Fn(u16) -> bool) -> Vec<u16> {
        (0..self.draft.n() as u16).filter(|rule| fits(*rule)).collect()
    }

    /// Where a step to a side leads in a row or spine.
    fn step(&self, rule: u16, side: Side) -> Option<u16> {
        let half = |b, c| if side == Side::Left { b } else { c };
        match self.draft.rule(rule) {
            Rule::Pair(b, c) => self.representatives[usize::from(half(b, c))],
            Rule::Join(b, c) => Some(half(b, c)),
            _ => None,
        }
    }

    /// The rule that a cell reaches.
    fn reached(&self, cell: Cell) -> u16 {
        let Cell([kind, first, second, _]) = cell;
        match kind {
            Cell::SPINE => match self.draft.rule(first) {
                Rule::Fill(b, _) => b,
                _ => first,
            },
            _ => second,
        }
    }

    fn is_kind(&self, rule: u16, kind: u16) -> bool {
        self.draft.kind(rule.into()) == kind
    }
}

type Apply = Box<dyn Fn(&mut Stored, &Known, &mut Random) -> Option<()>>;

/// A way to damage a place; it does nothing, and says so by `None`, where the place has nothing of the kind.
pub struct Damage {
    pub way: String,
    pub apply: Apply,
}

fn damage(way: &str, apply: impl Fn(&mut Stored, &Known, &mut Random) -> Option<()> + 'static) -> Damage {
    Damage { way: way.to_string(), apply: Box::new(apply) }
}

pub fn all() -> Vec<Damage> {
    let mut all = in_head();
    all.extend(in_words());
    all.extend(in_lengths());
    all.extend(in_runs());
    all.extend(in_openings());
    all
}

/// Cell 0: a word 1 that names no closed rule, or another than the place is of; words 2 and 3; and a k that the needed words don't hold.
fn in_head() -> Vec<Damage> {
    let mut all = Vec::new();
    for (sort, closed) in [("a holed rule", false), ("another rule", true)] {
        all.push(damage(&format!("word 1 of cell 0 names {sort}"), move |stored, known, random| {
            let rules = known.rule_numbers(|rule| Sort::CLOSED.has(known.draft.kind(rule.into())) == closed);
            stored.head[1] = if rules.is_empty() { return None } else { random.pick(&rules) + 1 };
            Some(())
        }));
    }
    all.push(damage("word 1 of cell 0 names a holed rule, above the forest", |stored, known, random| {
        let rules = known.rule_numbers(|rule| Sort::HOLED.has(known.draft.kind(rule.into())));
        stored.head = [0, if rules.is_empty() { return None } else { random.pick(&rules) + 1 }, 0, 0];
        Some(())
    }));
    for (way, above) in [("", false), (", above the forest", true)] {
        all.push(damage(&format!("word 1 of cell 0 is beyond the rules{way}"), move |stored, known, random| {
            let n = known.draft.n();
            let far = random.between(n + 1, 65_535);
            stored.head[1] = random.pick(&[n + 1, n + 2, far, 65_535]) as u16;
            if above {
                stored.head[0] = 0;
            }
            Some(())
        }));
    }
    for word in 2..4 {
        all.push(damage(&format!("word {word} of cell 0"), move |stored, _, random| {
            stored.head[word] = random.pick(&[1, 255, 256, 65_535]);
            Some(())
        }));
        all.push(damage(&format!("word {word} of cell 0 above the forest"), move |stored, _, random| {
            stored.head[0] = 0;
            stored.head[word] = random.pick(&[1, 256, 65_535]);
            Some(())
        }));
    }
    type Count = fn(usize) -> usize;
    let counts: [(&str, Count); 4] = [
        ("k takes all cells", |n| 4 * n + 3),
        ("k just past the cells", |n| 4 * n + 4),
        ("k far past the cells", |n| 5 * n + 70),
        ("k is 65,535", |_| 65_535),
    ];
    for (way, count) in counts {
        all.push(damage(way, move |stored, known, _| {
            stored.head[0] = count(known.draft.n()).min(65_535) as u16;
            Some(())
        }));
    }
    all
}

fn is_row(cell: Cell) -> bool {
    cell.kind() == Cell::ROW
}

fn is_spine(cell: Cell) -> bool {
    cell.kind() == Cell::SPINE
}

fn is_run(cell: Cell) -> bool {
    Side::BOTH.iter().any(|side| cell.is_run(*side))
}

type IsOfSort = fn(Cell) -> bool;

const SORTS: [(&str, IsOfSort); 4] = [
    ("row", is_row),
    ("spine", is_spine),
    ("left run", |cell| cell.is_run(Side::Left)),
    ("right run", |cell| cell.is_run(Side::Right)),
];

/// One word of one cell.
fn in_words() -> Vec<Damage> {
    let mut all = Vec::new();
    for (name, is) in SORTS {
        for word in 0..4 {
            all.push(damage(&format!("word {word} of a {name}"), move |stored, known, random| {
                let cell = stored.some(random, |_, cell| is(cell))?;
                let was = stored.cells[cell].0[word];
                let other = [random.word(), random.below(known.draft.n()) as u16, random.below(6) as u16];
                let near = [was.wrapping_add(1), was.wrapping_sub(1)];
                stored.cells[cell].0[word] = random.pick(&[other[0], other[1], other[2], near[0], near[1]]);
                Some(())
            }));
        }
    }
    all
}

/// Cells left out, doubled, added at the end or cut off.
fn in_lengths() -> Vec<Damage> {
    let mut all = Vec::new();
    for (name, is) in SORTS {
        all.push(damage(&format!("{name} left out"), move |stored, _, random| {
            let cell = stored.some(random, |_, cell| is(cell))?;
            stored.cells.remove(cell);
            stored.recount()
        }));
        all.push(damage(&format!("{name} twice"), move |stored, _, random| {
            let cell = stored.some(random, |_, cell| is(cell))?;
            stored.cells.insert(cell, stored.cells[cell]);
            stored.recount()
        }));
        all.push(damage(&format!("ends after a {name}"), move |stored, _, random| {
            let cell = stored.some(random, |_, cell| is(cell))?;
            stored.cells.truncate(cell + 1);
            stored.recount()
        }));
    }
    all.push(damage("one more cell, zeros", |stored, _, _| {
        stored.cells.push(Cell([0; 4]));
        stored.recount()
    }));
    all.push(damage("one more cell, anything", |stored, _, random| {
        stored.cells.push(Cell([random.between(1, 4) as u16, random.below(9) as u16, random.below(9) as u16, 0]));
        stored.recount()
    }));
    all.push(damage("two cells change places", |stored, _, random| {
        let cell = stored.some(random, |index, _| index > 0)?;
        stored.cells.swap(cell - 1, cell);
        Some(())
    }));
    all
}

/// Runs that aren't longest, lead nowhere or stop short.
fn in_runs() -> Vec<Damage> {
    let mut all = Vec::new();
    for side in Side::BOTH {
        let long = move |known: &Known, cell: Cell| {
            cell.is_run(side) && known.step(cell.0[1], side).is_some_and(|next| next != cell.0[2])
        };
        all.push(damage(&format!("{side:?} run in two cells"), move |stored, known, random| {
            let cell = stored.some(random, |_, cell| long(known, cell))?;
            let Cell([_, from, to, _]) = stored.cells[cell];
            let middle = known.step(from, side)?;
            stored.cells[cell] = Cell::run(side, from, middle);
            stored.cells.insert(cell + 1, Cell::run(side, middle, to));
            stored.recount()
        }));
        all.push(damage(&format!("{side:?} run stops short"), move |stored, known, random| {
            let cell = stored.some(random, |_, cell| long(known, cell))?;
            stored.cells[cell].0[2] = known.step(stored.cells[cell].0[1], side)?;
            Some(())
        }));
        all.push(damage(&format!("{side:?} run of no steps"), move |stored, known, random| {
            let cell = stored.some(random, |_, _| true)?;
            let at = known.reached(stored.cells[cell]);
            stored.cells.insert(cell + 1, Cell::run(side, at, at));
            stored.recount()
        }));
        all.push(damage(&format!("{side:?} run to the other side"), move |stored, _, random| {
            let cell = stored.some(random, |_, cell| cell.is_run(side))?;
            let Cell([_, from, to, _]) = stored.cells[cell];
            stored.cells[cell] = Cell::run(side.other(), from, to);
            Some(())
        }));
    }
    all
}

/// Rows and spines opened where they don't belong.
fn in_openings() -> Vec<Damage> {
    vec![
        damage("row over a one-sided pair", |stored, known, random| {
            let same = |cell: Cell| {
                known.rule_numbers(|rule| {
                    rule != cell.0[2] && known.representatives[usize::from(rule)] == Some(cell.0[2])
                })
            };
            let cell = stored.some(random, |_, cell| is_row(cell) && !same(cell).is_empty())?;
            stored.cells[cell].0[2] = random.pick(&same(stored.cells[cell]));
            Some(())
        }),
        damage("row over an empty rule", |stored, known, random| {
            let over = random.below(3) as u16;
            let empty = known.rule_numbers(|rule| known.representatives[usize::from(rule)].is_none());
            stored.cells.push(Cell([Cell::ROW, over, random.pick(&empty), 0]));
            let leaf = random.pick(&known.rule_numbers(|_| true));
            stored.cells.push(Cell::spine(leaf));
            stored.recount()
        }),
        damage("row of the other arm", |stored, _, random| {
            let cell = stored.some(random, |_, cell| is_row(cell) && cell.0[1] > 0)?;
            stored.cells[cell].0[1] ^= 3;
            Some(())
        }),
        damage("arm taken for all", |stored, _, random| {
            let cell = stored.some(random, |_, cell| is_row(cell) && cell.0[1] > 0)?;
            stored.cells[cell].0[1] = 0;
            Some(())
        }),
        damage("all taken for an arm", |stored, _, random| {
            let cell = stored.some(random, |_, cell| is_row(cell) && cell.0[1] == 0)?;
            stored.cells[cell].0[1] = random.between(1, 3) as u16;
            Some(())
        }),
        damage("C opened before the last part", |stored, known, random| {
            let early = |index: usize, cell: Cell| {
                let goes_left = stored.cells[index + 1..]
                    .iter()
                    .take_while(|cell| is_run(**cell))
                    .any(|cell| cell.is_run(Side::Left));
                is_spine(cell) && known.is_kind(cell.0[1], 3) && goes_left
            };
            let spine = stored.some(random, early)?;
            let Rule::Fill(_, c) = known.draft.rule(stored.cells[spine].0[1]) else { return None };
            let runs = stored.cells[spine + 1..].iter().take_while(|cell| is_run(**cell)).count();
            stored.cells.truncate(spine + 1 + runs);
            stored.cells.push(Cell::spine(c));
            stored.recount()
        }),
        damage("another tree opened for C", |stored, known, random| {
            let chained = |index: usize, cell: Cell| {
                is_spine(cell) && known.is_kind(cell.0[1], 3) && index + 1 < stored.cells.len()
            };
            let spine = stored.some(random, chained)?;
            let next = (spine + 1..stored.cells.len()).find(|index| !is_run(stored.cells[*index]))?;
            let trees = known.rule_numbers(|rule| Sort::TREE.has(known.draft.kind(rule.into())));
            stored.cells[next] = Cell::spine(random.pick(&trees));
            Some(())
        }),
        damage("tree opened below a node of kind 2", |stored, known, random| {
            let node = stored.some(random, |_, cell| is_spine(cell) && known.is_kind(cell.0[1], 2))?;
            let trees = known.rule_numbers(|rule| Sort::TREE.has(known.draft.kind(rule.into())));
            stored.cells.truncate(node + 1);
            stored.cells.push(Cell::spine(random.pick(&trees)));
            stored.recount()
        }),
        damage("row opened before a part is reached", |stored, known, random| {
            let joined = |cell: Cell| is_spine(cell) && known.is_kind(known.reached(cell), 5);
            let spine = stored.some(random, |index, cell| joined(cell) && index + 1 < stored.cells.len())?;
            let next = (spine + 1..stored.cells.len()).find(|index| is_row(stored.cells[*index]))?;
            stored.cells.drain(spine + 1..next);
            stored.recount()
        }),
        damage("tree opened before it is reached", |stored, known, random| {
            let paired = |cell: Cell| is_row(cell) && known.is_kind(cell.0[2], 1);
            let row = stored.some(random, |_, cell| paired(cell))?;
            let spine = (row + 1..stored.cells.len()).find(|index| is_spine(stored.cells[*index]))?;
            stored.cells.drain(row + 1..spine);
            stored.recount()
        }),
    ]
}
