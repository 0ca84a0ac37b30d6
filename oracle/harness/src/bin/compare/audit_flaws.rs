//! Calls of an audit with something wrong among the right ones.

use crate::audit_case::{Audit, Flaw};
use harness::inputs::{self, Rng};
use harness::lent::LentFragments;
use harness::model_audit::{ROW_NUMBERS, SHEET_NUMBERS, STATE_NUMBERS};
use harness::{rules, Catalogue, MOST_LIMIT};

/// One to three calls with flaws, before right ones.
pub fn add(rng: &mut Rng, a: &mut Audit) {
    for _ in 0..rng.within(1, 3) {
        let mut flaws = vec![held(rng, a)];
        let n = a.calls.len();
        match rng.below(6) {
            0 => {
                flaws.extend(own(rng, opening));
                a.flawed_opening.push(flaws);
            }
            1 | 2 if n > 0 => {
                flaws.extend(own(rng, fragment));
                lend_others(rng, &a.c, &mut flaws);
                let i = rng.below(n);
                a.calls[i].flawed.push(flaws);
            }
            3 => {
                let i = rng.below(a.pieces.len());
                let mut l = list_of(a, i);
                let mut rows = ROW_NUMBERS * l.roles.len();
                damage_list(rng, &mut l, &mut rows);
                let list = Flaw::List(l, rows);
                flaws = if rng.one_in(4) { [flaws, vec![list]].concat() } else { vec![list] };
                lend_others(rng, &a.c, &mut flaws);
                a.pieces[i].flawed.push(flaws);
            }
            4 => {
                flaws.extend(own(rng, |rng| Flaw::AnswerLength(*rng.pick(&[0, 1, SHEET_NUMBERS - 1, SHEET_NUMBERS + 1]))));
                lend_others(rng, &a.c, &mut flaws);
                a.flawed_finish.push(flaws);
            }
            _ => {
                let now = Flaw::Now(other_targets(rng, &a.c));
                flaws.push(if rng.one_in(2) { now } else { applied(rng, a.c.marks.len()) });
                if rng.one_in(2) {
                    flaws.remove(0);
                }
                a.flawed_apply.push(flaws);
            }
        }
    }
}

fn own(rng: &mut Rng, flaw: impl Fn(&mut Rng) -> Flaw) -> Option<Flaw> {
    rng.one_in(2).then(|| flaw(rng))
}

/// Other targets than the opening's, in place of the other flaws or beside them.
fn lend_others(rng: &mut Rng, c: &Catalogue, flaws: &mut Vec<Flaw>) {
    if rng.one_in(3) {
        if rng.one_in(2) {
            flaws.clear();
        }
        let mut other = c.clone();
        match rng.below(4) {
            0 => other = other_targets(rng, c),
            1 => other = doubled(rng, c).unwrap_or(other),
            _ => inputs::damage(rng, &mut other),
        }
        flaws.push(Flaw::Targets(other));
    }
}

/// The same targets, the last of which has the name of another.
fn doubled(rng: &mut Rng, c: &Catalogue) -> Option<Catalogue> {
    let targets = c.targets()?;
    let (last, others) = targets.split_last().filter(|x| !x.1.is_empty())?;
    let mut next = Catalogue::default();
    others.iter().for_each(|t| next.push(t.0, t.1, t.2));
    next.push(rng.pick(others).0, last.1, last.2);
    Some(next)
}

fn list_of(a: &Audit, piece: usize) -> LentFragments {
    let from = if piece == 0 { 0 } else { a.pieces[piece - 1].until };
    LentFragments::of(a.calls[from..a.pieces[piece].until].iter().map(|call| &call.fragment))
}

/// Something about the state, the counters or the index, which every call is lent.
fn held(rng: &mut Rng, a: &Audit) -> Flaw {
    let n = a.c.marks.len();
    match rng.below(9) {
        0 => Flaw::StateLength(*rng.pick(&[0, 1, STATE_NUMBERS - 1, STATE_NUMBERS + 1])),
        1 => Flaw::State(*rng.pick(&[0, 1, 2, 5, 31]), *rng.pick(&[0, 1, 2, u64::MAX])),
        2 => Flaw::State(3, *rng.pick(&[0, 93, 94, 255, 256, u64::MAX])),
        3 => Flaw::State(4, *rng.pick(&[0, 1, MOST_LIMIT, MOST_LIMIT + 1, u64::MAX])),
        4 => Flaw::State(6, *rng.pick(&[0, 1, u64::MAX])),
        5 => Flaw::State(rng.within(7, 30), *rng.pick(&[0, 1, 2, u64::MAX, u64::MAX - 1])),
        6 => Flaw::CountersLength(rng.below(3), *rng.pick(&[0, n + 1, n.saturating_sub(1)])),
        7 if n > 0 => Flaw::Counter(rng.below(3), rng.below(n), *rng.pick(&[0, 1, 2, u64::MAX, u64::MAX - 1])),
        _ => {
            let mut columns = if rules::plan_refusal(&a.c, 15) == 0 { rules::index(&a.c, 15) } else { Default::default() };
            inputs::damage_index(rng, &mut columns);
            Flaw::Stale(columns)
        }
    }
}

fn opening(rng: &mut Rng) -> Flaw {
    let (mode, remap) = *rng.pick(&[(2, 1), (0, 2), (255, 255), (1, 1), (0, 0)]);
    let (floor, limit) = (*rng.pick(&[0, 93, 94, 255]), *rng.pick(&[0, 1, MOST_LIMIT, MOST_LIMIT + 1]));
    Flaw::Settings(harness::audits::Settings { mode, remap, floor, limit })
}

fn fragment(rng: &mut Rng) -> Flaw {
    match rng.below(3) {
        0 => Flaw::AnswerLength(*rng.pick(&[0, 8, 15, 17])),
        1 => Flaw::Marks(*rng.pick(&[[2, 0], [0, 2], [255, 1], [1, 1], [0, 0]])),
        _ => Flaw::Count(*rng.pick(&[0, 1, 2, 3, usize::MAX])),
    }
}

fn applied(rng: &mut Rng, targets: usize) -> Flaw {
    match rng.below(4) {
        0 => Flaw::SheetLength(*rng.pick(&[0, SHEET_NUMBERS - 1, SHEET_NUMBERS + 1])),
        1 => Flaw::Sheet(*rng.pick(&[0, 1, 2, 21]), *rng.pick(&[0, 1, 2, 3, 4, u64::MAX])),
        2 => Flaw::Sheet(rng.within(3, 24), *rng.pick(&[0, 1, u64::MAX])),
        _ => Flaw::AnswerLength(*rng.pick(&[0, 4 * targets + 1, 4 * targets + 4, (4 * targets).saturating_sub(1)])),
    }
}

/// Targets like these, but for a name, a topology, the order, the number, the bases; or damaged.
fn other_targets(rng: &mut Rng, c: &Catalogue) -> Catalogue {
    let mut other = c.clone();
    let Some(targets) = c.targets() else { return other };
    let n = targets.len();
    let rebuilt = |order: &[usize], change: &dyn Fn(usize) -> bool| {
        let mut next = Catalogue::default();
        for &i in order {
            let bases: &[u8] = if change(i) { b"GATTACA" } else { targets[i].1 };
            next.push(targets[i].0, bases, targets[i].2);
        }
        next
    };
    let mut order: Vec<usize> = (0..n).collect();
    match rng.below(7) {
        0 if n > 0 => {
            let i = rng.below(n);
            other.marks[i] = 1 - other.marks[i].min(1);
        }
        1 if !c.identifiers.is_empty() => {
            let i = rng.below(c.identifiers.len());
            other.identifiers[i] ^= 1;
        }
        2 if n > 1 => {
            order.swap(0, n - 1);
            other = rebuilt(&order, &|_| false);
        }
        3 => drop(order.pop().map(|_| other = rebuilt(&order, &|_| false))),
        4 => other = rebuilt(&order, &|i| i % 2 == 0),
        5 => inputs::damage(rng, &mut other),
        _ => other.push(b"one more", b"ACGT", 0),
    }
    other
}

/// One thing wrong with a list, mostly 25.
fn damage_list(rng: &mut Rng, l: &mut LentFragments, rows: &mut usize) {
    let n = l.roles.len();
    let i = rng.below(n.max(1));
    match rng.below(18) {
        0 => drop(l.counts.pop()),
        1 => l.counts.push(*rng.pick(&[0, 1])),
        2 => l.ordinals.push(u64::MAX),
        3 if !l.counts.is_empty() => {
            let k = rng.below(l.counts.len());
            l.counts[k] = *rng.pick(&[l.counts[k] + 1, l.counts[k].saturating_sub(1), u64::MAX]);
        }
        4 if l.counts.len() > 1 => {
            // a sum that comes round to the right number
            l.counts[0] = l.counts[0].wrapping_sub(l.counts[0] + 1);
            l.counts[1] = l.counts[1].wrapping_add(n as u64 + 1);
        }
        5 => drop(l.roles.pop()),
        6 if i < n => l.roles[i] = *rng.pick(&[3, 4, 255]),
        7 => drop(l.read_ends.pop()),
        8 => l.read_ends.push(l.reads.len()),
        9 if i < n => l.read_ends[i] = *rng.pick(&[l.reads.len() + 1, usize::MAX]),
        10 if i > 0 => l.read_ends[i - 1] = l.read_ends[i] + 1,
        11 => drop(l.quality_marks.pop()),
        12 if i < n => l.quality_marks[i] = *rng.pick(&[2, 255]),
        13 => drop(l.quality_ends.pop()),
        14 if i < n => l.quality_ends[i] = *rng.pick(&[l.qualities.len() + 1, usize::MAX]),
        15 if i > 0 => l.quality_ends[i - 1] = l.quality_ends[i] + 1,
        16 => l.quality_ends.push(l.qualities.len()),
        _ => *rows = *rng.pick(&[*rows + 1, *rows + ROW_NUMBERS, rows.saturating_sub(1), rows.saturating_sub(ROW_NUMBERS)]),
    }
}
