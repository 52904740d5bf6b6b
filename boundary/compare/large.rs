//! Plans of over 1,024 tables, crowded and not. The module gives the original's candidates wherever each has at most 1,024 numbers; where one has
//! more, some of them, and never none.
use crate::numbers::Dice;
use crate::plans::{self, Plan, Sides, focus, shuffle, vector};
use crate::sides::{Estimate, Found, Over, Table, dropin, original};
use crate::{same, same_list};
use std::collections::HashSet;

const MOST: usize = 1024;
const SPACE: u64 = 1 << 40;
const SHAPES: u64 = 7;

fn table(d: &mut Dice, level: u32, lo: u64, hi: u64) -> Table {
    Table { number: 0, level, size: (1 + d.below(64)) << d.below(21), first: lo.to_be_bytes().to_vec(), last: hi.to_be_bytes().to_vec() }
}

/// A level whose tables stand side by side, most of them filling their place in part.
fn side_by_side(d: &mut Dice, out: &mut Vec<Table>, level: u32, count: u64) {
    let wide = SPACE / count.max(1);
    for i in 0..count {
        let lo = i * wide + d.below(wide / 4);
        let hi = lo + d.below(wide * 3 / 4);
        out.push(table(d, level, lo, hi));
    }
}

/// Numbers and order at random; no number twice.
fn shuffled(d: &mut Dice, mut tables: Vec<Table>) -> Vec<Table> {
    shuffle(d, &mut tables);
    let mut numbers: Vec<u64> = (0..tables.len() as u64).map(|n| 3 * n + 1).collect();
    shuffle(d, &mut numbers);
    for (t, n) in tables.iter_mut().zip(numbers) {
        t.number = n;
    }
    tables
}

/// Over budget by a third, or at random.
fn over(d: &mut Dice, tables: &[Table], levels: &[u32]) -> Over {
    let bytes = |level: u32| tables.iter().filter(|t| t.level == level).map(|t| t.size).sum::<u64>();
    levels.iter().map(|&l| (l, if d.one_in(4) { d.next() >> d.below(64) } else { bytes(l) / 3 * 2 })).collect()
}

fn plan(d: &mut Dice, shape: u64, n: u64) -> Plan {
    let huge = n > 10_000;
    let mut t = vec![];
    let levels: Vec<u32> = match shape {
        // many levels, each with the next within 1,024 tables
        0 => {
            let levels = n.div_ceil(400);
            (0..levels).for_each(|l| side_by_side(d, &mut t, l as u32, n / levels + 1));
            (0..d.below(if huge { 20 } else { 17 })).map(|_| d.below(levels) as u32).collect()
        }
        // few of L0 and level 1, most in level 2
        1 => {
            side_by_side(d, &mut t, 0, 5);
            side_by_side(d, &mut t, 1, n / if huge { 100 } else { 12 });
            side_by_side(d, &mut t, 2, n - n / if huge { 100 } else { 12 });
            if huge { vec![1] } else { vec![1, 2] }
        }
        // too many of L0, narrow or wide
        2 => {
            let (l0, wide) = (n / 2 + d.below(n / 2), SPACE >> d.below(30));
            for _ in 0..l0 {
                let lo = d.below(SPACE - wide + 1);
                let hi = lo + d.below(wide);
                t.push(table(d, 0, lo, hi));
            }
            side_by_side(d, &mut t, 1, n - l0);
            if huge || d.one_in(2) { vec![] } else { vec![1] }
        }
        // a table of L0 and of level 1 that overlaps all of the level below
        3 => {
            t.push(table(d, 0, 0, SPACE));
            side_by_side(d, &mut t, 1, (n / 100).max(1100));
            t.push(table(d, 1, 0, SPACE));
            side_by_side(d, &mut t, 2, n.max(1300));
            vec![1]
        }
        // tables that overlap hundreds of the level below
        4 => {
            let above = 6 + d.below(12);
            side_by_side(d, &mut t, 1, above);
            side_by_side(d, &mut t, 2, n);
            vec![1]
        }
        // all in one level
        5 => {
            side_by_side(d, &mut t, 3, n);
            vec![3, 3]
        }
        // odd keys and numbers
        _ => {
            let levels = 1 + d.below(5);
            let tables = plans::tables(d, n, levels, &plans::size);
            let entries = plans::entries(d, 4, levels);
            return Plan { trigger: d.below(9) as usize, over: entries, next: plans::next(d, &tables), tables };
        }
    };
    let mut tables = shuffled(d, t);
    if d.one_in(2) {
        // the one that overlaps all below is where batches start
        tables.iter_mut().filter(|t| t.last == SPACE.to_be_bytes() && t.level == 1).for_each(|t| t.number = 0);
    }
    let over = over(d, &tables, &levels);
    Plan { trigger: d.below(9) as usize, next: 3 * tables.len() as u64 + 2, tables, over }
}

/// Those of a level that meet the range of some others, in table order.
fn met<'t>(tables: &'t [Table], level: u32, others: &[&Table]) -> Vec<&'t Table> {
    let (lo, hi) = (others.iter().map(|t| &t.first).min().expect("some"), others.iter().map(|t| &t.last).max().expect("some"));
    tables.iter().filter(|t| t.level == level && t.first <= *hi && t.last >= *lo).collect()
}

/// L0 in part: its oldest tables in table order, then what they overlap in level 1; as many as fit, but at least one.
fn oldest_part(tables: &[Table]) -> Vec<u64> {
    let mut by_age: Vec<usize> = (0..tables.len()).filter(|&i| tables[i].level == 0).collect();
    by_age.sort_by_key(|&i| tables[i].number);
    let with_below = |count: usize| {
        let mut places = by_age[..count].to_vec();
        places.sort();
        let part: Vec<&Table> = places.iter().map(|&i| &tables[i]).collect();
        let below = met(tables, 1, &part);
        part.into_iter().chain(below).map(|t| t.number).collect::<Vec<u64>>()
    };
    let mut count = 1;
    while count < by_age.len() && with_below(count + 1).len() <= MOST {
        count += 1;
    }
    with_below(count)
}

/// One group to an entry whose level has tables: its batches, and its move if there is one.
fn groups(found: &[Found]) -> Vec<&[Found]> {
    found.chunk_by(|_, next| !(next.kind.0 == 2 && next.kind.2 == 1)).collect()
}

fn batches(group: &[Found]) -> (&[Found], &[Found]) {
    group.split_at(group.iter().take_while(|f| f.kind.0 == 2).count())
}

/// Compares what both sides found, and answers whether the module had to leave something out.
pub fn held(plan: &Plan, module: &[Found], original: &[Found]) -> bool {
    let has_l0 = |found: &[Found]| found.first().is_some_and(|f| f.kind.0 == 1) as usize;
    same("whether there is an L0 candidate", has_l0(module), has_l0(original));
    let (l0, deep) = module.split_at(has_l0(module));
    let (want_l0, want_deep) = original.split_at(l0.len());
    if l0.iter().chain(want_l0).all(|f| f.numbers.len() <= MOST) {
        same_list("the L0 candidate", l0, want_l0);
    } else {
        same_list("the oldest of L0 that fit", &l0[0].numbers, &oldest_part(&plan.tables));
    }
    let (got, want) = (groups(deep), groups(want_deep));
    same("how many levels have candidates", got.len(), want.len());
    for (got, want) in got.into_iter().zip(want) {
        let ((got, moved), (want, want_moved)) = (batches(got), batches(want));
        same_list("the moves of a level", moved, want_moved);
        let fit = want.iter().take_while(|f| f.numbers.len() <= MOST).count().max(1);
        same_list("the batches of a level that fit, or the first", got, &want[..fit]);
    }
    original.iter().any(|f| f.numbers.len() > MOST)
}

/// The entries whose level is too crowded, with what it overlaps below, for one question.
fn crowded(plan: &Plan) -> u64 {
    let too_many = |level: u32| {
        let all: Vec<&Table> = plan.tables.iter().filter(|t| t.level == level).collect();
        !all.is_empty() && all.len() + met(&plan.tables, level + 1, &all).len() > MOST
    };
    plan.over.iter().filter(|&&(level, _)| too_many(level)).count() as u64
}

fn compared(d: &mut Dice, plan: &Plan) -> u64 {
    let sides = plan.sides();
    let split = || dropin::fallbacks().count(dropin::Fallback::LevelSplit);
    let (split_before, crowded) = (split(), crowded(plan));
    let count = || [dropin::Fallback::LevelInPart, dropin::Fallback::BuiltHere].map(|f| dropin::fallbacks().count(f)).iter().sum::<u64>();
    let before = count();
    let (found, original) = plan.generated(&sides);
    let left_out = held(plan, &found, &original);
    same("whether a level in part is counted", count() > before, left_out);
    same("how many levels were asked for in parts", split() - split_before, crowded);
    let tried = dropin::try_generate_candidates(&sides.module, plan.trigger, &plan.over, plan.next);
    same("the refusal of try_generate_candidates", tried.err(), left_out.then_some(dropin::Refusal(4)));
    chosen(d, plan, &sides, &found)
}

/// Too much for the library: over 1,024 numbers, or more bytes over budget than the tables that are left can say.
fn too_much(plan: &Plan, f: &Found) -> bool {
    let named: HashSet<u64> = f.numbers.iter().copied().collect();
    let (handed, others): (Vec<&Table>, Vec<&Table>) = plan.tables.iter().partition(|t| named.contains(&t.number));
    let bytes: u64 = others.iter().filter(|t| t.level == f.kind.1).map(|t| t.size).sum();
    let budget = plan.over.iter().find(|entry| f.kind.0 != 1 && entry.0 == f.kind.1).map_or(u64::MAX, |entry| entry.1);
    f.numbers.len() > MOST || bytes.saturating_sub(budget).div_ceil(plans::MOST_SIZE) > (MOST - handed.len()) as u64
}

fn chosen(d: &mut Dice, plan: &Plan, sides: &Sides, found: &[Found]) -> u64 {
    // the original looks through all tables for each number: too long where both are many
    let found: Vec<Found> = found.iter().filter(|f| f.numbers.len() * plan.tables.len() < 30_000_000).cloned().collect();
    let odd: Vec<Found> = (0..6).map(|_| plans::odd_candidate(d, &plan.tables, 4)).collect();
    let here = || dropin::fallbacks().count(dropin::Fallback::EstimatedHere);
    let before = here();
    plan.estimated(sides, &odd);
    let estimates = plan.estimated(sides, &found);
    let without = odd.iter().chain(&found).filter(|f| too_much(plan, f)).count() as u64;
    same("how many estimates were made without the library", here() - before, without);
    let offered: Vec<(Found, Estimate)> = found.into_iter().zip(estimates).collect();
    let (v, f) = (vector(d), focus(d, 4));
    same("pick_best_cause_aware", dropin::pick(v, f, &offered), original::pick(v, f, &offered));
    8 + offered.len() as u64
}

/// The seed tells shape and size, so that one number repeats it.
pub fn large(d: &mut Dice) -> u64 {
    let (shape, size) = (d.0 % SHAPES, d.0 / SHAPES % 4096);
    let n = match size {
        0 if shape < 5 => 100_000,
        1..2048 => 1025,
        _ => 2600,
    };
    let plan = plan(d, shape, n);
    compared(d, &plan)
}

/// Every shape at 1,025, 2,600 and 100,000 tables; the last two shapes take the original too long at 100,000.
pub fn every_shape(part: &mut dyn FnMut(u64)) {
    for shape in 0..SHAPES {
        for size in [0, 1, 2, 3, 4093, 4094, 4095] {
            part(shape + SHAPES * size);
        }
    }
}
