//! Each fallback: that it is counted, with its refusal, and answers as the module documents.
use crate::clock::NOW;
use crate::large;
use crate::numbers::Dice;
use crate::plans::{self, Plan};
use crate::runs::{MOST_COUNT, Pair, sample};
use crate::sides::dropin::{Fallback, Refusal};
use crate::sides::{Call, Found, Over, Sample, Table, dropin, original};
use crate::{differ, holds, same, same_list};
use std::sync::atomic::{AtomicU64, Ordering::Relaxed};

/// How often each was seen to be counted.
static SEEN: [AtomicU64; Fallback::ALL.len()] = [const { AtomicU64::new(0) }; Fallback::ALL.len()];

/// `f` is to count `of` once more, and no other fallback, for this refusal.
fn counts<T>(all: &dyn Fn() -> &'static dropin::Fallbacks, of: Fallback, why: u64, f: impl FnOnce() -> T) -> T {
    let before = Fallback::ALL.map(|f| all().count(f));
    let answer = f();
    expect(all(), before, &[of], why);
    answer
}

fn expect(all: &dropin::Fallbacks, before: [u64; Fallback::ALL.len()], of: &[Fallback], why: u64) {
    for f in Fallback::ALL {
        same(&format!("how often {f:?} was counted"), all.count(f) - before[f as usize], of.contains(&f) as u64);
    }
    same("the last refusal", all.last(), Some(Refusal(why)));
    holds("the refusal's text", all.to_string().contains(&format!("refusal {why} (")));
    of.iter().for_each(|&f| _ = SEEN[f as usize].fetch_add(1, Relaxed));
}

/// Of a governor: what one call counts.
fn counting(pair: &mut Pair, of: &[Fallback], why: u64, f: impl FnOnce(&mut dropin::GovernorState)) {
    let before = Fallback::ALL.map(|f| pair.module.fallbacks().count(f));
    f(&mut pair.module);
    expect(pair.module.fallbacks(), before, of, why);
}

/// A pair that has seen a few calls.
fn used(d: &mut Dice) -> Pair {
    let mut pair = Pair::new(d.below(1 << 40));
    for turn in 0..d.below(12) {
        NOW.store(pair.base + turn * 1_000_000, Relaxed);
        pair.call(Call::Engine(sample(d, false, false), [900 * turn, 10 * turn, 3 * turn, 400 * turn, 500 * turn]));
    }
    pair
}

/// A count of any size, and one above 2^53.
fn large_counts(d: &mut Dice) -> (usize, usize) {
    let (above, any) = ((d.next() | 1 << 63) >> d.below(10) | 1, d.next() >> d.below(64));
    if d.one_in(2) { (above as usize, any as usize) } else { (any as usize, above as usize) }
}

/// The mode is the original's where the fraction isn't at a limit, and the pressures are near the original's.
fn counts_halved(d: &mut Dice) {
    let mut pair = used(d);
    let (l0_count, trigger) = large_counts(d);
    let backlog = if d.one_in(2) { large_counts(d).0 } else { 2 };
    let s = Sample { l0_count, trigger, backlog, ..sample(d, true, false) };
    let fraction = l0_count as f64 / trigger.max(1) as f64;
    if [0.75, 0.45].iter().any(|limit| (fraction - limit).abs() < 1e-9) {
        return;
    }
    let call = if d.one_in(2) { Call::Observe(s) } else { Call::Engine(s, [5000, 20, 30, 6000, 1000]) };
    counting(&mut pair, &[Fallback::CountsHalved], 2, |g| _ = dropin::call(g, call));
    original::call(&mut pair.original, call);
    let (m, o) = (dropin::look(&pair.module), original::look(&pair.original));
    for i in [1, 2, 3, 4] {
        let (m, o) = (f64::from_bits(m[i]), f64::from_bits(o[i]));
        holds(&format!("pressure {i} of {call:?}: {m} is near {o}"), (m - o).abs() < 1e-9);
    }
    same("the mode after halved counts", m[0], o[0]);
    same("the switches after halved counts", m[15], o[15]);
}

/// Nothing else of the governor differs from one that was told of the same reads again.
fn reads_held(d: &mut Dice) {
    let mut pair = used(d);
    let s = sample(d, d.clone().one_in(2), false);
    let reads = match d.below(3) {
        0 => [d.next() | 1 << 63, 0, 0, 5000, 6000],
        1 => [20_000, 0, 0, d.next() | 1 << 63, 1],
        _ => [20_000, 0, 0, u64::MAX - d.below(9), 9 + d.below(1 << 40)],
    };
    // the probes add up to over 2^64 - 1 and have grown by more than 2^53: 2 comes first
    counting(&mut pair, &[Fallback::ReadsHeld], 2, |g| _ = dropin::call(g, Call::Engine(s, reads)));
    original::call(&mut pair.original, Call::Engine(s, [0; 5]));
    pair.look(&"reads held");
    // and so on, as long as the counters are what they are
    counting(&mut pair, &[Fallback::ReadsHeld], 2, |g| _ = dropin::call(g, Call::Engine(s, reads)));
    original::call(&mut pair.original, Call::Engine(s, [0; 5]));
    pair.look(&"reads held again");
    // with counts as well
    let s = Sample { l0_count: usize::MAX, trigger: usize::MAX, ..s };
    counting(&mut pair, &[Fallback::CountsHalved, Fallback::ReadsHeld], 2, |g| _ = dropin::call(g, Call::Engine(s, reads)));
    original::call(&mut pair.original, Call::Engine(s, [0; 5]));
    pair.look(&"counts halved and reads held");
}

fn outcomes_halved(d: &mut Dice) {
    let mut pair = used(d);
    let predicted = d.next() | 1 << 63;
    let actual = predicted >> d.below(3);
    counting(&mut pair, &[Fallback::CountsHalved], 2, |g| g.record_outcome(predicted, actual));
    pair.original.record_outcome(predicted, actual);
    let (m, o) = (pair.module.snapshot(), pair.original.snapshot());
    same("the outcomes", m.predicted_actual_samples, o.predicted_actual_samples);
    let errors = (m.predicted_actual_mean_abs_pct_error, o.predicted_actual_mean_abs_pct_error);
    holds(&format!("the errors {errors:?} are near"), (errors.0 - errors.1).abs() < 1e-9);
    same("the refusal of try_record_outcome", pair.module.try_record_outcome(0, MOST_COUNT + 1), Err(Refusal(2)));
}

/// A batch that would end all snapshots is left out, and nothing else.
fn batch_not_recorded(d: &mut Dice) {
    let mut pair = used(d);
    pair.call(Call::Chosen((2, 3, 1 + d.below(8) as usize)));
    let length = MOST_COUNT as usize + d.below(1 << 40) as usize;
    counting(&mut pair, &[Fallback::NotRecorded], 2, |g| _ = dropin::call(g, Call::Chosen((2, 1, length))));
    pair.look(&"a batch that isn't recorded");
    same("the refusal of try_record_candidate_chosen", pair.module.try_record_candidate_chosen(dropin::kind_of((2, 1, length))), Err(Refusal(2)));
    pair.look(&"a batch that is refused");
    pair.call(Call::Chosen((2, 3, 1 + d.below(8) as usize)));
}

fn of_plans() -> &'static dropin::Fallbacks {
    dropin::fallbacks()
}

fn any_plan(d: &mut Dice, size: &dyn Fn(&mut Dice) -> u64) -> Plan {
    let n = 1 + d.below(40);
    plan_of(d, n, 4, size)
}

fn plan_of(d: &mut Dice, n: u64, most_entries: u64, size: &dyn Fn(&mut Dice) -> u64) -> Plan {
    let levels = 1 + d.below(5);
    let tables = plans::tables(d, n, levels, size);
    Plan { trigger: d.below(8) as usize, over: plans::entries(d, most_entries, levels), next: plans::next(d, &tables), tables }
}

/// The answer is the original's without that entry.
fn level_left_out(d: &mut Dice) {
    let plan = any_plan(d, &plans::size);
    let (module, original) = (dropin::tables(&plan.tables), original::tables(&plan.tables));
    let want = original::generate(&original, plan.trigger, &plan.over, plan.next);
    let mut over = plan.over.clone();
    over.insert(d.below(over.len() as u64 + 1) as usize, (u32::MAX, d.next()));
    let found = counts(&of_plans, Fallback::LevelLeftOut, 6, || dropin::generate(&module, plan.trigger, &over, plan.next));
    same_list("candidates without the level that has none below", &found, &want);
    same("try_generate_candidates", dropin::try_generate_candidates(&module, plan.trigger, &over, 0).err(), Some(Refusal(6)));
}

/// The answers are the original's, sizes and all, as long as its sums don't overflow.
fn sizes_ranked(d: &mut Dice) {
    let mut plan = any_plan(d, &|d| if d.one_in(3) { plans::size(d) } else { d.next() >> (8 + d.below(16)) });
    plan.tables[0].size |= 1 << 41;
    let sides = plan.sides();
    let found = counts(&of_plans, Fallback::SizesRanked, 5, || dropin::generate(&sides.module, plan.trigger, &plan.over, plan.next));
    same_list("candidates of ranked sizes", &found, &original::generate(&sides.original, plan.trigger, &plan.over, plan.next));
    same("try_generate_candidates", dropin::try_generate_candidates(&sides.module, plan.trigger, &plan.over, 0).err(), Some(Refusal(5)));
    for f in &found {
        let e = counts(&of_plans, Fallback::EstimatedHere, 5, || dropin::estimate(&sides.module, f, plan.next, &plan.over));
        same("the estimate with a size above 2^40", e, original::estimate(&sides.original, f, plan.next, &plan.over));
    }
}

/// A next number, a batch length or a level that is refused; many numbers; a sum that the original lets overflow.
fn estimated_here(d: &mut Dice) {
    let plan = any_plan(d, &plans::size);
    let sides = plan.sides();
    let levels = plan.tables.iter().map(|t| t.level).max().unwrap_or(0) as u64 + 1;
    let numbers = |d: &mut Dice, n: u64| -> Vec<u64> { (0..n).map(|_| plan.tables[d.below(plan.tables.len() as u64) as usize].number).collect() };
    let mut found = Found { kind: (2, d.below(levels) as u32, 3), numbers: numbers(d, 5), output_level: 1 };
    let (mut next, mut over) = (plan.next, plan.over.clone());
    let why = match d.below(4) {
        0 => {
            next = MOST_COUNT + 1 + (d.next() >> d.below(53)).min(1 << 62);
            2
        }
        1 => {
            found.numbers = numbers(d, 1025);
            4
        }
        2 => {
            found.kind.2 = d.pick(&[0, 9, 1 << 40]);
            5
        }
        _ => {
            over.push((u32::MAX, 0));
            6
        }
    };
    let e = counts(&of_plans, Fallback::EstimatedHere, why, || dropin::estimate(&sides.module, &found, next, &over));
    same("the estimate made here", e, original::estimate(&sides.original, &found, next, &over));
    let tried = dropin::try_estimate_candidate(&sides.module, &dropin::candidate(&found), next, &over);
    same("the refusal of try_estimate_candidate", tried.err(), Some(Refusal(why)));
    // a sum that stays at 2^64 - 1
    let huge = Plan { tables: plan.tables.iter().cloned().map(|t| Table { size: u64::MAX - 5, level: 1, ..t }).collect(), ..plan };
    let found = Found { kind: (2, 1, 1), numbers: vec![huge.tables[0].number; 2], output_level: 2 };
    let e = counts(&of_plans, Fallback::EstimatedHere, 5, || dropin::estimate(&huge.sides().module, &found, 0, &vec![(1, 0)]));
    same("sums that would overflow", [e[0], e[1], e[2], e[3]], [u64::MAX, 0, u64::MAX, u64::MAX]);
    same("the relief of such a sum", f64::from_bits(e[7]), 1.0);
}

/// Both calls' refusals.
fn tried(plan: &Plan, over: &Over, found: &Found) -> [Option<Refusal>; 2] {
    let tables = dropin::tables(&plan.tables);
    let generated = dropin::try_generate_candidates(&tables, plan.trigger, over, plan.next);
    let estimated = dropin::try_estimate_candidate(&tables, &dropin::candidate(found), plan.next, over);
    [generated.err(), estimated.err()]
}

/// Two tables with one number, wherever they stand: nothing is offered, and an estimate is the original's. 4 and 5 come before 11, 6 and 2 after it.
fn number_twice(d: &mut Dice) {
    let n = match d.below(8) {
        0 => 1024,
        1 => 1025 + d.below(300),
        _ => 2 + d.below(40),
    };
    let most_entries = d.pick(&[4, 4, 4, 24]);
    let mut plan = plan_of(d, n, most_entries, &plans::size);
    let number_at = |place: &usize| plan.tables[*place].number;
    let (any, smallest) = (d.below(n) as usize, (0..n as usize).min_by_key(number_at).unwrap_or(0));
    let (a, apart) = (d.pick(&[0, any, smallest]), 1 + d.below(n - 1) as usize);
    let b = (a + d.pick(&[1, n as usize - 1, apart])) % n as usize;
    let number = d.pick(&[0, u64::MAX, number_at(&a), number_at(&a)]);
    let unasked = d.one_in(4);
    for place in [a, b] {
        let t = &mut plan.tables[place];
        t.number = number;
        if unasked {
            t.level = 7 + d.below(2) as u32;
        }
    }
    let mut found = plans::odd_candidate(d, &plan.tables, 9);
    let why = match d.below(8) {
        0 => {
            plan.tables[d.below(n) as usize].size += 1 << 41;
            [5, 5]
        }
        1 => {
            plan.over.push((u32::MAX, 0));
            [11, 11]
        }
        2 => {
            plan.next = MOST_COUNT + 1 + d.below(1 << 40);
            [11, 11]
        }
        3 => {
            found.kind = (2, d.below(9) as u32, d.pick(&[0, 9, 1 << 40]));
            [11, 5]
        }
        4 => {
            found.numbers = vec![number; 1025];
            [11, 4]
        }
        _ => [11, 11],
    };
    same("the refusals of a number that comes twice", tried(&plan, &plan.over, &found), why.map(|r| Some(Refusal(r))));
    let sides = plan.sides();
    let offered = counts(&of_plans, Fallback::NothingOffered, 11, || dropin::generate(&sides.module, plan.trigger, &plan.over, plan.next));
    same_list("the candidates with a number that comes twice", &offered, &[]);
    let e = counts(&of_plans, Fallback::EstimatedHere, why[1], || dropin::estimate(&sides.module, &found, plan.next, &plan.over));
    same("the estimate with a number that comes twice", e, original::estimate(&sides.original, &found, plan.next, &plan.over));
}

/// A candidate may name a number again, in lists of any size: the library takes it, and it counts each time.
fn named_twice(d: &mut Dice) {
    let n = if d.one_in(4) { 1025 + d.below(300) } else { 1 + d.below(40) };
    let plan = plan_of(d, n, 4, &plans::size);
    let mut found = plans::odd_candidate(d, &plan.tables, 5);
    found.numbers.push(plan.tables[d.below(n) as usize].number);
    found.numbers = found.numbers.repeat(2 + d.below(40) as usize);
    let before = of_plans().total();
    plan.estimated(&plan.sides(), &[found]);
    same("the fallbacks of a candidate that names a number again", of_plans().total(), before);
}

/// Where the library sees only parts of a list, the whole is refused as one question about it would be, also for what is in no part: 5 before 6.
fn refused_whole(d: &mut Dice) {
    let n = if d.one_in(2) { 1025 + d.below(300) } else { 1 + d.below(40) };
    let mut plan = plan_of(d, n, 4, &plans::size);
    if n <= 1024 {
        plan.over.extend((0..17).map(|_| (d.below(6) as u32, d.next() >> 20)));
    }
    let mut over = plan.over.clone();
    over.insert(d.below(over.len() as u64 + 1) as usize, (u32::MAX, 0));
    let unnamed = Found { kind: (2, 1, 1), numbers: vec![], output_level: 2 };
    for why in [6, 5] {
        if why == 5 {
            let t = &mut plan.tables[d.below(n) as usize];
            (t.level, t.size) = (9, (1 << 40) + 1 + d.below(1 << 40));
        }
        same("the refusals of a whole list", tried(&plan, &over, &unnamed), [Some(Refusal(why)); 2]);
        let sides = plan.sides();
        let found = dropin::generate(&sides.module, plan.trigger, &over, plan.next);
        large::held(&plan, &found, &original::generate(&sides.original, plan.trigger, &plan.over, plan.next));
    }
}

/// The choice is the original's, whatever is handed in.
fn chosen_here(d: &mut Dice) {
    let (mut v, f) = (plans::vector(d), plans::focus(d, 4));
    let n = if d.one_in(3) { 146 + d.below(300) } else { 1 + d.below(20) };
    let mut offers = plans::offers(d, n, 4);
    // NaN or finite: what an infinity makes of a zero has one sign here and another there
    let odd = |d: &mut Dice| d.pick(&[f64::NAN, -0.25, 1.0000001, 7.5, -1e100, 1e100]);
    let at = d.below(n) as usize;
    let why = match d.below(4) {
        _ if n > 145 => 4,
        0 => {
            v[d.below(3) as usize] = odd(d);
            7
        }
        1 => {
            offers[at].1[6 + d.below(3) as usize] = odd(d).to_bits();
            8
        }
        2 => {
            offers[at].1[d.pick(&[2, 5])] = (1 << 53) + 1 + (d.next() >> d.below(60)).min(1 << 63);
            8
        }
        _ => {
            offers[at].0.kind = (2, d.below(4) as u32, d.pick(&[0, 9, 1 << 40]));
            5
        }
    };
    let picked = counts(&of_plans, Fallback::ChosenHere, why, || dropin::pick(v, f, &offers));
    same(&format!("the choice made here, with vector {v:?}, focus {f:?}"), picked, original::pick(v, f, &offers));
    holds("no refusal looks like no winner", picked.0.is_some());
}

/// Of the texts: number, name, reason, advice.
fn texts(_: &mut Dice) {
    for (number, name) in [
        (1, "BadState"),
        (2, "TooLarge"),
        (3, "CounterFull"),
        (4, "TooMany"),
        (5, "BadRecord"),
        (6, "BadLevel"),
        (7, "BadVector"),
        (8, "BadEstimate"),
        (9, "NoRoom"),
        (10, "BadLog"),
        (11, "DuplicateNumber"),
        (100, "NotAState"),
        (101, "NoSuchCase"),
        (77, "Unknown"),
    ] {
        let text = Refusal(number).to_string();
        holds(&text, text.starts_with(&format!("refusal {number} ({name}): ")) && text.contains("; ") && text.len() > 60);
    }
}

/// Levels in part and candidates made here are held by large.rs; here, that they are counted.
fn crowded(d: &mut Dice) {
    let one_in_all = |l: u32, n: u64| Table { number: n, level: l, size: 1 << 20, first: vec![], last: vec![255] };
    let below = 1023 + d.below(3);
    let mut tables: Vec<Table> = (0..below).map(|n| one_in_all(2, 10 + n)).collect();
    let many = 1 + d.below(4);
    (0..many).for_each(|n| tables.push(one_in_all(1, n)));
    tables.push(one_in_all(7, 9000));
    let plan = Plan { tables, trigger: 1, over: vec![(1, 0)], next: 20_000 };
    let sides = plan.sides();
    let before = Fallback::ALL.map(|f| of_plans().count(f));
    let (found, want) = plan.generated(&sides);
    // of `many` tables that each overlap all below: batches in part if one fits and not all, one made here if not even one does
    let (part, built) = (many > 1 && many + below > 1024, 1 + below > 1024);
    let counted = [(part || built, Fallback::LevelSplit), (part, Fallback::LevelInPart), (built, Fallback::BuiltHere)];
    let of: Vec<Fallback> = counted.iter().filter(|f| f.0).map(|f| f.1).collect();
    if of.is_empty() {
        same_list("all batches", &found, &want);
        return;
    }
    expect(of_plans(), before, &of, 4);
    holds("a level in part", large::held(&plan, &found, &want));
    plan.estimated(&sides, &found);
}

const CASES: [fn(&mut Dice); 12] = [
    counts_halved,
    reads_held,
    outcomes_halved,
    batch_not_recorded,
    level_left_out,
    sizes_ranked,
    estimated_here,
    number_twice,
    named_twice,
    refused_whole,
    chosen_here,
    crowded,
];

pub fn fallback(d: &mut Dice) -> u64 {
    texts(d);
    let case = d.below(CASES.len() as u64) as usize;
    CASES[case](d);
    // a case's calls are not counted
    0
}

/// Once there were enough runs each fallback must have been seen, but the one that needs 2^53 outcomes.
pub fn all_were_taken(runs: u64) {
    for f in Fallback::ALL {
        if runs >= 1000 && f != Fallback::FiguresMissing && SEEN[f as usize].load(Relaxed) == 0 {
            differ("the fallbacks that were tried", &format!("{f:?} never came"));
        }
    }
}
