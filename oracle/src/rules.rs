//! The answer that 01's rules give to a question: one line, as the port prints it.

use crate::decisions::{Log, digest, filled, is_decision, traced, written};
use crate::fits;
use crate::numbers::{bits, float, logarithm, maximum, minimum, root};
use crate::question::Question;
use crate::replay;
use crate::state::{Focus, Reads, Sample, State, dominant, pause};
use crate::tables;
use crate::tell;

fn bytes(list: &[u64]) -> Vec<u8> {
    list.iter().map(|b| *b as u8).collect()
}

fn words(list: &[u8]) -> Vec<u64> {
    list.iter().map(|b| *b as u64).collect()
}

fn sample(q: &Question, at: usize) -> Sample {
    Sample { count: q.number(at), trigger: q.number(at + 1), ratio: float(q.number(at + 2)), probes: float(q.number(at + 3)), backlog: q.number(at + 4) }
}

pub fn answer(q: &Question) -> String {
    arith(q).or_else(|| table(q)).or_else(|| governor(q)).or_else(|| selection(q)).or_else(|| decisions(q)).or_else(|| log_files(q)).or_else(|| text(q)).unwrap_or_else(|| panic!("no rule for {q}"))
}

fn arith(q: &Question) -> Option<String> {
    let n = |i| q.number(i);
    let x = |i| float(q.number(i));
    Some(match q.name {
        "of_bits" => tell!(bits(x(0))),
        "minimum" => tell!(bits(minimum(x(0), x(1)))),
        "maximum" => tell!(bits(maximum(x(0), x(1)))),
        "absolute" => tell!(bits(x(0).abs())),
        "clamp" => tell!(bits(x(0).clamp(0.0, 1.0))),
        "truncate" => tell!(x(0) as u64),
        "of_u64" => tell!(bits(n(0) as f64)),
        "sqrt" => tell!(bits(root(n(0)))),
        "ln_1p" => tell!(bits(logarithm(n(0)))),
        _ => return None,
    })
}

fn table(q: &Question) -> Option<String> {
    let l = |i| q.list(i);
    let n = |i| q.number(i);
    Some(match q.name {
        "compare" => tell!(bytes(l(0)).cmp(&bytes(l(1))) as i8 as u64 + 1),
        "lesser" => tell!(if bytes(l(1)) < bytes(l(0)) { l(1) } else { l(0) }),
        "greater" => tell!(if bytes(l(0)) < bytes(l(1)) { l(1) } else { l(0) }),
        "part" => tell!(words(tables::part(&bytes(l(0)), n(1), n(2)))),
        "table_count" => tell!((l(0).len() / 7) as u64),
        "table_at" => record(l(0), 7, n(1)),
        "entry_count" => tell!((l(0).len() / 2) as u64),
        "entry_at" => record(l(0), 2, n(1)),
        "first_key" => tell!(words(tables::part(&bytes(l(0)), n(4), n(5)))),
        "last_key" => tell!(words(tables::part(&bytes(l(0)), n(6), n(7)))),
        "too_many_tables" => tell!(tables::too_many_tables(l(0))),
        "broken_tables" => tell!(tables::broken_tables(l(0))),
        "broken_keys" => tell!(tables::broken_keys(l(0), l(1).len())),
        "too_many_entries" => tell!(tables::too_many_entries(l(0))),
        "broken_entries" => tell!(tables::broken_entries(l(0))),
        "levels_out" => tell!(tables::levels_out(l(0))),
        "level_places" => {
            let ts = tables::tables(l(0), &[]);
            let places: Vec<u64> = (0..ts.len()).filter(|i| ts[*i].level == n(1)).map(|i| i as u64).collect();
            let mut out = l(2).to_vec();
            out.iter_mut().zip(&places).for_each(|(to, p)| *to = *p);
            tell!(places.len() as u64, out)
        }
        "sort_level" => {
            // a buffer with less room than tables is left alone
            let ts = tables::tables(l(0), &bytes(l(1)));
            let mut out = l(3).to_vec();
            let order = if ts.len() <= out.len() { tables::by_key(&ts, n(2)) } else { vec![] };
            out.iter_mut().zip(&order).for_each(|(to, p)| *to = *p as u64);
            tell!(order.len() as u64, out)
        }
        "insert_at" => {
            // x, then what stood from p on among the first n, each one place further; what passes the end is lost
            let (mut out, p) = (l(0).to_vec(), n(2) as usize);
            let end = (n(1) as usize).min(out.len());
            let moved: Vec<u64> = std::iter::once(n(3)).chain(out[p.min(end)..end].to_vec()).collect();
            out.iter_mut().skip(p).zip(&moved).for_each(|(to, w)| *to = *w);
            tell!(out)
        }
        "overlaps_at" => {
            let ts = tables::tables(l(0), &bytes(l(1)));
            let (first, last) = ts.get(n(2) as usize).map(|t| (t.first.clone(), t.last.clone())).unwrap_or_default();
            tell!(first <= bytes(l(4)) && last >= bytes(l(3)))
        }
        "generate_candidates" => {
            let (mut out, mut numbers) = (l(4).to_vec(), l(5).to_vec());
            let (refusal, a, b) = tables::generate(l(0), &bytes(l(1)), n(2), l(3), &mut out, &mut numbers);
            tell!(refusal, a, b, out, numbers)
        }
        _ => return None,
    })
}

/// The record at a place, and zeros past the last whole one.
fn record(list: &[u64], size: usize, place: u64) -> String {
    let zeros = vec![0; size];
    let r = list.chunks_exact(size).nth(place.min(usize::MAX as u64 / 2) as usize).unwrap_or(&zeros);
    r.iter().map(u64::to_string).collect::<Vec<_>>().join(" ")
}

fn governor(q: &Question) -> Option<String> {
    let n = |i| q.number(i);
    let vector = |i| [float(n(i)), float(n(i + 1)), float(n(i + 2))];
    let state = || State::of(q.list(0));
    let after = |refusal: u64, s: &State| tell!(refusal, s.words());
    Some(match q.name {
        "pacing_delay" => tell!(pause(n(0), float(n(1)))),
        "dominant" => tell!(dominant(vector(0))),
        "fresh" => tell!(State::fresh(n(0)).words()),
        "mode" => tell!(state().mode as u64),
        "pressure" => tell!(bits(state().pressure)),
        "pressure_vector" => {
            let v = state().vector.map(bits);
            tell!(v[0], v[1], v[2])
        }
        "focus" => {
            let f = state().focus.words();
            tell!(f[0], f[1], f[2])
        }
        "set_focus" => {
            let mut s = state();
            s.focus = Focus::of(&q.numbers(1));
            tell!(s.words())
        }
        "observe" => {
            let mut s = state();
            let refusal = s.observe(n(1), &sample(q, 2));
            after(refusal, &s)
        }
        "observe_engine" => {
            let mut s = state();
            let p = Sample { count: n(2), trigger: n(3), ratio: float(n(4)), probes: 0.0, backlog: n(5) };
            let r = Reads { gets: n(6), in_memtable: n(7), in_immutable: n(8), l0: n(9), leveled: n(10) };
            let refusal = s.observe_engine(n(1), &p, &r);
            after(refusal, &s)
        }
        "record_candidate_chosen" => {
            let mut s = state();
            s.chosen(n(1), n(3));
            tell!(s.words())
        }
        "with_trivial_move" | "record_trivial_move" => {
            let mut s = state();
            let refusal = s.trivial_move(n(1));
            after(refusal, &s)
        }
        "with_outcome" | "record_outcome" => {
            let mut s = state();
            let refusal = s.outcome(n(1), n(2));
            after(refusal, &s)
        }
        "snapshot" => {
            let (refusal, figures) = state().snapshot(n(1));
            tell!(refusal, figures)
        }
        _ => return None,
    })
}

fn text(q: &Question) -> Option<String> {
    let number = |n: Option<u64>| tell!(n.is_some(), n.unwrap_or(0));
    Some(match q.name {
        "decimal" => number(replay::decimal(&bytes(q.list(0)))),
        "bits" => number(replay::hex(&bytes(q.list(0)))),
        "replay" => {
            let mut out = bytes(q.list(1));
            let (refusal, length) = replay::replay(&bytes(q.list(0)), &mut out);
            tell!(refusal, length, words(&out))
        }
        _ => return None,
    })
}

fn selection(q: &Question) -> Option<String> {
    let n = |i| q.number(i);
    let vector = || [float(n(0)), float(n(1)), float(n(2))];
    Some(match q.name {
        "estimate_candidates" => {
            let mut out = q.list(5).to_vec();
            let (refusal, count) = tables::estimates(q.list(0), n(1), q.list(2), q.list(3), q.list(4), &mut out);
            tell!(refusal, count, out)
        }
        "cause_aware_score" => tell!(bits(tables::score(vector(), &q.numbers(3)))),
        "pick_best_cause_aware" => {
            let p = tables::pick(vector(), Focus::of(&[n(3), n(4), n(5)]), q.list(6), q.list(7));
            let f = p.focus.words();
            tell!(p.refusal, p.place.is_some(), p.place.unwrap_or(0) as u64, f[0], f[1], f[2], p.tier)
        }
        "scheduling_decision" => tell!(traced(vector(), n(9), (n(4) == 1).then_some(n(5)), q.list(10), q.list(11))),
        _ => return None,
    })
}

/// The i-th decision of a `log_run` (docs/ROWS.md).
pub fn numbered_decision(i: u64) -> Vec<u64> {
    (0..14u64)
        .map(|j| match j {
            0 => 0,
            4 | 5 => (i + j) % 4,
            7 => 2,
            8 => i % (1 << 32),
            6 | 9 | 10 => i * j,
            _ => i * j % (1 << 62),
        })
        .collect()
}

fn decisions(q: &Question) -> Option<String> {
    let n = |i| q.number(i);
    let log = || Log { first: n(0), count: n(1), sequence: n(2) };
    Some(match q.name {
        "to_words" => tell!(written(q.list(0))),
        "of_words" if is_decision(q.list(0)) => tell!(1, written(q.list(0))),
        "of_words" => tell!(0, vec![]),
        "empty_log" => tell!(0, 0, 0),
        "kept_place" => tell!(log().kept_place(n(3))),
        "record_decision" => {
            let (mut log, before) = (log(), filled(n(3), n(4)));
            let mut after = before.clone();
            let refusal = log.record(&mut after, q.list(5));
            let changed: Vec<u64> = (0..after.len()).filter(|i| after[*i] != before[*i]).flat_map(|i| [i as u64, after[i]]).collect();
            tell!(refusal, log.first, log.count, log.sequence, changed, digest(&after))
        }
        "log_run" => {
            let (mut log, mut words) = (log(), filled(57_344, n(3)));
            for i in 1..=n(4) {
                log.record(&mut words, &numbered_decision(i));
            }
            let mut out = vec![0; 57_344];
            log.recent(&words, &mut out);
            tell!(log.first, log.count, log.sequence, digest(&words), digest(&out))
        }
        "recent_decisions" => {
            let before = filled(n(5), n(6));
            let mut out = before.clone();
            let (refusal, count) = log().recent(&filled(n(3), n(4)), &mut out);
            let changed = (0..out.len()).filter(|i| out[*i] != before[*i]).count();
            tell!(refusal, count, digest(&out), changed as u64)
        }
        _ => return None,
    })
}

/// A text again and again, as far as so many bytes go; of an empty one zeros.
fn repeated(text: &[u8], length: u64) -> Vec<u8> {
    text.iter().cycle().copied().chain(std::iter::repeat(0)).take(length as usize).collect()
}

/// The log as a table and as text.
fn log_files(q: &Question) -> Option<String> {
    let n = |i| q.number(i);
    let log = || Log { first: n(0), count: n(1), sequence: n(2) };
    Some(match q.name {
        "fits_length" => {
            let (refusal, length) = fits::length(&log(), n(3) as usize);
            tell!(refusal, length)
        }
        "write_fits" => {
            // a list is laid over the seed's words from a place on, as far as they go
            let (mut kept, mut out) = (filled(n(3), n(4)), vec![n(8) as u8; n(7) as usize]);
            kept.iter_mut().skip(n(5) as usize).zip(q.list(6)).for_each(|(to, w)| *to = *w);
            let (refusal, length) = fits::write(&log(), &kept, &mut out);
            let shown = tables::part(&out, n(9), n(10).saturating_sub(n(9)));
            tell!(refusal, length, digest(&words(&out)), words(shown))
        }
        "read_log" => {
            let mut kept = filled(n(1), n(2));
            let (refusal, log) = fits::read(&bytes(q.list(0)), &mut kept);
            tell!(refusal, log.first, log.count, log.sequence, &kept[..kept.len().min(28)], digest(&kept))
        }
        "refused_lines" => {
            let mut out = bytes(q.list(1));
            let (refusal, length) = fits::refused_lines(&bytes(q.list(0)), &mut out);
            tell!(refusal, length, words(&out))
        }
        "log_filled" => {
            let (text, mut kept) = (repeated(&bytes(q.list(0)), n(1)), filled(57_344, 1));
            let (refusal, log) = fits::read(&text, &mut kept);
            let report = fits::report(&text);
            let last = report.split_inclusive(|b| *b == b'\n').last().unwrap_or_default();
            tell!(refusal, log.count, log.sequence, digest(&kept), report.len() as u64, words(last))
        }
        _ => return None,
    })
}
