//! A question in words: its call, and each argument by its name.

use crate::question::{Arg, Question};

const STATE: [&str; 27] = [
    "mode", "tables_probed_ewma", "pressure_ewma", "last_pressure", "debt_ewma", "vector l0", "vector deep_debt", "vector read", "focus kept", "focus level",
    "focus streak", "enter_read_protect", "exit_read_protect", "exit_emergency", "time balanced", "time read_protect", "time write_emergency",
    "last_transition", "last_probed", "last_resolved", "mode_switches", "batch_size_sum", "batch_size_count", "trivial_moves_performed",
    "trivial_move_bytes_avoided", "error sum", "predicted_actual_samples",
];
const TABLE: [&str; 7] = ["number", "level", "size", "first key from", "of length", "last key from", "of length"];
const ENTRY: [&str; 2] = ["level", "budget"];
const CANDIDATE: [&str; 6] = ["kind", "level", "batch length", "output level", "numbers from", "so many"];
const ESTIMATE: [&str; 9] = ["input", "overlap", "rewrite", "debt relief bytes", "l0 files", "age", "l0_relief", "debt_relief", "read_relief"];
const DECISION: [&str; 14] = [
    "sequence", "l0", "deep_debt", "read", "dominant", "tier", "candidates", "kind", "level", "batch length", "predicted bytes", "l0_relief", "debt_relief",
    "read_relief",
];
/// Words that are floats by their bits, by name.
const FLOATS: [&str; 17] = [
    "tables_probed_ewma", "pressure_ewma", "last_pressure", "debt_ewma", "vector l0", "vector deep_debt", "vector read", "error sum", "l0_relief", "debt_relief",
    "read_relief", "l0", "deep_debt", "read", "ratio", "probes", "pressure",
];

/// The names of a call's arguments, in order; a call that is not here has its arguments numbered.
fn names(call: &str) -> Vec<&'static str> {
    match call {
        "pacing_delay" => vec!["mode", "pressure"],
        "dominant" => vec!["l0", "deep_debt", "read"],
        "observe" => vec!["state", "clock", "L0 count", "trigger", "ratio", "probes", "backlog"],
        "observe_engine" => vec!["state", "clock", "L0 count", "trigger", "ratio", "backlog", "gets", "in memtable", "in immutable", "l0 probed", "leveled probed"],
        "set_focus" => vec!["state", "focus kept", "focus level", "focus streak"],
        "record_candidate_chosen" => vec!["state", "kind", "level", "batch length"],
        "with_trivial_move" | "record_trivial_move" => vec!["state", "bytes"],
        "with_outcome" | "record_outcome" => vec!["state", "predicted", "actual"],
        "snapshot" => vec!["state", "clock"],
        "mode" | "pressure" | "pressure_vector" | "focus" => vec!["state"],
        "level_places" => vec!["tables", "level", "places"],
        "sort_level" => vec!["tables", "key bytes", "level", "places"],
        "insert_at" => vec!["order", "first so many", "at", "value"],
        "overlaps_at" => vec!["tables", "key bytes", "place", "low key", "high key"],
        "generate_candidates" => vec!["tables", "key bytes", "trigger", "over budget", "candidates", "numbers"],
        "estimate_candidates" => vec!["tables", "next number", "over budget", "candidates", "numbers", "estimates"],
        "cause_aware_score" => [&["l0", "deep_debt", "read"][..], &ESTIMATE[..]].concat(),
        "pick_best_cause_aware" => vec!["l0", "deep_debt", "read", "focus kept", "focus level", "focus streak", "candidates", "estimates"],
        "scheduling_decision" => vec!["l0", "deep_debt", "read", "refusal", "won", "place", "focus kept", "focus level", "focus streak", "tier", "candidates", "estimates"],
        "to_words" | "of_words" => vec!["decision"],
        "kept_place" => vec!["first", "count", "sequence", "k"],
        "record_decision" => vec!["first", "count", "sequence", "log words", "seed", "decision"],
        "recent_decisions" => vec!["first", "count", "sequence", "log words", "seed", "room", "room's seed"],
        "log_run" => vec!["first", "count", "sequence", "seed", "additions"],
        "replay" | "refused_lines" => vec!["text", "output"],
        "fits_length" => vec!["first", "count", "sequence", "log words", "seed"],
        "write_fits" => vec!["first", "count", "sequence", "log words", "seed", "words laid from", "words laid", "room", "room's byte", "told from", "told up to"],
        "read_log" => vec!["text", "log words", "seed"],
        "log_filled" => vec!["text", "repeated up to"],
        _ => vec![],
    }
}

fn value(name: &str, n: u64) -> String {
    if FLOATS.contains(&name) { format!("{name} {:?} ({n:#x})", f64::from_bits(n)) } else { format!("{name} {n}") }
}

fn records(fields: &[&str], words: &[u64]) -> String {
    let all: Vec<String> = words.chunks(fields.len()).map(|r| r.iter().zip(fields).map(|(n, f)| value(f, *n)).collect::<Vec<_>>().join(", ")).collect();
    all.join("\n      ")
}

fn told(name: &str, a: &Arg) -> String {
    match a {
        Arg::Number(n) => value(name, *n),
        Arg::List(l) if l.is_empty() => format!("{name}: none"),
        Arg::List(l) => {
            let text = match name {
                "state" => {
                    let all: Vec<String> = STATE.iter().zip(l).filter(|(_, n)| **n != 0).map(|(f, n)| value(f, *n)).collect();
                    format!("{}, every other word 0", if all.is_empty() { "Balanced".to_string() } else { all.join(", ") })
                }
                "tables" => records(&TABLE, l),
                "over budget" => records(&ENTRY, l),
                "candidates" => records(&CANDIDATE, l),
                "estimates" => records(&ESTIMATE, l),
                "decision" => records(&DECISION, l),
                "text" => format!("{:?}", l.iter().map(|b| *b as u8 as char).collect::<String>()),
                _ => return format!("{name}: {a}"),
            };
            format!("{name}:\n      {text}")
        }
    }
}

pub fn in_words(q: &Question) -> String {
    let names = names(q.name);
    let mut out = q.name.to_string();
    for (i, a) in q.args.iter().enumerate() {
        let name = names.get(i).map_or_else(|| format!("argument {}", i + 1), |n| n.to_string());
        out += &format!("\n    {}", told(&name, a));
    }
    out
}
