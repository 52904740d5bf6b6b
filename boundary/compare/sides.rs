//! The original and the module behind the same plain data: what one is asked the other is asked too, and the answers are words that can be compared.
use crate::numbers::bits;

/// Floats by their bits, all NaNs as one and both zeros alike: Rust's `min` and `max` may give either.
pub fn plain(x: f64) -> u64 {
    if x == 0.0 { 0 } else { bits(x) }
}

#[derive(Debug, Clone)]
pub struct Table {
    pub number: u64,
    pub level: u32,
    pub size: u64,
    pub first: Vec<u8>,
    pub last: Vec<u8>,
}

/// Kind (1 L0, 2 a batch, 3 a move), level, batch length.
pub type Kind = (u64, u32, usize);

#[derive(Debug, Clone, PartialEq)]
pub struct Found {
    pub kind: Kind,
    pub numbers: Vec<u64>,
    pub output_level: u32,
}

/// Input, overlap, rewrite and debt relief bytes, L0 files removed, age; the three reliefs' bits.
pub type Estimate = [u64; 9];

pub type Over = Vec<(u32, u64)>;

/// L0, deep debt, read.
pub type Vector = [f64; 3];

/// Its level, if it has one, and its streak.
pub type Focus = (Option<u32>, u32);

/// The winner's place, the focus, the tier.
pub type Picked = (Option<usize>, Focus, u64);

#[derive(Debug, Clone, Copy)]
pub struct Sample {
    pub l0_count: usize,
    pub trigger: usize,
    pub ratio: f64,
    pub probes: f64,
    pub backlog: usize,
}

#[derive(Debug, Clone, Copy)]
pub enum Call {
    Observe(Sample),
    /// With the five counters of reads, in the order of `ReadAmpStats`, in place of the probes.
    Engine(Sample, [u64; 5]),
    Focus(Focus),
    Chosen(Kind),
    Moved(u64),
    Outcome(u64, u64),
    /// Sequence, tier, candidates considered, kind (0 for none), level, length, predicted bytes, the three reliefs; pressures are the governor's own.
    Decision([u64; 7], Vector),
}

pub const LOOK: [&str; 24] = [
    "mode()",
    "pressure()",
    "pressure_vector().l0",
    "pressure_vector().deep_debt",
    "pressure_vector().read",
    "dominant()",
    "focus().current_focus.is_some()",
    "focus().current_focus",
    "focus().streak",
    "pacing_delay(mode(), pressure())",
    "snapshot().mode",
    "snapshot().pressure",
    "snapshot().pressure_vector.l0",
    "snapshot().pressure_vector.deep_debt",
    "snapshot().pressure_vector.read",
    "snapshot().mode_switches",
    "snapshot().time_balanced_ms",
    "snapshot().time_read_protect_ms",
    "snapshot().time_write_emergency_ms",
    "snapshot().avg_batch_size",
    "snapshot().trivial_moves_performed",
    "snapshot().trivial_move_bytes_avoided",
    "snapshot().predicted_actual_samples",
    "snapshot().predicted_actual_mean_abs_pct_error",
];

macro_rules! side {
    ($side:ident) => {
        pub mod $side {
            use super::*;
            pub use crate::$side::*;
            use std::fmt::Debug;

            /// The derives that a store may rely on.
            const _: () = {
                const fn value<T: Debug + Clone + Copy + Default>() {}
                const fn compared<T: Debug + Clone + Copy + PartialEq + Default>() {}
                const fn kind<T: Debug + Clone + Copy + PartialEq + Eq>() {}
                const fn case<T: Debug + Clone + Copy + PartialEq + Eq + Default>() {}
                const fn record<T: Debug + Clone>() {}
                const fn shared<T: Send + Sync>() {}
                (case::<GovernorMode>(), case::<PressureSource>(), case::<SelectionTier>(), case::<FocusState>());
                (value::<PressureSample>(), value::<GovernorStats>(), value::<CandidateEstimate>(), compared::<PressureVector>());
                (kind::<ChosenKind>(), kind::<CandidateKind>(), record::<SchedulingDecision>(), record::<TableInfo>(), record::<Candidate>());
                shared::<GovernorState>()
            };

            pub fn kind_of((kind, level, batch_len): Kind) -> CandidateKind {
                match kind {
                    1 => CandidateKind::L0,
                    2 => CandidateKind::LevelBatch { level, batch_len },
                    _ => CandidateKind::TrivialMove { level },
                }
            }

            fn told(kind: CandidateKind) -> Kind {
                match kind {
                    CandidateKind::L0 => (1, 0, 0),
                    CandidateKind::LevelBatch { level, batch_len } => (2, level, batch_len),
                    CandidateKind::TrivialMove { level } => (3, level, 0),
                }
            }

            fn focus_of((current_focus, streak): Focus) -> FocusState {
                FocusState { current_focus, streak }
            }

            pub fn vector_of([l0, deep_debt, read]: Vector) -> PressureVector {
                PressureVector { l0, deep_debt, read }
            }

            /// The mode that an observation answers.
            pub fn call(g: &mut GovernorState, call: Call) -> Option<u64> {
                match call {
                    Call::Observe(s) => {
                        let sample = PressureSample {
                            l0_count: s.l0_count,
                            l0_write_stall_trigger: s.trigger,
                            max_level_debt_ratio: s.ratio,
                            tables_probed_per_get: s.probes,
                            backlog_levels: s.backlog,
                        };
                        return Some(g.observe(sample) as u64);
                    }
                    Call::Engine(s, r) => {
                        let reads = crate::db::ReadAmpStats {
                            gets_total: r[0],
                            resolved_in_memtable: r[1],
                            resolved_in_immutable: r[2],
                            l0_tables_probed: r[3],
                            leveled_tables_probed: r[4],
                        };
                        return Some(g.observe_engine(s.l0_count, s.trigger, s.ratio, s.backlog, reads) as u64);
                    }
                    Call::Focus(f) => g.set_focus(focus_of(f)),
                    Call::Chosen(kind) => g.record_candidate_chosen(kind_of(kind)),
                    Call::Moved(bytes) => g.record_trivial_move(bytes),
                    Call::Outcome(predicted, actual) => g.record_outcome(predicted, actual),
                    Call::Decision([sequence, tier, considered, kind, level, batch_len, predicted], reliefs) => {
                        let pressure = g.pressure_vector();
                        let tiers = [SelectionTier::None, SelectionTier::L0, SelectionTier::FocusContinued, SelectionTier::FocusReselected];
                        g.record_decision(SchedulingDecision {
                            sequence,
                            pressure,
                            dominant: pressure.dominant(),
                            tier: tiers[tier as usize],
                            candidates_considered: considered as usize,
                            chosen: (kind > 0).then(|| kind_of((kind, level as u32, batch_len as usize)).into()),
                            predicted_rewrite_bytes: predicted,
                            l0_relief: reliefs[0],
                            debt_relief: reliefs[1],
                            read_relief: reliefs[2],
                        })
                    }
                }
                None
            }

            /// All that can be read of a governor but its log: see `LOOK`.
            pub fn look(g: &GovernorState) -> [u64; 24] {
                let (v, f, s) = (g.pressure_vector(), g.focus(), g.snapshot());
                [
                    g.mode() as u64,
                    plain(g.pressure()),
                    plain(v.l0),
                    plain(v.deep_debt),
                    plain(v.read),
                    v.dominant() as u64,
                    f.current_focus.is_some() as u64,
                    f.current_focus.unwrap_or(0) as u64,
                    f.streak as u64,
                    pacing_delay(g.mode(), g.pressure()).as_nanos() as u64,
                    s.mode as u64,
                    plain(s.pressure),
                    plain(s.pressure_vector.l0),
                    plain(s.pressure_vector.deep_debt),
                    plain(s.pressure_vector.read),
                    s.mode_switches,
                    s.time_balanced_ms,
                    s.time_read_protect_ms,
                    s.time_write_emergency_ms,
                    plain(s.avg_batch_size),
                    s.trivial_moves_performed,
                    s.trivial_move_bytes_avoided,
                    s.predicted_actual_samples,
                    plain(s.predicted_actual_mean_abs_pct_error),
                ]
            }

            pub fn delay(mode: u64, pressure: f64) -> u64 {
                let modes = [GovernorMode::Balanced, GovernorMode::ReadProtect, GovernorMode::WriteEmergency];
                pacing_delay(modes[mode as usize], pressure).as_nanos() as u64
            }

            pub fn dominant(v: Vector) -> u64 {
                vector_of(v).dominant() as u64
            }

            /// The log, in the order of `SchedulingDecision`'s fields.
            pub fn decisions(g: &GovernorState) -> Vec<Vec<u64>> {
                let words = |d: SchedulingDecision| {
                    let (kind, level, batch_len) = match d.chosen {
                        None => (0, 0, 0),
                        Some(ChosenKind::L0) => (1, 0, 0),
                        Some(ChosenKind::LevelBatch { level, batch_len }) => (2, level, batch_len),
                        Some(ChosenKind::TrivialMove { level }) => (3, level, 0),
                    };
                    let (p, r) = (d.pressure, [d.l0_relief, d.debt_relief, d.read_relief].map(plain));
                    let head = [d.sequence, plain(p.l0), plain(p.deep_debt), plain(p.read), d.dominant as u64, d.tier as u64];
                    let chosen = [d.candidates_considered as u64, kind, level as u64, batch_len as u64, d.predicted_rewrite_bytes];
                    head.into_iter().chain(chosen).chain(r).collect()
                };
                g.recent_decisions().into_iter().map(words).collect()
            }

            pub fn tables(of: &[Table]) -> Vec<TableInfo> {
                let keys = |t: &Table| (t.first.clone(), t.last.clone());
                let info =
                    |(t, (first_key, last_key)): (&Table, _)| TableInfo { number: t.number, level: t.level, size: t.size, first_key, last_key };
                of.iter().map(|t| info((t, keys(t)))).collect()
            }

            pub fn generate(tables: &[TableInfo], trigger: usize, over: &Over, next: u64) -> Vec<Found> {
                let found = |c: Candidate| Found { kind: told(c.kind), numbers: c.input_numbers, output_level: c.output_level };
                generate_candidates(tables, trigger, over, next).into_iter().map(found).collect()
            }

            pub fn candidate(f: &Found) -> Candidate {
                Candidate { kind: kind_of(f.kind), input_numbers: f.numbers.clone(), output_level: f.output_level }
            }

            pub fn estimate(tables: &[TableInfo], of: &Found, next: u64, over: &Over) -> Estimate {
                let e = estimate_candidate(tables, &candidate(of), next, over);
                let bytes = [e.input_bytes, e.overlap_bytes, e.estimated_rewrite_bytes, e.debt_relief_bytes];
                let reliefs = [e.l0_relief, e.debt_relief, e.read_relief].map(bits);
                [bytes[0], bytes[1], bytes[2], bytes[3], e.l0_files_removed as u64, e.age, reliefs[0], reliefs[1], reliefs[2]]
            }

            pub fn pick(v: Vector, focus: Focus, offers: &[(Found, Estimate)]) -> Picked {
                let estimate = |e: &Estimate| CandidateEstimate {
                    input_bytes: e[0],
                    overlap_bytes: e[1],
                    estimated_rewrite_bytes: e[2],
                    debt_relief_bytes: e[3],
                    l0_files_removed: e[4] as usize,
                    age: e[5],
                    l0_relief: f64::from_bits(e[6]),
                    debt_relief: f64::from_bits(e[7]),
                    read_relief: f64::from_bits(e[8]),
                };
                let all: Vec<(Candidate, CandidateEstimate)> = offers.iter().map(|(f, e)| (candidate(f), estimate(e))).collect();
                let (best, focus, tier) = pick_best_cause_aware(vector_of(v), focus_of(focus), &all);
                let place = best.map(|b| all.iter().position(|o| std::ptr::eq(o, b)).expect("the winner is one of those handed in"));
                (place, (focus.current_focus, focus.streak), tier as u64)
            }
        }
    };
}
side!(original);
side!(dropin);
