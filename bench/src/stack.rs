//! How deep the stack goes: how much of a painted one a call wrote to.
use crate::dropin::of;
use crate::port::*;
use crate::tables::{Case, Room};
use crate::{choice, data, replay};
use std::ffi::c_void;
use std::hint::black_box;

unsafe extern "C" {
    fn pthread_attr_init(a: *mut c_void) -> i32;
    fn pthread_attr_setstack(a: *mut c_void, at: *mut c_void, size: usize) -> i32;
    fn pthread_create(t: *mut usize, a: *const c_void, f: extern "C" fn(*mut c_void) -> *mut c_void, arg: *mut c_void) -> i32;
    fn pthread_join(t: usize, r: *mut *mut c_void) -> i32;
}

const SIZE: usize = 4 << 20;
const PAINT: u64 = 0xa5a5_5a5a_c3c3_3c3c;

struct Job<'a> {
    run: &'a mut dyn FnMut(),
    sp: usize,
}

extern "C" fn start(arg: *mut c_void) -> *mut c_void {
    let job = unsafe { &mut *(arg as *mut Job) };
    let here = 0u64;
    job.sp = std::hint::black_box(&here) as *const u64 as usize;
    (job.run)();
    std::ptr::null_mut()
}

/// Bytes from the caller's frame down to the lowest word that was written.
fn depth(mut f: impl FnMut()) -> usize {
    let mut room = vec![PAINT; SIZE / 8 + 512];
    let base = (room.as_mut_ptr() as usize + 4095) & !4095;
    let mut job = Job { run: &mut f, sp: 0 };
    unsafe {
        let mut attr = [0u64; 16];
        let mut thread = 0usize;
        assert_eq!(pthread_attr_init(attr.as_mut_ptr() as *mut c_void), 0);
        assert_eq!(pthread_attr_setstack(attr.as_mut_ptr() as *mut c_void, base as *mut c_void, SIZE), 0);
        assert_eq!(pthread_create(&mut thread, attr.as_ptr() as *const c_void, start, &mut job as *mut Job as *mut c_void), 0);
        pthread_join(thread, std::ptr::null_mut());
    }
    let words = unsafe { std::slice::from_raw_parts(base as *const u64, SIZE / 8) };
    let low = words.iter().position(|w| *w != PAINT).unwrap_or(SIZE / 8);
    job.sp - (base + low * 8)
}

fn line(name: &str, port: impl FnMut(), rust: impl FnMut()) {
    println!("{:58} {:>10} {:>10}", name, depth(port), depth(rust));
}

pub fn depths() {
    println!("\n{:58} {:>10} {:>10}", "stack: bytes below the caller's frame", "port", "Rust");
    let mut room = Room::new();
    let cases = [
        ("four levels, 1,024 tables, 3 entries", Case::new(&data::four_levels(1024, 1024), &[1, 2, 3], 4)),
        ("1,024 tables in L0", Case::new(&data::one_level(1024, 3, 0, 0), &[], 4)),
        ("1,023 tables in L0, one in level 1", Case::new(&data::l0_but_one(1024), &[], 4)),
        ("1,024 tables in level 1, one entry", Case::new(&data::one_level(1024, 3, 0, 1), &[1], 4)),
        ("no table", Case::new(&[], &[1], 4)),
    ];
    for (name, case) in &cases {
        line(&format!("generate_candidates, {name}"), || _ = case.generate(&mut room), || _ = black_box(case.generated()));
    }
    for (name, tables) in [("four levels, 1,024 tables", data::four_levels(1024, 1024)), ("1,023 in L0, one in level 1", data::l0_but_one(1024))] {
        let (ours, theirs, over) = (of::module::infos(&tables), of::original::infos(&tables), [(1, 1), (2, 1), (3, 1)]);
        line(
            &format!("module generate_candidates, {name}"),
            || _ = black_box(of::module::candidates(&ours, &over)),
            || _ = black_box(of::original::candidates(&theirs, &over)),
        );
    }
    let (all, words, numbers) = cases[0].1.compared();
    line(
        "estimate_candidates, 1,024 tables, 3 entries",
        || _ = cases[0].1.estimate(&words, &numbers, &mut room),
        || _ = black_box(cases[0].1.estimated(&all)),
    );
    let offers = choice::plain(145, false, 3);
    let (candidates, estimates) = choice::words(&offers);
    let pairs = choice::pairs(&offers);
    let mut out = [0u64; 6];
    let port_pick = || port_pick(&lent(&choice::VECTOR), &lent(&[0u64; 3]), &lent(&candidates), &lent(&estimates), &lent_mut(&mut out));
    line("pick_best_cause_aware, 145 candidates", port_pick, || _ = black_box(choice::pick(choice::VECTOR, [0; 3], &pairs)));
    let text = data::text(&data::samples(900, 21));
    let (mut bytes, mut length, mut to) = (vec![0u8; 1 << 17], [0usize], Vec::with_capacity(1 << 17));
    line("replay, 900 lines", || _ = port_replay(&lent(&text), &lent_mut(&mut bytes), &lent_mut(&mut length)), || replay::replay(&text, &mut to));
}
