//! Where a list of offers is cut, and how far a range reaches: more tables free to move than a list of moves takes; one table of L0 that reaches further than
//! the others; the plans that take the most stack.

use crate::ask;
use crate::limits::room;
use crate::question::Question;
use crate::tables;

/// Generation with the room that its answer takes.
fn generation(words: Vec<u64>, keys: Vec<u8>, trigger: u64, over: &[u64]) -> Question {
    let (candidates, numbers) = tables::laid_out(&tables::candidates(&tables::tables(&words, &keys), trigger, over));
    let bytes = keys.into_iter().map(u64::from).collect::<Vec<u64>>();
    ask!("generate_candidates", words, bytes, trigger, over, room(candidates.len()), room(numbers.len()))
}

/// Keys of two bytes in rising order.
fn keys(n: usize) -> Vec<u8> {
    (0..n as u16).flat_map(u16::to_be_bytes).collect()
}

/// A table whose one key is the one at a place.
fn at_key(number: u64, level: u64, size: u64, key: u64) -> [u64; 7] {
    [number, level, size, 2 * key, 2, 2 * key, 2]
}

/// Tables of level 1 with these sizes and numbers in key order, handed in so or the other way round, and those of level 2 that stand over some of their keys.
fn free(sizes: &[u64], numbers: &[u64], turned: bool, below: &[u64]) -> Question {
    let mut words: Vec<[u64; 7]> = (0..).zip(sizes.iter().zip(numbers)).map(|(key, (size, number))| at_key(*number, 1, *size, key)).collect();
    words.extend((5000..).zip(below).map(|(number, key)| at_key(number, 2, 1, *key)));
    if turned {
        words.reverse();
    }
    generation(words.concat(), keys(sizes.len()), 1, &[1, 5])
}

/// Sizes that all differ, rising or falling in key order, but for the ninth largest, which stands at a place of its own.
fn ninth_at(n: u64, place: usize, rising: bool) -> Vec<u64> {
    let mut out: Vec<u64> = (1..=n).map(|i| 10 * i).collect();
    let ninth = out.remove(n as usize - 9);
    if !rising {
        out.reverse();
    }
    out.insert(place, ninth);
    out
}

/// 8, 9, 10 and 1,024 tables that are free to move: the ninth largest first and last in key order; one size for all, or for all but up to seven, so that
/// numbers decide where the list is cut; numbers rising, falling and mixed. Then nine that are free among twelve.
fn moves() -> Vec<Question> {
    let mut out = vec![];
    for n in [8, 9, 10, 1024] {
        let rising: Vec<u64> = (1..=n).collect();
        let falling: Vec<u64> = rising.iter().rev().copied().collect();
        let mixed: Vec<u64> = (0..n).map(|i| 1 + 7 * i % n).collect();
        let mut all = vec![];
        if n > 8 {
            for place in [0, n as usize - 1] {
                all.extend([(ninth_at(n, place, true), &mixed), (ninth_at(n, place, false), &mixed)]);
            }
        }
        let tied: Vec<u64> = (0..n).map(|i| if i % 2 == 1 && i < 14 { 100 + i } else { 50 }).collect();
        for numbers in [&rising, &falling, &mixed] {
            all.extend([(vec![50; n as usize], numbers), (tied.clone(), numbers)]);
        }
        for (sizes, numbers) in all {
            out.push(free(&sizes, numbers, false, &[]));
            if n < 1024 {
                out.push(free(&sizes, numbers, true, &[]));
            }
        }
    }
    for below in [[0, 5, 11], [1, 2, 10]] {
        for place in [0, 11] {
            let numbers: Vec<u64> = (1..=12).rev().collect();
            out.extend([true, false].map(|rising| free(&ninth_at(12, place, rising), &numbers, false, &below)));
        }
    }
    out
}

/// L0 of 1 to 9 tables and of 33, all on one key but two, which may be the same: one begins lower and one ends higher. Level 1 has tables on that key, and
/// next to it and further away on both sides.
fn ranges() -> Vec<Question> {
    let mut out = vec![];
    for n in [1, 2, 3, 4, 5, 8, 9, 33] {
        for place in 0..n {
            for other in [place, n - 1 - place] {
                let mut words: Vec<[u64; 7]> = (0..n).map(|i| at_key(i, 0, 1, 2)).collect();
                words[place as usize][3] = 2;
                words[other as usize][5] = 6;
                words.extend([at_key(100, 1, 1, 1), at_key(101, 1, 1, 2), at_key(102, 1, 1, 3), at_key(103, 1, 1, 0), at_key(104, 1, 1, 4)]);
                out.push(generation(words.concat(), keys(5), 1, &[]));
            }
        }
    }
    out
}

/// The plans that take the most stack: 1,024 tables on keys of their own, all in L0, all but one, all in level 1, in four levels and in 17, with 16 entries.
fn deepest() -> Vec<Question> {
    let levels: [fn(u64) -> u64; 5] = [|_| 0, |i| i / 1023, |_| 1, |i| i % 4, |i| i % 17];
    let over: Vec<u64> = (0..16).flat_map(|level| [level, 1]).collect();
    levels.map(|level| generation((0..1024).flat_map(|i| at_key(i, level(i), 1024 - i, i)).collect(), keys(1024), 1, &over)).to_vec()
}

pub fn all() -> Vec<Question> {
    [moves(), ranges(), deepest()].concat()
}
