//! Faults for a bench file: in its numbers, and in its bytes.

use super::draft::{Draft, Item, Sort, Subtree};
use super::random::Random;
use crate::numbers::{self, MOST_BYTES};

/// One fault in the numbers.
pub fn damage_numbers(random: &mut Random, draft: &mut Draft) {
    match random.between(0, 19) {
        0..=7 => to_an_edge(random, draft),
        8 | 9 => replace_subtree(random, draft),
        10..=13 => replace_statement(random, draft),
        14 | 15 => deepen(random, draft),
        16 => cut_short(random, draft),
        17 => leave_over(random, draft),
        18 => remove_or_repeat(random, draft),
        _ => exchange(random, draft),
    }
}

/// Entries, store and packet are in the last numbers of a file.
const LAST: usize = 16;

/// One number becomes an edge of its own list, or steps over it.
fn to_an_edge(random: &mut Random, draft: &mut Draft) {
    let only_free = random.chance(75);
    let first = if random.chance(30) { draft.len().saturating_sub(LAST) } else { 0 };
    let wanted = |index: &usize| !only_free || draft.items[*index].free;
    let indices: Vec<usize> = (first..draft.len()).filter(wanted).collect();
    if indices.is_empty() {
        return;
    }
    let index = random.choose(&indices);
    let Item { value, least, most, .. } = draft.items[index];
    let edges = [
        least,
        most,
        least.saturating_sub(1),
        most.saturating_add(1),
        value.saturating_add(1),
        value.saturating_sub(1),
        random.between(least, most),
        127 + random.between(0, 10),
        u64::MAX,
    ];
    draft.items[index].value = random.choose(&edges);
}

fn subtree(random: &mut Random, draft: &Draft, sort: Sort) -> Option<Subtree> {
    let subtrees: Vec<Subtree> = draft.subtrees.iter().copied().filter(|subtree| subtree.sort == sort).collect();
    (!subtrees.is_empty()).then(|| random.choose(&subtrees))
}

/// Put other numbers in a subtree's stead; the other subtrees are known no more.
fn put(draft: &mut Draft, subtree: Subtree, numbers: Vec<Item>) {
    draft.items.splice(subtree.start..subtree.end, numbers);
    draft.subtrees.clear();
}

fn any_sort(random: &mut Random) -> Sort {
    random.choose(&[Sort::Expression, Sort::Statement])
}

/// One subtree's copy takes the place of another one.
fn replace_subtree(random: &mut Random, draft: &mut Draft) {
    let sort = any_sort(random);
    if let (Some(old), Some(new)) = (subtree(random, draft, sort), subtree(random, draft, sort)) {
        let copy = draft.items[new.start..new.end].to_vec();
        put(draft, old, copy);
    }
}

/// Two subtrees that are apart change places.
fn exchange(random: &mut Random, draft: &mut Draft) {
    let sort = any_sort(random);
    let (Some(one), Some(other)) = (subtree(random, draft, sort), subtree(random, draft, sort)) else { return };
    let (first, second) = if one.start <= other.start { (one, other) } else { (other, one) };
    if first.end <= second.start {
        let copy = draft.items[first.start..first.end].to_vec();
        let moved = draft.items[second.start..second.end].to_vec();
        put(draft, second, copy);
        put(draft, first, moved);
    }
}

fn items(numbers: &[u64]) -> Vec<Item> {
    numbers.iter().map(|&value| Item { value, least: 0, most: value, free: false }).collect()
}

/// A short statement takes the place of another one: returns, exits, calls, applies, extracts and verifies where they may
/// not stand.
fn replace_statement(random: &mut Random, draft: &mut Draft) {
    let all: [&[u64]; 12] = [
        &[0],
        &[7],
        &[8],
        &[6, 0, 1],
        &[6, 1, 8, 7],
        &[5, 0],
        &[9, 0],
        &[10, 0],
        &[4, 0, 0],
        &[1, 3, 0, 3, 0],
        &[11, 0],
        &[12, 0, 0, 7],
    ];
    let short = if draft.has_parser() { &all } else { &all[..10] };
    if let Some(old) = subtree(random, draft, Sort::Statement) {
        put(draft, old, items(random.choose(short)));
    }
}

/// A subtree moves down by some levels.
fn deepen(random: &mut Random, draft: &mut Draft) {
    let sort = any_sort(random);
    let level: &[u64] = match sort {
        Sort::Expression => random.choose(&[&[7], &[8]]),
        Sort::Statement => &[3, 1],
    };
    if let Some(old) = subtree(random, draft, sort) {
        let levels = random.between(1, 34) as usize;
        let mut numbers = items(&level.repeat(levels));
        numbers.extend_from_slice(&draft.items[old.start..old.end]);
        put(draft, old, numbers);
    }
}

fn cut_short(random: &mut Random, draft: &mut Draft) {
    let last = draft.len() - 1;
    let kept = if random.chance(50) { last.saturating_sub(random.index(6)) } else { random.index(draft.len()) };
    draft.items.truncate(kept);
    draft.subtrees.clear();
}

fn leave_over(random: &mut Random, draft: &mut Draft) {
    for _ in 0..random.between(1, 3) {
        let number = random.value(crate::tree::Type::Bits(64));
        draft.push(number, 0, u64::MAX);
    }
}

fn remove_or_repeat(random: &mut Random, draft: &mut Draft) {
    let index = random.index(draft.len());
    if random.chance(50) {
        draft.items.remove(index);
    } else {
        draft.items.insert(index, draft.items[index]);
    }
    draft.subtrees.clear();
}

/// Some faults in the bytes.
pub fn damage_bytes(random: &mut Random, bytes: &mut Vec<u8>) {
    match random.between(0, 9) {
        0 => bytes.clear(),
        1 => bytes.resize(MOST_BYTES + random.between(0, 2) as usize, 0),
        2 | 3 => bytes.truncate(random.index(bytes.len() + 1)),
        4 => bytes.push(0x80 | random.between(0, 127) as u8),
        5 | 6 => overlong(random, bytes),
        7 => {
            let index = random.index(bytes.len());
            bytes.insert(index, random.word() as u8);
        }
        _ => {
            let index = random.index(bytes.len());
            bytes[index] ^= 1 << random.between(0, 7);
        }
    }
}

/// One byte's number is written in more bytes than it needs, or in ten and more.
fn overlong(random: &mut Random, bytes: &mut Vec<u8>) {
    let index = random.index(bytes.len());
    let continued = random.choose(&[1, 1, 2, 8, 9, 9, 10]);
    let last = random.choose(&[0, 0, 1, 2, 0x81]);
    let mut number = vec![0xff; continued];
    number.push(last);
    bytes.splice(index..=index, number);
}

/// The bytes of a draft.
pub fn bytes(draft: &Draft) -> Vec<u8> {
    numbers::write(&draft.numbers())
}
