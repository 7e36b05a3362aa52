//! Damaged tables: bytes changed, records moved, cut short or extended.

use super::random::Random;
use super::Plan;
use crate::format::{BODY_FACT, GUARD, SLOT_LEN};

/// A damaged form of a good table, or the good one where the damage changes nothing that counts.
pub fn table(random: &mut Random, plan: &Plan) -> Vec<u8> {
    let mut records = plan.records();
    for _ in 0..*random.pick(&[1, 1, 1, 1, 2, 3]) {
        match random.below(10) {
            0 => swap(random, &mut records),
            1 => repeat(random, &mut records),
            2 => leave_out(random, &mut records),
            3 | 4 => change_kind(random, &mut records),
            5 | 6 => change_field(random, &mut records),
            7 => rename_variable(random, &mut records),
            _ => return damage_bytes(random, records.concat()),
        }
    }
    records.concat()
}

fn any_index<T>(random: &mut Random, list: &[T]) -> usize {
    random.below(list.len() as u64) as usize
}

fn swap(random: &mut Random, records: &mut [Vec<u8>]) {
    let (a, b) = (any_index(random, records), any_index(random, records));
    records.swap(a, b);
}

/// Repeats a record up to five times, so that a limit is passed at times.
fn repeat(random: &mut Random, records: &mut Vec<Vec<u8>>) {
    let at = any_index(random, records);
    for _ in 0..*random.pick(&[1, 2, 4, 4, 5]) {
        records.insert(at, records[at].clone());
    }
}

fn leave_out(random: &mut Random, records: &mut Vec<Vec<u8>>) {
    if records.len() > 1 {
        records.remove(any_index(random, records));
    }
}

/// Gives a record another kind; kinds of one length keep the records behind it in step.
fn change_kind(random: &mut Random, records: &mut [Vec<u8>]) {
    let at = any_index(random, records);
    let kinds = match records[at][0] {
        3 | 4 => vec![3, 4, 5],
        2 | 7 | 8 => vec![2, 7, 8, 0],
        _ => vec![0, 1, 2, 3, 4, 5, 6, 7, 8, 9, 16, 17, 255],
    };
    records[at][0] = *random.pick(&kinds);
}

/// Gives one byte of a record's body a small value, or any.
fn change_field(random: &mut Random, records: &mut [Vec<u8>]) {
    let at = any_index(random, records);
    let len = records[at].len();
    if len > 1 {
        let value = match random.chance(70) {
            true => random.up_to(6) as u8,
            false => random.byte(),
        };
        records[at][random.between(1, len - 1)] = value;
    }
}

/// Makes the first slot of a guard's or body fact's first expression a variable.
fn rename_variable(random: &mut Random, records: &mut [Vec<u8>]) {
    let at = any_index(random, records);
    let record = &mut records[at];
    let has_slot = record.len() >= 3 + SLOT_LEN;
    if has_slot && matches!(record[0], GUARD | BODY_FACT) {
        let number = *random.pick(&[0, 5, 13, 15, 16]);
        record[3..3 + SLOT_LEN].copy_from_slice(&[2, number, 0, 0, 0]);
    }
}

/// Changes bytes without a look at records.
fn damage_bytes(random: &mut Random, mut bytes: Vec<u8>) -> Vec<u8> {
    match random.below(4) {
        0 => bytes.truncate(random.below(bytes.len() as u64) as usize),
        1 => {
            let tail = random.between(1, 30);
            bytes.extend((0..tail).map(|_| random.byte()));
        }
        _ => {
            for _ in 0..random.between(1, 3) {
                let at = any_index(random, &bytes);
                bytes[at] = random.byte();
            }
        }
    }
    bytes
}
