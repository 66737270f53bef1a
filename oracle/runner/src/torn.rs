//! Damages scripts: cut, bytes changed, added, taken out and doubled, and scripts that are too long.

use crate::field::{MOST_BYTES, fields};
use crate::random::Random;

/// Does some damage to a script.
pub fn damage(random: &mut Random, script: &mut Vec<u8>) {
    for _ in 0..random.between(1, 5) {
        if script.is_empty() {
            script.push(random.byte());
        }
        let at = random.below(script.len());
        match random.below(12) {
            0 => script.truncate(at),
            1 => script[at] = random.byte(),
            2 => script[at] ^= 1 << random.below(8),
            3 => script.insert(at, random.byte()),
            4 => drop(script.remove(at)),
            5 => double(random, script, at),
            6 => script.extend((0..random.between(1, 6)).map(|_| random.below(18) as u8)),
            7 | 8 => change_field(random, script),
            9 => drop_field(random, script),
            10 => script.truncate(script.len() - random.below(3).min(script.len())),
            _ => lengthen(random, script),
        }
    }
}

fn double(random: &mut Random, script: &mut Vec<u8>, at: usize) {
    let end = (at + random.between(1, 40)).min(script.len());
    let part = script[at..end].to_vec();
    script.splice(at..at, part);
}

/// Changes a field's tag, its length, or one byte of its value.
fn change_field(random: &mut Random, script: &mut [u8]) {
    let places: Vec<usize> = fields(script).iter().map(|field| field.place).collect();
    let place = places[random.below(places.len())];
    let (at, byte) = match random.below(4) {
        0 => (place, random.below(0x12) as u8),
        1 => (place + 2, random.below(14) as u8),
        _ => (
            place + 3 + random.below(8),
            [0, 1, 2, 3, 4, 5, 6, 8, 0x40, 0xFF][random.below(10)],
        ),
    };
    if let Some(old) = script.get_mut(at) {
        *old = byte;
    }
}

fn drop_field(random: &mut Random, script: &mut Vec<u8>) {
    let all = fields(script);
    let at = random.below(all.len());
    let end = all.get(at + 1).map_or(script.len(), |next| next.place);
    let place = all[at].place;
    script.drain(place..end);
}

/// Makes a script as long as it may be, or a little shorter or longer.
fn lengthen(random: &mut Random, script: &mut Vec<u8>) {
    if random.chance(70) {
        let length = MOST_BYTES + random.below(5) - 2;
        let unit = [vec![2, 0, 0], vec![1, 0, 2, 0, 0], vec![0x10, 0, 0]][random.below(3)].clone();
        while script.len() < length {
            script.extend_from_slice(&unit);
        }
        if random.chance(70) {
            script.truncate(length);
        }
    }
}

/// Gives fields with tags that are left out a tag that is not listed.
pub fn leave_out(script: &mut [u8], without: &[u8]) {
    let places: Vec<usize> = fields(script)
        .iter()
        .filter(|field| field.whole.is_some_and(|(tag, _)| without.contains(&tag)))
        .map(|field| field.place)
        .collect();
    for place in places {
        script[place] = 0x10;
    }
}
