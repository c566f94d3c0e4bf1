//! Lent tables: longer and shorter than their full size, scrawled over, damaged in one entry.
use super::Random;
use crate::reckoning::{Tables, DRONES, FULL, LEG, LENT, LOCATION, NAME, STOPS};
use conductor::Dependency;

/// Lengths of tables: full, or some longer, with anything in the entries past the full size.
pub fn lengthened(r: &mut Random, t: &mut Tables) {
    let more: Vec<usize> = (0..LENT).map(|_| if r.one_in(2) { 0 } else { r.between(1, 40) }).collect();
    let (mut byte, mut word) = (Random(r.next()), Random(r.next()));
    let mut bytes = |n: usize| (0..n).map(|_| byte.next() as u8).collect::<Vec<u8>>();
    let mut words = |n: usize| (0..n).map(|_| word.next() as u16).collect::<Vec<u16>>();
    t.drone_count.extend(words(more[0]));
    t.dependency_count.extend(words(more[1]));
    t.form.extend(bytes(more[2]));
    t.names.extend(bytes(more[3]));
    t.stop_counts.extend(words(more[4]));
    t.locations.extend(words(more[5]));
    t.times.extend(words(more[6]).iter().map(|n| u32::from(*n) << 9));
    t.legs.extend(bytes(more[7]));
    t.visited.extend(words(more[8]));
    t.drone_flags.extend(bytes(more[9]));
    t.dependencies.extend((0..more[10]).map(|_| record(r)));
    t.pairs.extend(words(more[11]));
}

fn record(r: &mut Random) -> Dependency {
    let n = r.next().to_le_bytes();
    Dependency { first_stop: u16::from(n[0]), second_stop: u16::from(n[1]), first_drone: n[2], second_drone: n[3], flags: n[4], reserved: n[5] }
}

/// Tables with anything in them.
pub fn scrawled(r: &mut Random) -> Tables {
    let mut t = Tables::zeroed(FULL);
    if r.one_in(3) {
        for (table, full) in FULL.into_iter().enumerate() {
            for _ in 0..r.below(9) {
                let entry = r.below(full);
                damage(r, &mut t, table, entry);
            }
        }
    }
    t
}

/// One table gets shorter than its full size.
pub fn shortened(r: &mut Random, t: &mut Tables) {
    let table = r.below(LENT);
    let length = if r.one_in(3) { 0 } else { FULL[table] - 1 - r.below(FULL[table].min(5)) };
    match table {
        0 => t.drone_count.truncate(length),
        1 => t.dependency_count.truncate(length),
        2 => t.form.truncate(length),
        3 => t.names.truncate(length),
        4 => t.stop_counts.truncate(length),
        5 => t.locations.truncate(length),
        6 => t.times.truncate(length),
        7 => t.legs.truncate(length),
        8 => t.visited.truncate(length),
        9 => t.drone_flags.truncate(length),
        10 => t.dependencies.truncate(length),
        _ => t.pairs.truncate(length),
    }
}

fn other(r: &mut Random, value: u64, bits: u32) -> u64 {
    let near =
        [0, 1, 2, value ^ 1, value ^ 2, value + 1, value.wrapping_sub(1), STOPS as u64 - 1, STOPS as u64, 1_000_001, r.next(), 1 << r.below(bits as usize)];
    r.choice(&near) & (u64::MAX >> (64 - bits))
}

fn damage(r: &mut Random, t: &mut Tables, table: usize, entry: usize) {
    macro_rules! set {
        ($field:expr, $T:ty) => {
            $field = other(r, u64::from($field), <$T>::BITS) as $T
        };
    }
    let record = &mut t.dependencies[entry.min(FULL[10] - 1)];
    match (table, r.below(8)) {
        (0, _) => set!(t.drone_count[0], u16),
        (1, _) => set!(t.dependency_count[0], u16),
        (2, 0..=3) => t.form[0] = r.choice(&[0, 1, 2, 3, b'1', b'2']),
        (2, _) => set!(t.form[0], u8),
        (3, 0) => t.names[entry] = r.choice(b"Azb-9_ \xff{`"),
        (3, _) => set!(t.names[entry], u8),
        (4, _) => set!(t.stop_counts[entry], u16),
        (5, _) => set!(t.locations[entry], u16),
        (6, _) => set!(t.times[entry], u32),
        (7, 0..=3) => t.legs[entry] = r.choice(&[0, 1, LEG as u8 - 1, LEG as u8, LEG as u8 + 1, t.legs[entry].wrapping_add(1)]),
        (7, _) => set!(t.legs[entry], u8),
        (8, _) => set!(t.visited[entry], u16),
        (9, _) => set!(t.drone_flags[entry], u8),
        (11, 0..=3) => t.pairs[entry] = r.choice(&[0, LOCATION as u16, t.pairs[entry ^ 1], t.pairs[entry.saturating_sub(2)], t.pairs[(entry + 2) % FULL[11]]]),
        (11, _) => set!(t.pairs[entry], u16),
        (_, 0) => set!(record.first_drone, u8),
        (_, 1) => set!(record.first_stop, u16),
        (_, 2) => set!(record.second_drone, u8),
        (_, 3) => set!(record.second_stop, u16),
        (_, 4) => set!(record.reserved, u8),
        (_, 5) => record.flags ^= 1,
        _ => set!(record.flags, u8),
    }
}

/// One entry of a table is damaged: mostly one in use, or the first that is not.
pub fn damaged(r: &mut Random, t: &mut Tables) {
    let table = r.choice(&[0, 1, 2, 3, 3, 4, 5, 5, 6, 6, 7, 7, 8, 8, 8, 9, 10, 10, 10, 10, 11, 11, 11]);
    let drones = usize::from(t.drone_count[0]).min(DRONES);
    let stops: usize = t.stop_counts[..drones].iter().map(|m| usize::from(*m)).sum();
    let numbers = 2 * t.pairs[..FULL[11]].chunks(2).take_while(|pair| pair[1] > 0).count();
    let used = [1, 1, 1, NAME * drones, drones, stops, stops, stops, drones, drones, usize::from(t.dependency_count[0]), numbers][table];
    let entry = if r.one_in(8) { r.below(FULL[table]) } else { r.below(used + 1).min(FULL[table] - 1) };
    damage(r, t, table, entry);
}
