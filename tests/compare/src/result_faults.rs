//! Faults to put into a good result, each with the offset it must be refused at.

use circuits::Random;

/// A result as its records: the summary, then the bounds. There is at least one bound.
pub type Records = Vec<Vec<u8>>;

pub struct Damaged {
    pub file: Vec<u8>,
    pub place: usize,
}

/// A fault, unless this result has no place for it.
type Fault = fn(&mut Random, Records) -> Option<Damaged>;

pub const FAULTS: [(&str, Fault); 16] = [
    ("head cut", head_cut),
    ("contents cut", contents_cut),
    ("length past the end", length_past_end),
    ("other tag", other_tag),
    ("other length", other_length),
    ("last records missing", last_missing),
    ("a record missing before the last", one_missing),
    ("out of order", out_of_order),
    ("other component", other_component),
    ("left over", left_over),
    ("mode above 1", mode),
    ("share above 200,000,000", share),
    ("share not 0 in mode 0", share_in_plain),
    ("rounds above the non-inputs", rounds),
    ("base delay unlike", base),
    ("increment above 200,000,000", increment),
];

/// The records of a result file that is in order.
pub fn split(result: &[u8]) -> Records {
    let (summary, bounds) = result.split_at(10);
    let mut records = vec![summary.to_vec()];
    records.extend(bounds.chunks(13).map(<[u8]>::to_vec));
    records
}

fn offset(record: usize) -> usize {
    if record == 0 {
        0
    } else {
        10 + 13 * (record - 1)
    }
}

fn any_bound(random: &mut Random, records: &Records) -> usize {
    1 + random.below(records.len() - 1)
}

fn above_most(random: &mut Random) -> [u8; 4] {
    random
        .pick(&[200_000_001, 200_000_002, 1 << 30, 1 << 31, u32::MAX])
        .to_be_bytes()
}

fn change(
    mut records: Records,
    record: usize,
    change: impl FnOnce(&mut Vec<u8>),
) -> Option<Damaged> {
    change(&mut records[record]);
    Some(Damaged {
        file: records.concat(),
        place: offset(record),
    })
}

fn head_cut(random: &mut Random, records: Records) -> Option<Damaged> {
    let place = offset(random.below(records.len()));
    let file = records.concat()[..place + 1 + random.below(2)].to_vec();
    Some(Damaged { file, place })
}

fn contents_cut(random: &mut Random, records: Records) -> Option<Damaged> {
    let record = random.below(records.len());
    let place = offset(record);
    let contents = records[record].len() - 3;
    let file = records.concat()[..place + 3 + random.below(contents)].to_vec();
    Some(Damaged { file, place })
}

fn length_past_end(random: &mut Random, records: Records) -> Option<Damaged> {
    let record = random.below(records.len());
    let high = random.within(1, 255) as u8;
    change(records, record, |record| record[1] = high)
}

fn other_tag(random: &mut Random, records: Records) -> Option<Damaged> {
    let record = random.below(records.len());
    let tag = random.pick(&[0, 1, 2, 15, 16, 17, 18, 255]);
    if tag == records[record][0] {
        return None;
    }
    change(records, record, |record| record[0] = tag)
}

fn other_length(random: &mut Random, records: Records) -> Option<Damaged> {
    let record = random.below(records.len());
    let length = random.below(20);
    if length + 3 == records[record].len() {
        return None;
    }
    change(records, record, |record| {
        record.resize(3 + length, 0);
        record[2] = length as u8;
    })
}

fn last_missing(random: &mut Random, mut records: Records) -> Option<Damaged> {
    records.truncate(random.below(records.len()));
    let file = records.concat();
    let place = file.len();
    Some(Damaged { file, place })
}

fn one_missing(random: &mut Random, mut records: Records) -> Option<Damaged> {
    let record = random.below(records.len() - 1);
    records.remove(record);
    Some(Damaged {
        file: records.concat(),
        place: offset(record),
    })
}

fn out_of_order(random: &mut Random, mut records: Records) -> Option<Damaged> {
    let first = random.below(records.len() - 1);
    let second = first + 1 + random.below(records.len() - 1 - first);
    records.swap(first, second);
    Some(Damaged {
        file: records.concat(),
        place: offset(first),
    })
}

fn other_component(random: &mut Random, records: Records) -> Option<Damaged> {
    let record = any_bound(random, &records);
    let (byte, bit) = (random.pick(&[3, 4]), random.below(8));
    change(records, record, |record| record[byte] ^= 1 << bit)
}

fn left_over(random: &mut Random, records: Records) -> Option<Damaged> {
    let mut file = records.concat();
    let place = file.len();
    let more = random.pick(&[0, records.len() - 1]);
    let keep = 1 + random.below(records[more].len());
    file.extend_from_slice(&records[more][..keep]);
    Some(Damaged { file, place })
}

fn mode(random: &mut Random, records: Records) -> Option<Damaged> {
    let mode = random.within(2, 255) as u8;
    change(records, 0, |summary| summary[3] = mode)
}

fn share(random: &mut Random, records: Records) -> Option<Damaged> {
    let share = above_most(random);
    change(records, 0, |summary| {
        summary[3] = 1;
        summary[4..8].copy_from_slice(&share);
    })
}

fn share_in_plain(random: &mut Random, records: Records) -> Option<Damaged> {
    let share = random
        .pick(&[1, 7, 255, 256, 200_000_000_u32])
        .to_be_bytes();
    change(records, 0, |summary| {
        summary[3] = 0;
        summary[4..8].copy_from_slice(&share);
    })
}

fn rounds(random: &mut Random, records: Records) -> Option<Damaged> {
    let non_inputs = records.len() as u16 - 1;
    let rounds = random.pick(&[non_inputs + 1, non_inputs + 2, non_inputs + 256, 65_535]);
    change(records, 0, |summary| {
        summary[8..10].copy_from_slice(&rounds.to_be_bytes())
    })
}

fn base(random: &mut Random, records: Records) -> Option<Damaged> {
    let record = any_bound(random, &records);
    let (byte, bit) = (5 + random.below(4), random.below(8));
    change(records, record, |record| record[byte] ^= 1 << bit)
}

fn increment(random: &mut Random, records: Records) -> Option<Damaged> {
    let record = any_bound(random, &records);
    let increment = above_most(random);
    change(records, record, |record| {
        record[9..13].copy_from_slice(&increment)
    })
}
