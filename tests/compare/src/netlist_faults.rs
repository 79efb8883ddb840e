//! Faults to put into a good netlist, each with the refusal it must lead to.

use circuits::{connection_record, Kind, Netlist, Random};

const BROKEN: u64 = 2;
const TAG: u64 = 3;
const FIELD: u64 = 5;
const WIRING: u64 = 6;
const ENDS: u64 = 7;

/// A damaged file and its refusal; the place is left open where it takes the whole rules to say.
pub struct Damaged {
    pub file: Vec<u8>,
    pub number: u64,
    pub place: Option<usize>,
}

/// A fault, unless this netlist has no place for it.
type Fault = fn(&mut Random, &Netlist) -> Option<Damaged>;

pub const FAULTS: [(&str, Fault); 22] = [
    ("BROKEN: head cut", head_cut),
    ("BROKEN: contents cut", contents_cut),
    ("BROKEN: length past the end", length_past_end),
    ("TAG: unknown", |random, netlist| {
        tag(random, netlist, &[0, 3, 4, 15, 18, 255])
    }),
    ("TAG: of a result", |random, netlist| {
        tag(random, netlist, &[16, 17])
    }),
    ("TAG: record too long", too_long),
    ("TAG: record too short", too_short),
    ("TAG: component after a connection", component_late),
    ("FIELD: kind above 2", kind),
    ("FIELD: base above 65,535", base),
    ("FIELD: input with a base delay", input_base),
    ("FIELD: inner with a time", inner_time),
    ("FIELD: time too late", |random, netlist| {
        time(random, netlist, 1)
    }),
    ("FIELD: time too early", |random, netlist| {
        time(random, netlist, -1)
    }),
    ("WIRING: no such component", no_such_component),
    ("WIRING: from equals to", from_equals_to),
    ("WIRING: from above to", from_above_to),
    ("WIRING: repeated", repeated),
    ("WIRING: out of order", out_of_order),
    ("ENDS: input driven", input_driven),
    ("ENDS: output drives", output_drives),
    ("ENDS: wires missing", wires_missing),
];

const COMPONENT_BYTES: usize = 12;
const CONNECTION_BYTES: usize = 7;

/// Where a record begins, counted over components and connections.
fn offset(netlist: &Netlist, record: usize) -> usize {
    let parts = netlist.parts.len();
    COMPONENT_BYTES * record.min(parts) + CONNECTION_BYTES * record.saturating_sub(parts)
}

fn any_record(random: &mut Random, netlist: &Netlist) -> usize {
    random.below(netlist.parts.len() + netlist.wires.len())
}

/// The record of some connection, counted as above.
fn any_wire(random: &mut Random, netlist: &Netlist) -> usize {
    netlist.parts.len() + random.below(netlist.wires.len())
}

fn any_part(random: &mut Random, netlist: &Netlist, wanted: fn(Kind) -> bool) -> Option<usize> {
    let fits = |at: &usize| wanted(netlist.parts[*at].kind);
    let all: Vec<usize> = (0..netlist.parts.len()).filter(fits).collect();
    (!all.is_empty()).then(|| random.pick(&all))
}

fn head_cut(random: &mut Random, netlist: &Netlist) -> Option<Damaged> {
    let place = offset(netlist, any_record(random, netlist));
    let file = netlist.file()[..place + 1 + random.below(2)].to_vec();
    Some(Damaged {
        file,
        number: BROKEN,
        place: Some(place),
    })
}

fn contents_cut(random: &mut Random, netlist: &Netlist) -> Option<Damaged> {
    let record = any_record(random, netlist);
    let (place, end) = (offset(netlist, record), offset(netlist, record + 1));
    let file = netlist.file()[..place + 3 + random.below(end - place - 3)].to_vec();
    Some(Damaged {
        file,
        number: BROKEN,
        place: Some(place),
    })
}

fn length_past_end(random: &mut Random, netlist: &Netlist) -> Option<Damaged> {
    let place = offset(netlist, any_record(random, netlist));
    let mut file = netlist.file();
    let left = file.len() - place - 3;
    let length = random.pick(&[left + 1, left + 2, 65_535]).min(65_535) as u16;
    if usize::from(length) <= left {
        return None;
    }
    file[place + 1..place + 3].copy_from_slice(&length.to_be_bytes());
    Some(Damaged {
        file,
        number: BROKEN,
        place: Some(place),
    })
}

/// Changes one record, which is then refused.
fn change(
    netlist: &Netlist,
    record: usize,
    number: u64,
    change: impl FnOnce(&mut Vec<u8>),
) -> Option<Damaged> {
    let mut records = netlist.records();
    change(&mut records[record]);
    let place = Some(offset(netlist, record));
    Some(Damaged {
        file: records.concat(),
        number,
        place,
    })
}

fn tag(random: &mut Random, netlist: &Netlist, tags: &[u8]) -> Option<Damaged> {
    let tag = random.pick(tags);
    change(netlist, any_record(random, netlist), TAG, |record| {
        record[0] = tag
    })
}

fn too_long(random: &mut Random, netlist: &Netlist) -> Option<Damaged> {
    let more = random.pick(&[1, 2, 5, 300]);
    change(netlist, any_record(random, netlist), TAG, |record| {
        record.extend(vec![0; more]);
        let length = (record.len() - 3) as u16;
        record[1..3].copy_from_slice(&length.to_be_bytes());
    })
}

fn too_short(random: &mut Random, netlist: &Netlist) -> Option<Damaged> {
    let length = random.below(4);
    change(netlist, any_record(random, netlist), TAG, |record| {
        record.truncate(3 + length);
        record[2] = length as u8;
    })
}

fn component_late(random: &mut Random, netlist: &Netlist) -> Option<Damaged> {
    let after = any_wire(random, netlist) + 1;
    let mut records = netlist.records();
    records.insert(
        after,
        vec![1, 0, 9, random.below(3) as u8, 0, 0, 0, 0, 0, 0, 0, 0],
    );
    let place = Some(offset(netlist, after));
    Some(Damaged {
        file: records.concat(),
        number: TAG,
        place,
    })
}

fn kind(random: &mut Random, netlist: &Netlist) -> Option<Damaged> {
    let kind = random.within(3, 255) as u8;
    let part = any_part(random, netlist, |_| true)?;
    change(netlist, part, FIELD, |record| record[3] = kind)
}

fn base(random: &mut Random, netlist: &Netlist) -> Option<Damaged> {
    let base = random.pick(&[65_536, 65_537, 1 << 24, 1 << 31, u32::MAX]);
    let part = any_part(random, netlist, |_| true)?;
    change(netlist, part, FIELD, |record| {
        record[4..8].copy_from_slice(&base.to_be_bytes())
    })
}

fn input_base(random: &mut Random, netlist: &Netlist) -> Option<Damaged> {
    let base = random.within(1, 65_535) as u32;
    let part = any_part(random, netlist, |kind| kind == Kind::Input)?;
    change(netlist, part, FIELD, |record| {
        record[4..8].copy_from_slice(&base.to_be_bytes())
    })
}

fn inner_time(random: &mut Random, netlist: &Netlist) -> Option<Damaged> {
    let time = random.pick(&[1, -1, 256, 100_000_000, -100_000_000_i32]);
    let part = any_part(random, netlist, |kind| kind == Kind::Inner)?;
    change(netlist, part, FIELD, |record| {
        record[8..12].copy_from_slice(&time.to_be_bytes())
    })
}

fn time(random: &mut Random, netlist: &Netlist, sign: i32) -> Option<Damaged> {
    let time = sign * random.pick(&[100_000_001, 100_000_002, 1 << 30, i32::MAX]);
    let part = any_part(random, netlist, |_| true)?;
    change(netlist, part, FIELD, |record| {
        record[8..12].copy_from_slice(&time.to_be_bytes())
    })
}

fn rewire(
    random: &mut Random,
    netlist: &Netlist,
    new: impl FnOnce(&mut Random, u16, u16) -> (u16, u16),
) -> Option<Damaged> {
    let record = any_wire(random, netlist);
    let (to, from) = netlist.wires[record - netlist.parts.len()];
    let (from, to) = new(random, from, to);
    change(netlist, record, WIRING, |record| {
        *record = connection_record(from, to)
    })
}

fn no_such_component(random: &mut Random, netlist: &Netlist) -> Option<Damaged> {
    let count = netlist.parts.len() as u16;
    rewire(random, netlist, |random, from, _| {
        (from, random.pick(&[count, count + 1, 65_535]))
    })
}

fn from_equals_to(random: &mut Random, netlist: &Netlist) -> Option<Damaged> {
    rewire(random, netlist, |_, _, to| (to, to))
}

fn from_above_to(random: &mut Random, netlist: &Netlist) -> Option<Damaged> {
    rewire(random, netlist, |_, from, to| (to, from))
}

fn repeated(random: &mut Random, netlist: &Netlist) -> Option<Damaged> {
    let record = any_wire(random, netlist);
    let mut records = netlist.records();
    records.insert(record, records[record].clone());
    let place = Some(offset(netlist, record + 1));
    Some(Damaged {
        file: records.concat(),
        number: WIRING,
        place,
    })
}

fn out_of_order(random: &mut Random, netlist: &Netlist) -> Option<Damaged> {
    if netlist.wires.len() < 2 {
        return None;
    }
    let record = netlist.parts.len() + random.below(netlist.wires.len() - 1);
    let mut records = netlist.records();
    records.swap(record, record + 1);
    let place = Some(offset(netlist, record + 1));
    Some(Damaged {
        file: records.concat(),
        number: WIRING,
        place,
    })
}

/// Adds a wire that is well formed, so that only the rule for ends can refuse the netlist.
fn add_wire(netlist: &Netlist, from: usize, to: usize) -> Option<Damaged> {
    let mut changed = netlist.clone();
    changed.wires.push((to as u16, from as u16));
    changed.wires.sort_unstable();
    Some(Damaged {
        file: changed.file(),
        number: ENDS,
        place: None,
    })
}

fn input_driven(random: &mut Random, netlist: &Netlist) -> Option<Damaged> {
    let to = any_part(random, netlist, |kind| kind == Kind::Input)?;
    if to == 0 {
        return None;
    }
    add_wire(netlist, random.below(to), to)
}

fn output_drives(random: &mut Random, netlist: &Netlist) -> Option<Damaged> {
    let from = any_part(random, netlist, |kind| kind == Kind::Output)?;
    let above = netlist.parts.len() - 1 - from;
    if above == 0 {
        return None;
    }
    add_wire(netlist, from, from + 1 + random.below(above))
}

/// Takes away all wires to or from one component.
fn wires_missing(random: &mut Random, netlist: &Netlist) -> Option<Damaged> {
    let part = random.below(netlist.parts.len()) as u16;
    let mut changed = netlist.clone();
    changed
        .wires
        .retain(|&(to, from)| to != part && from != part);
    Some(Damaged {
        file: changed.file(),
        number: ENDS,
        place: None,
    })
}
