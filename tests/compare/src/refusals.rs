//! Each refusal of a netlist with number and place written out by hand, and the order of refusals.

use circuits::{component_record, connection_record, worked, Kind, Netlist, Part};

use crate::checker::Checker;

const BROKEN: u64 = 2;
const TAG: u64 = 3;
const SIZE: u64 = 4;
const FIELD: u64 = 5;
const WIRING: u64 = 6;
const ENDS: u64 = 7;

pub fn check(checker: &mut Checker) {
    checker.group("netlists that end too soon", too_short);
    checker.group("tags and lengths", tags);
    checker.group("fields of components", fields);
    checker.group("wiring", wiring);
    checker.group("ends", ends);
    checker.group("numbers of components and connections", sizes);
    checker.group("order of the refusals", order);
}

/// All calls that judge a netlist must refuse it so.
pub fn refused(checker: &mut Checker, what: &str, netlist: &[u8], number: u64, place: u64) {
    let wanted = number << 32 | place;
    let analysed = checker.analyse(netlist, 8_192);
    checker.expect(what, analysed.answer, wanted);
    for mode in [0, 1] {
        let budgeted = checker.budget(mode, netlist, 16_384);
        checker.expect(what, budgeted.answer, wanted);
    }
    let read = checker.read_back(netlist, &[], 8_192);
    checker.expect(what, read.answer, wanted);
    // The netlist is judged before the room.
    let no_room = checker.analyse(netlist, 0);
    checker.expect(what, no_room.answer, wanted);
}

fn too_short(checker: &mut Checker) {
    refused(checker, "empty", &[], SIZE, 0);
    refused(checker, "one byte", &[1], BROKEN, 0);
    refused(checker, "two bytes", &[1, 0], BROKEN, 0);
    refused(checker, "head only", &[1, 0, 9], BROKEN, 0);
    refused(
        checker,
        "length past the end",
        &[1, 0, 9, 0, 0, 0, 0, 0, 0, 0, 0],
        BROKEN,
        0,
    );
    let a = worked::a().file();
    refused(checker, "last record cut", &a[..68], BROKEN, 62);
    refused(checker, "last head cut", &a[..64], BROKEN, 62);
    // Cut between records, it is whole, but component 2 drives nothing.
    refused(checker, "last record gone", &a[..62], ENDS, 2);
    refused(checker, "wires gone", &a[..48], ENDS, 0);
}

fn tags(checker: &mut Checker) {
    let records = worked::a().records();
    for (record, offset) in [(0, 0), (3, 36), (4, 48), (6, 62)] {
        for tag in [0, 3, 16, 17, 18, 255] {
            let mut changed = records.clone();
            changed[record][0] = tag;
            refused(checker, "tag", &changed.concat(), TAG, offset);
        }
        let mut longer = records.clone();
        longer[record].push(0);
        longer[record][2] += 1;
        refused(checker, "one longer", &longer.concat(), TAG, offset);
        let mut shorter = records.clone();
        shorter[record].pop();
        shorter[record][2] -= 1;
        refused(checker, "one shorter", &shorter.concat(), TAG, offset);
    }
    let mut late = records.clone();
    late.swap(3, 4);
    refused(
        checker,
        "component after a connection",
        &late.concat(),
        TAG,
        43,
    );
    refused(checker, "no contents", &[1, 0, 0], TAG, 0);
}

fn fields(checker: &mut Checker) {
    let with = |at: usize, byte: usize, value: &[u8]| {
        let mut records = worked::a().records();
        records[at][byte..byte + value.len()].copy_from_slice(value);
        records.concat()
    };
    for (at, offset) in [(0, 0), (1, 12), (2, 24), (3, 36)] {
        refused(checker, "kind 3", &with(at, 3, &[3]), FIELD, offset);
        refused(checker, "kind 255", &with(at, 3, &[255]), FIELD, offset);
        for base in [65_536_u32, 1 << 31, u32::MAX] {
            refused(
                checker,
                "base",
                &with(at, 4, &base.to_be_bytes()),
                FIELD,
                offset,
            );
        }
        for time in [100_000_001, -100_000_001, i32::MAX, i32::MIN] {
            refused(
                checker,
                "time",
                &with(at, 8, &time.to_be_bytes()),
                FIELD,
                offset,
            );
        }
    }
    refused(
        checker,
        "base of an input",
        &with(1, 4, &1_u32.to_be_bytes()),
        FIELD,
        12,
    );
    for time in [1, -1, 100_000_000_i32] {
        refused(
            checker,
            "time of an inner",
            &with(2, 8, &time.to_be_bytes()),
            FIELD,
            24,
        );
    }
}

fn wiring(checker: &mut Checker) {
    let with = |at: usize, from: u16, to: u16| {
        let mut records = worked::a().records();
        records[at] = connection_record(from, to);
        records.concat()
    };
    refused(checker, "to is no component", &with(6, 2, 4), WIRING, 62);
    refused(checker, "both are none", &with(6, 4, 5), WIRING, 62);
    refused(checker, "far beyond", &with(6, 0, 65_535), WIRING, 62);
    refused(checker, "from equals to", &with(6, 3, 3), WIRING, 62);
    refused(checker, "from above to", &with(4, 2, 0), WIRING, 48);
    refused(checker, "the same again", &with(6, 1, 3), WIRING, 62);
    refused(checker, "from falls", &with(6, 0, 3), WIRING, 62);
    refused(checker, "to falls", &with(5, 0, 1), WIRING, 55);
    refused(checker, "the next one falls", &with(4, 2, 3), WIRING, 55);
    refused(
        checker,
        "no component yet",
        &connection_record(0, 1),
        WIRING,
        0,
    );
}

fn ends(checker: &mut Checker) {
    let changed = |change: &dyn Fn(&mut Netlist)| {
        let mut netlist = worked::a();
        change(&mut netlist);
        netlist.file()
    };
    let driven = changed(&|netlist| netlist.wires.insert(0, (1, 0)));
    refused(checker, "input with fan-in", &driven, ENDS, 1);
    let idle = changed(&|netlist| netlist.wires.retain(|&wire| wire != (3, 1)));
    refused(checker, "input without fan-out", &idle, ENDS, 1);
    let free = changed(&|netlist| netlist.wires[0] = (3, 0));
    refused(checker, "inner without fan-in", &free, ENDS, 2);
    let open = changed(&|netlist| netlist.wires.retain(|&wire| wire != (3, 2)));
    refused(checker, "inner without fan-out", &open, ENDS, 2);
    let driving = changed(&|netlist| netlist.parts[2].kind = Kind::Output);
    refused(checker, "output with fan-out", &driving, ENDS, 2);
    let lone = Netlist {
        parts: vec![Part {
            kind: Kind::Output,
            base: 0,
            time: 0,
        }],
        wires: vec![],
    };
    refused(checker, "output without fan-in", &lone.file(), ENDS, 0);
    let never = changed(&|netlist| {
        netlist.parts[3] = Part {
            kind: Kind::Inner,
            base: 2,
            time: 0,
        }
    });
    refused(checker, "inner at the end", &never, ENDS, 3);
}

/// One input, and so many outputs that it drives.
pub fn star(outputs: usize) -> Netlist {
    let mut netlist = Netlist::default();
    netlist.input(0);
    for output in 1..=outputs {
        netlist.output(0, output as i32);
        netlist.wire(0, output as u16);
    }
    netlist
}

/// 1,024 components, all but the first driven by the first four, as far as they lie below.
pub fn most_connections() -> Netlist {
    let mut netlist = Netlist::default();
    for _ in 0..8 {
        netlist.input(0);
    }
    for _ in 8..1_024 {
        netlist.output(65_535, 100_000_000);
    }
    let pairs = (8..1_024).flat_map(|to| (0..8).map(move |from| (to, from)));
    netlist.wires = pairs.filter(|&(to, from)| (to + from) % 2 == 0).collect();
    // 4,064 so far; the rest goes to the first outputs.
    let rest = (8..1_024).flat_map(|to| (0..8).map(move |from| (to, from)));
    netlist
        .wires
        .extend(rest.filter(|&(to, from)| (to + from) % 2 == 1).take(32));
    netlist.wires.sort_unstable();
    netlist
}

fn sizes(checker: &mut Checker) {
    let taken = checker.analyse(&star(1_023).file(), 4_096);
    checker.expect("1,024 components", taken.answer, 1_024);
    refused(
        checker,
        "1,025 components",
        &star(1_024).file(),
        SIZE,
        12 * 1_024,
    );
    let most = most_connections();
    checker.expect("wires", most.wires.len(), 4_096);
    let taken = checker.analyse(&most.file(), 4_096);
    checker.expect("4,096 connections", taken.answer, 1_024);
    let budgeted = checker.budget(0, &most.file(), 16_384);
    checker.expect("its budget", budgeted.answer, 10 + 13 * 1_016);
    let mut more = most.file();
    more.extend(connection_record(7, 1_023));
    refused(
        checker,
        "4,097 connections",
        &more,
        SIZE,
        12 * 1_024 + 7 * 4_096,
    );
}

fn order(checker: &mut Checker) {
    let mode = checker.budget(2, &[], 0);
    checker.expect("MODE before all", mode.answer, 1 << 32);
    let crowd = Part {
        kind: Kind::Input,
        base: 9,
        time: 0,
    };
    let mut records: Vec<Vec<u8>> = star(1_023).records()[..1_024].to_vec();
    records.push(component_record(&crowd));
    refused(
        checker,
        "SIZE before FIELD",
        &records.concat(),
        SIZE,
        12_288,
    );
    records[1_024][2] = 10;
    refused(
        checker,
        "BROKEN before SIZE",
        &records.concat(),
        BROKEN,
        12_288,
    );
    records[1_024].push(0);
    refused(checker, "TAG before SIZE", &records.concat(), TAG, 12_288);
    let mut most = most_connections().file();
    most.extend(connection_record(9, 2));
    refused(checker, "SIZE before WIRING", &most, SIZE, 40_960);
    refused(checker, "BROKEN before TAG", &[99, 0, 1], BROKEN, 0);
    let mut two_faults = worked::a().records();
    two_faults[1][3] = 9;
    two_faults[0][0] = 7;
    refused(checker, "the first record", &two_faults.concat(), TAG, 0);
    let late = checker.budget(0, &worked::b(9).file(), 0);
    checker.expect("LATE before ROOM", late.answer, 8 << 32 | 2);
}
