//! Empty slices: the null pointer with length 0 counts as an empty slice.

use calls::Request;
use circuits::worked;

use crate::checker::Checker;

pub fn check(checker: &mut Checker) {
    checker.group("null pointers with length 0", nulls);
    checker.group("empty netlist, empty result, empty buffer", empties);
}

fn nulls(checker: &mut Checker) {
    let a = worked::a().file();
    let result = calls::budget(1, &a, &[0; 36]).contents;
    let cases = [
        (Request::analyse(&[], &[]), 4, 0),
        (Request::analyse(&[], &[7; 16]), 4, 0),
        (Request::analyse(&a, &[]), 10, 4),
        (Request::budget(0, &[], &[]), 4, 0),
        (Request::budget(1, &[], &[7; 36]), 4, 0),
        (Request::budget(2, &[], &[]), 1, 0),
        (Request::budget(0, &a, &[]), 10, 36),
        (Request::read_back(&[], &[], &[]), 4, 0),
        (Request::read_back(&[], &result, &[7; 16]), 4, 0),
        (Request::read_back(&a, &[], &[]), 11, 0),
        (Request::read_back(&a, &[], &[7; 16]), 11, 0),
        (Request::read_back(&a, &result, &[]), 10, 4),
    ];
    for (request, number, place) in cases {
        let null = request.with_nulls().make();
        checker.expect("answer", null.answer, number << 32 | place);
        checker.expect("nothing changed", null.kept, true);
        // An empty slice between guards is the same to the call as none at all.
        checker.expect("same as an empty slice", null, request.make());
    }
}

fn empties(checker: &mut Checker) {
    let a = worked::a().file();
    for room in [0, 3, 4, 40] {
        checker.analyse(&[], room);
        checker.read_back(&[], &[], room);
        checker.read_back(&a, &[], room);
        for mode in [0, 1, 2, u32::MAX] {
            checker.budget(mode, &[], room);
        }
    }
    let missing = checker.read_back(&a, &[], 16);
    checker.expect("RESULT at 0", missing.answer, 11 << 32);
}
