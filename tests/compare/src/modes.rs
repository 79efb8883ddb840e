//! Modes that are none, among them those which lose their upper bytes to 0 or 1.

use circuits::worked;

use crate::checker::Checker;

pub fn check(checker: &mut Checker) {
    checker.group(
        "modes from 2 up, and around every power of two",
        |checker| {
            let powers = (1..32).map(|power| 1_u32 << power);
            let around = powers.flat_map(|power| [power, power + 1, power.wrapping_neg()]);
            for mode in (2..=300).chain(around).chain([u32::MAX]) {
                let good = checker.budget(mode, &worked::a().file(), 36);
                checker.expect("MODE at 0", good.answer, 1 << 32);
                let empty = checker.budget(mode, &[], 0);
                checker.expect("MODE before the netlist", empty.answer, 1 << 32);
            }
        },
    );
}
