//! An earlier library beside this one, where the environment names its bridge: the calls are made of
//! both, and have to leave the same. Without it nothing is compared.

use std::cell::{Cell, RefCell};
use std::env;

use crate::bridge::{stop, Bridge, Reply};

const VARIABLE: &str = "HOZBANTIR_EARLIER";

thread_local! {
    static EARLIER: RefCell<Option<Bridge>> = RefCell::new(start());
    static SAME: Cell<u64> = const { Cell::new(0) };
}

fn start() -> Option<Bridge> {
    env::var_os(VARIABLE).map(|_| Bridge::start(VARIABLE).unwrap_or_else(stop))
}

/// Makes the call of the earlier library too. One that leaves something else ends the tests.
pub fn compare(request: &[u8], reply: &Reply, what: impl Fn() -> String) {
    EARLIER.with_borrow_mut(|earlier| {
        let Some(bridge) = earlier else { return };
        if bridge.ask_for(request, reply.contents.len(), &what) != *reply {
            stop(format!(
                "the earlier library leaves something else at {}",
                what()
            ))
        }
        SAME.set(SAME.get() + 1);
    });
}

/// How many calls left the same, if there is an earlier library.
pub fn same() -> Option<u64> {
    EARLIER.with_borrow(|earlier| earlier.as_ref().map(|_| SAME.get()))
}
