//! The three circuits worked by hand.

use crate::netlist::Netlist;

pub fn a() -> Netlist {
    let mut netlist = Netlist::default();
    netlist.input(0);
    netlist.input(5);
    netlist.inner(3);
    netlist.output(2, 20);
    netlist.wire(0, 2);
    netlist.wire(1, 3);
    netlist.wire(2, 3);
    netlist
}

pub fn b(required: i32) -> Netlist {
    let mut netlist = Netlist::default();
    netlist.input(0);
    netlist.inner(4);
    netlist.output(6, required);
    netlist.wire(0, 1);
    netlist.wire(1, 2);
    netlist
}

pub fn c() -> Netlist {
    let mut netlist = Netlist::default();
    netlist.input(0);
    netlist.inner(1);
    netlist.inner(5);
    netlist.output(2, 10);
    netlist.wire(0, 1);
    netlist.wire(0, 2);
    netlist.wire(1, 3);
    netlist.wire(2, 3);
    netlist
}
