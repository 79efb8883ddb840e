//! Judges a netlist file record by record, and makes the circuit of it.

use crate::answer::{number, Refusal};
use crate::circuit::{Circuit, Component, Kind};
use crate::ends;
use crate::limits;
use crate::records::{self, half, record_at, word, Record};

/// What the records read so far amount to.
#[derive(Default)]
struct Draft {
    components: Vec<Component>,
    /// (from, to)
    wires: Vec<(usize, usize)>,
}

/// The circuit of a netlist, or the first refusal in the fixed order.
pub fn decode(netlist: &[u8]) -> Result<Circuit, Refusal> {
    let mut draft = Draft::default();
    let mut offset = 0;
    while offset < netlist.len() {
        let refuse = |number| Refusal::new(number, offset);
        let record = record_at(netlist, offset).ok_or(refuse(number::BROKEN))?;
        draft.take(&record).map_err(refuse)?;
        offset = record.end;
    }
    if draft.components.is_empty() {
        return Err(Refusal::new(number::SIZE, netlist.len()));
    }
    let circuit = Circuit::new(draft.components, &draft.wires);
    ends::judge(&circuit)?;
    Ok(circuit)
}

impl Draft {
    /// Takes a record on, or says which number refuses it.
    fn take(&mut self, record: &Record) -> Result<(), u32> {
        match (record.tag, record.contents.len()) {
            (records::COMPONENT, 9) if self.wires.is_empty() => self.component(record.contents),
            (records::CONNECTION, 4) => self.connection(record.contents),
            _ => Err(number::TAG),
        }
    }

    fn component(&mut self, contents: &[u8]) -> Result<(), u32> {
        if self.components.len() == limits::COMPONENTS {
            return Err(number::SIZE);
        }
        self.components
            .push(component(contents).ok_or(number::FIELD)?);
        Ok(())
    }

    fn connection(&mut self, contents: &[u8]) -> Result<(), u32> {
        if self.wires.len() == limits::CONNECTIONS {
            return Err(number::SIZE);
        }
        let from = usize::from(half(contents, 0));
        let to = usize::from(half(contents, 2));
        let known = from < self.components.len() && to < self.components.len();
        let rising = self
            .wires
            .last()
            .is_none_or(|&(last, at)| (at, last) < (to, from));
        if !known || from >= to || !rising {
            return Err(number::WIRING);
        }
        self.wires.push((from, to));
        Ok(())
    }
}

/// The component of nine bytes, unless a field is outside the rules.
fn component(contents: &[u8]) -> Option<Component> {
    let kind = match contents[0] {
        0 => Kind::Input,
        1 => Kind::Inner,
        2 => Kind::Output,
        _ => return None,
    };
    let base = word(contents, 1);
    let time = word(contents, 5).cast_signed();
    let base_fits = base <= limits::BASE_DELAY && (kind != Kind::Input || base == 0);
    let time_fits = (-limits::TIME..=limits::TIME).contains(&time);
    if !base_fits || !time_fits || (kind == Kind::Inner && time != 0) {
        return None;
    }
    Some(Component {
        kind,
        base: i64::from(base),
        time: i64::from(time),
    })
}
