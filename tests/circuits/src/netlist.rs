//! A netlist that can still be changed, and the file it makes.

#[derive(Clone, Copy, Debug, PartialEq, Eq)]
pub enum Kind {
    Input,
    Inner,
    Output,
}

#[derive(Clone, Copy, Debug)]
pub struct Part {
    pub kind: Kind,
    pub base: u32,
    pub time: i32,
}

#[derive(Clone, Debug, Default)]
pub struct Netlist {
    pub parts: Vec<Part>,
    /// (to, from), so that their own order is the order of the file.
    pub wires: Vec<(u16, u16)>,
}

impl Netlist {
    pub fn input(&mut self, arrival: i32) {
        self.parts.push(Part {
            kind: Kind::Input,
            base: 0,
            time: arrival,
        });
    }

    pub fn inner(&mut self, base: u32) {
        self.parts.push(Part {
            kind: Kind::Inner,
            base,
            time: 0,
        });
    }

    pub fn output(&mut self, base: u32, required: i32) {
        self.parts.push(Part {
            kind: Kind::Output,
            base,
            time: required,
        });
    }

    /// To be called in the order of the file.
    pub fn wire(&mut self, from: u16, to: u16) {
        self.wires.push((to, from));
    }

    pub fn non_inputs(&self) -> usize {
        self.parts
            .iter()
            .filter(|part| part.kind != Kind::Input)
            .count()
    }

    /// The file, record by record.
    pub fn records(&self) -> Vec<Vec<u8>> {
        let parts = self.parts.iter().map(component_record);
        let wires = self
            .wires
            .iter()
            .map(|&(to, from)| connection_record(from, to));
        parts.chain(wires).collect()
    }

    pub fn file(&self) -> Vec<u8> {
        self.records().concat()
    }
}

pub fn component_record(part: &Part) -> Vec<u8> {
    let mut record = vec![1, 0, 9, part.kind as u8];
    record.extend(part.base.to_be_bytes());
    record.extend(part.time.to_be_bytes());
    record
}

pub fn connection_record(from: u16, to: u16) -> Vec<u8> {
    let mut record = vec![2, 0, 4];
    record.extend(from.to_be_bytes());
    record.extend(to.to_be_bytes());
    record
}
