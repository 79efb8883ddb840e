//! A circuit as judged: components, and who drives whom.

#[derive(Clone, Copy, Debug, PartialEq, Eq)]
pub enum Kind {
    Input,
    Inner,
    Output,
}

#[derive(Clone, Copy, Debug)]
pub struct Component {
    pub kind: Kind,
    pub base: i64,
    /// The arrival of an input, the required time of an output, 0 between.
    pub time: i64,
}

/// For each component a list of others, all lists in one vector.
#[derive(Debug)]
struct Links {
    starts: Vec<usize>,
    others: Vec<usize>,
}

impl Links {
    /// Groups (owner, other) pairs by owner; within a group the order of the pairs stays.
    fn group(count: usize, pairs: impl Iterator<Item = (usize, usize)> + Clone) -> Links {
        let mut starts = vec![0; count + 1];
        for (owner, _) in pairs.clone() {
            starts[owner + 1] += 1;
        }
        for owner in 0..count {
            starts[owner + 1] += starts[owner];
        }
        let mut others = vec![0; starts[count]];
        let mut next = starts.clone();
        for (owner, other) in pairs {
            others[next[owner]] = other;
            next[owner] += 1;
        }
        Links { starts, others }
    }

    fn of(&self, owner: usize) -> &[usize] {
        &self.others[self.starts[owner]..self.starts[owner + 1]]
    }
}

#[derive(Debug)]
pub struct Circuit {
    pub components: Vec<Component>,
    fan_in: Links,
    fan_out: Links,
}

impl Circuit {
    /// `wires` are (from, to) and rise by (to, from), so that every fan list rises too.
    pub(crate) fn new(components: Vec<Component>, wires: &[(usize, usize)]) -> Circuit {
        let count = components.len();
        let fan_in = Links::group(count, wires.iter().map(|&(from, to)| (to, from)));
        let fan_out = Links::group(count, wires.iter().copied());
        Circuit {
            components,
            fan_in,
            fan_out,
        }
    }

    pub fn len(&self) -> usize {
        self.components.len()
    }

    pub fn is_empty(&self) -> bool {
        self.components.is_empty()
    }

    pub fn is_input(&self, component: usize) -> bool {
        self.components[component].kind == Kind::Input
    }

    pub fn fan_in(&self, component: usize) -> &[usize] {
        self.fan_in.of(component)
    }

    pub fn fan_out(&self, component: usize) -> &[usize] {
        self.fan_out.of(component)
    }

    /// The components which take delay, in rising number.
    pub fn non_inputs(&self) -> impl Iterator<Item = usize> + '_ {
        (0..self.len()).filter(|&component| !self.is_input(component))
    }

    pub fn base_delays(&self) -> Vec<i64> {
        self.components
            .iter()
            .map(|component| component.base)
            .collect()
    }
}
