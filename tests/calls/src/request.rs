//! A call to make, and what it is lent. The bytes are those which the bridge describes.

use std::time::Duration;

use crate::bridge;
use crate::earlier;
use crate::Outcome;

/// What the bridge is to do with the call.
#[derive(Clone, Copy)]
enum Task {
    Make,
    Time,
    Stack,
}

#[derive(Clone, Copy, Debug)]
enum Call {
    Analyse,
    Budget,
    ReadBack,
    None,
}

#[derive(Clone, Copy)]
pub struct Request<'a> {
    call: Call,
    mode: u32,
    netlist: &'a [u8],
    result: &'a [u8],
    prior: &'a [u8],
    nulls: u8,
}

impl<'a> Request<'a> {
    pub fn analyse(netlist: &'a [u8], prior: &'a [u8]) -> Request<'a> {
        Request::new(Call::Analyse, netlist, prior)
    }

    pub fn budget(mode: u32, netlist: &'a [u8], prior: &'a [u8]) -> Request<'a> {
        Request {
            mode,
            ..Request::new(Call::Budget, netlist, prior)
        }
    }

    pub fn read_back(netlist: &'a [u8], result: &'a [u8], prior: &'a [u8]) -> Request<'a> {
        Request {
            result,
            ..Request::new(Call::ReadBack, netlist, prior)
        }
    }

    /// No call at all, to learn what a measurement costs by itself.
    pub fn none() -> Request<'static> {
        Request::new(Call::None, &[], &[])
    }

    fn new(call: Call, netlist: &'a [u8], prior: &'a [u8]) -> Request<'a> {
        Request {
            call,
            mode: 0,
            netlist,
            result: &[],
            prior,
            nulls: 0,
        }
    }

    /// Lends every empty slice as a null pointer.
    pub fn with_nulls(self) -> Request<'a> {
        let slices = [self.netlist, self.result, self.prior];
        let bits = slices.iter().zip([1, 2, 4]);
        let nulls = bits.map(|(slice, bit)| if slice.is_empty() { bit } else { 0 });
        Request {
            nulls: nulls.sum(),
            ..self
        }
    }

    pub fn make(&self) -> Outcome {
        self.carry_out(Task::Make, 1).0
    }

    /// Makes the call so many times, and says how long all of them took together.
    ///
    /// The buffer holds `prior` again before each call; putting it back takes no part in the time.
    pub fn make_timed(&self, repeats: u32) -> (Outcome, Duration) {
        let (outcome, measured) = self.carry_out(Task::Time, repeats);
        (outcome, Duration::from_nanos(measured))
    }

    /// Makes the call, and says how many bytes of stack it took.
    pub fn make_on_paint(&self) -> (Outcome, u64) {
        self.carry_out(Task::Stack, 1)
    }

    fn carry_out(&self, task: Task, repeats: u32) -> (Outcome, u64) {
        let what = || format!("{:?} on {} bytes", self.call, self.netlist.len());
        let request = self.bytes(task, repeats);
        let reply = bridge::ask(&request, self.prior.len(), what);
        if let Task::Make = task {
            earlier::compare(&request, &reply, what);
        }
        let outcome = Outcome {
            answer: reply.answer,
            contents: reply.contents,
            kept: reply.kept,
        };
        (outcome, reply.measured)
    }

    fn bytes(&self, task: Task, repeats: u32) -> Vec<u8> {
        let slices = [self.netlist, self.result, self.prior];
        let mut bytes = vec![self.call as u8, task as u8, self.nulls];
        bytes.extend(self.mode.to_be_bytes());
        bytes.extend(repeats.to_be_bytes());
        for slice in slices {
            bytes.extend((slice.len() as u32).to_be_bytes());
        }
        for slice in slices {
            bytes.extend_from_slice(slice);
        }
        bytes
    }
}
