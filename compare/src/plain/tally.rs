//! How much work a judgement does. Counting is a type of its own, so that a judgement which is timed has no counter.

pub trait Tally {
    fn sweep(&mut self) {}

    fn connections(&mut self, _count: usize) {}
}

pub struct Uncounted;

impl Tally for Uncounted {}

#[derive(Default)]
pub struct Counted {
    pub sweeps: u64,
    pub connections: u64,
}

impl Tally for Counted {
    fn sweep(&mut self) {
        self.sweeps += 1;
    }

    fn connections(&mut self, count: usize) {
        self.connections += count as u64;
    }
}
