//! How many calls were made, and how they ended.

use crate::call::Refusal;
use std::fmt;
use std::ops::Add;

/// The largest number of a refusal.
const LAST: usize = 17;

#[derive(Default)]
pub struct Tally {
    accepted: u64,
    refused: [u64; LAST + 1],
    /// Texts and lists of words on which no call was made, since the model has no answer to them or they are to be passed over.
    excepted: u64,
}

impl Tally {
    pub fn count<T>(&mut self, answer: &Result<T, Refusal>) {
        match answer {
            Ok(_) => self.accepted += 1,
            Err(refusal) => self.refused[*refusal as usize] += 1,
        }
    }

    pub fn except(&mut self) {
        self.excepted += 1;
    }

    pub fn calls(&self) -> u64 {
        self.accepted + self.refused.iter().sum::<u64>()
    }

    /// That calls were accepted, and each of these refusals was met.
    pub fn meets(&self, refusals: &[Refusal]) -> Result<(), String> {
        match refusals.iter().find(|refusal| self.refused[**refusal as usize] == 0) {
            _ if self.accepted == 0 => Err("no call was accepted".to_string()),
            Some(refusal) => Err(format!("no call was refused with {refusal}")),
            None => Ok(()),
        }
    }
}

impl Add for Tally {
    type Output = Tally;

    fn add(self, other: Tally) -> Tally {
        Tally {
            accepted: self.accepted + other.accepted,
            refused: std::array::from_fn(|i| self.refused[i] + other.refused[i]),
            excepted: self.excepted + other.excepted,
        }
    }
}

impl fmt::Display for Tally {
    fn fmt(&self, f: &mut fmt::Formatter<'_>) -> fmt::Result {
        write!(f, "{} calls, {} accepted; refused", self.calls(), self.accepted)?;
        let met = self.refused.iter().enumerate().filter(|(_, n)| **n > 0);
        met.enumerate().try_for_each(|(i, (refusal, n))| write!(f, "{} {refusal}: {n}", if i > 0 { "," } else { "" }))?;
        if self.excepted > 0 {
            write!(f, "; {} excepted", self.excepted)?;
        }
        Ok(())
    }
}
