//! Fish, and the choice of the two that are compared.

use crate::failure::Failure;
use sigxume::{no_calls, record_words, write, Refusal};

/// A fish's number and its sequence, which the core has accepted.
pub struct Fish {
    pub id: u16,
    pub sequence: Vec<u32>,
    /// How many of its words are no-calls: counted once, as a fish may be compared with thousands.
    pub no_calls: usize,
}

impl Fish {
    pub fn new(id: u16, sequence: Vec<u32>) -> Self {
        let no_calls = no_calls(&sequence);
        Self {
            id,
            sequence,
            no_calls,
        }
    }

    /// How many of its words are called.
    pub fn calls(&self) -> usize {
        self.sequence.len() - self.no_calls
    }

    /// Its record, by the core's writer.
    pub fn record(&self) -> Result<Vec<u32>, Refusal> {
        let mut record = vec![0; record_words(self.sequence.len())];
        write(self.id, &self.sequence, &mut record)?;
        Ok(record)
    }
}

/// The pairs that are compared: those named, or the one of all that there are.
pub fn pairs<'a>(fish: &'a [Fish], named: &[[u16; 2]]) -> Result<Vec<[&'a Fish; 2]>, Failure> {
    match named {
        [] => Ok(vec![pair(fish, None)?]),
        _ => named.iter().map(|ids| pair(fish, Some(*ids))).collect(),
    }
}

/// The two that are compared: those named, or all that there are.
pub fn pair(fish: &[Fish], named: Option<[u16; 2]>) -> Result<[&Fish; 2], Failure> {
    match (named, fish) {
        (None, [first, second]) => Ok([first, second]),
        (None, [_]) => message("there is 1 fish: two are wanted".into()),
        (None, []) => message("there are 0 fish: two are wanted".into()),
        (None, _) => message(format!(
            "there are {} fish: name two of them by --fish A,B",
            fish.len()
        )),
        (Some([first, second]), _) if first == second => {
            let [first, second] = numbered(fish, first)?;
            Ok([first, second])
        }
        (Some([first, second]), _) => {
            let [first] = numbered(fish, first)?;
            let [second] = numbered(fish, second)?;
            Ok([first, second])
        }
    }
}

/// The fish with a number, of which there must be just so many.
fn numbered<const N: usize>(fish: &[Fish], id: u16) -> Result<[&Fish; N], Failure> {
    let found = Vec::from_iter(fish.iter().filter(|fish| fish.id == id));
    let times = match found.len() {
        0 => return message(format!("there is no fish {id}")),
        1 => "once".into(),
        count => format!("{count} times"),
    };
    let wanted = if N == 1 { "one is" } else { "two are" };
    <[&Fish; N]>::try_from(found)
        .or_else(|_| message(format!("fish {id} is there {times}: {wanted} wanted")))
}

fn message<T>(message: String) -> Result<T, Failure> {
    Err(Failure::Message(message))
}
