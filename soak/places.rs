//! Where a run in threads is made: on how many processors, and which of its threads are refused.

use crate::draws::Draws;

/// A run has a thread for each user and each other actor; the archiver and each follower have one more.
const MOST_THREADS: u64 = 22;

#[derive(Clone, Copy)]
pub struct Place {
    /// How many processors it has, from one of them on; all of them, if nothing.
    processors: Option<(u64, u64)>,
    refused: Refused,
}

#[derive(Clone, Copy, PartialEq)]
enum Refused {
    None,
    One(u64),
    All,
}

impl Place {
    pub fn draw(draws: &mut Draws, others: u64) -> Place {
        let count = draws.below(3);
        Place {
            processors: (count > 0).then(|| (draws.below(64), count)),
            refused: match draws.below(6) {
                0 => Refused::All,
                1 | 2 => Refused::One(draws.below(MOST_THREADS + others)),
                _ => Refused::None,
            },
        }
    }

    pub fn refuses(&self) -> bool {
        self.refused != Refused::None
    }

    pub fn is_narrow(&self) -> bool {
        self.processors.is_some()
    }

    /// The variables that `threads.c` reads.
    pub fn variables(&self) -> Vec<(&'static str, String)> {
        let mut variables = Vec::new();
        if let Some((first, count)) = self.processors {
            variables.push(("PROCESSORS", format!("{first} {count}")));
        }
        match self.refused {
            Refused::None => {}
            Refused::One(number) => variables.push(("REFUSED", number.to_string())),
            Refused::All => variables.push(("REFUSED", "all".to_string())),
        }
        variables
    }

    /// What it has in common with others.
    pub fn kind(&self) -> String {
        let processors = match self.processors {
            None => "all processors".to_string(),
            Some((_, 1)) => "one processor".to_string(),
            Some((_, count)) => format!("{count} processors"),
        };
        let refused = match self.refused {
            Refused::None => "no thread",
            Refused::One(_) => "one thread",
            Refused::All => "each thread",
        };
        format!("on {processors}, {refused} refused")
    }
}
