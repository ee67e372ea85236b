//! What formatting does to the head of the log device.

use crate::crc::fits_sector;
use crate::events::{Event, LOG, What, synced, writes_of};

/// What the events since a cut have done to the heads.
pub struct Heads {
    /// The new head may stand in the first block.
    pub may_be_new: bool,
    /// The new head stands there for good.
    pub is_new: bool,
    /// The head that stood there before stands there still.
    is_old: bool,
}

impl Heads {
    /// The log device held these bytes before.
    pub fn of(events: &[Event], before: &[u8]) -> Heads {
        let is_head = |event: &Event| match &event.what {
            What::Write(write) => {
                event.device == LOG
                    && write.at == 0
                    && write.bytes[..512].iter().any(|byte| *byte != 0)
            }
            _ => false,
        };
        let first = before.get(..512);
        Heads {
            may_be_new: events.iter().any(is_head),
            is_new: events[..synced(events, LOG)].iter().any(is_head),
            is_old: first.is_some_and(fits_sector)
                && !writes_of(events, LOG).any(|write| write.at == 0),
        }
    }

    /// There is no store, over which a store was, or not.
    pub fn allow_none(&self, was_store: bool) -> Result<(), String> {
        if self.is_new || was_store && self.is_old {
            Err("the store is gone".to_string())
        } else {
            Ok(())
        }
    }

    pub fn allow_new(&self) -> Result<(), String> {
        if self.may_be_new {
            Ok(())
        } else {
            Err("a store that isn't there yet".to_string())
        }
    }
}
