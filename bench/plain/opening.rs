//! Opening as one would write it in Rust, of a store that needs no repair: it is recovered, what stands on the log past its end
//! is cleared away, and the next checkpoint is put where the run starts.

use crate::log::{BLOCK_HEADER, BLOCK_SIZE, Device, RING_START, TAIL_BLOCK, TAIL_BLOCKS};
use crate::machine::parts::{DataPart, LogPart, put_checkpoint};
use crate::recovery::{PIECE, Pages, Recovered, place_of, recover};
use crate::store::Shape;

/// Bytes of the log device up to the end of its second header block.
const HEADS: usize = 3 * BLOCK_SIZE;
const ZEROS: [u8; PIECE] = [0; PIECE];

/// A store on which a run can start.
pub struct Opened {
    pub shape: Shape,
    pub start: u64,
    pub pages: Pages,
    pub log: LogPart<Device>,
    pub data: DataPart<Device>,
}

/// The opened store; none where it can't be read, or needs a repair.
pub fn open(mut log: Device, mut data: Device) -> Option<Opened> {
    let recovered = recover(&log, &data)?;
    let heads = log.read(0, HEADS);
    log.sync();
    data.sync();
    if heads[..BLOCK_SIZE] != heads[2 * BLOCK_SIZE..] || !is_whole(&recovered) {
        return None;
    }
    let Recovered {
        shape,
        number,
        ckpt,
        end,
        pages,
        ..
    } = recovered;
    let data = DataPart::new(data, shape);
    let start = start_after(end);
    clear(&mut log, &shape, ckpt, start);
    let block = start - BLOCK_HEADER as u64;
    put_checkpoint(&mut log, number + 1, block, place_of(block, &shape) as u64).ok()?;
    let log = LogPart::at(log, shape.ring_blocks as u64, start, number + 1);
    Some(Opened {
        shape,
        start,
        pages,
        log,
        data,
    })
}

/// Whether each page stands in its place as it was read, and the log ends with a full block.
fn is_whole(recovered: &Recovered) -> bool {
    let pages = recovered.pages.lsns.iter().zip(&recovered.found);
    let are_whole = |(lsn, (found, in_place)): (&u64, &(u64, bool))| lsn == found && *in_place;
    let last = recovered.views.last();
    pages.map(are_whole).all(|is_whole| is_whole)
        && last.is_none_or(|view| view.length == BLOCK_SIZE)
}

/// A run starts where the log ends, if that is where the data of a block begins, and else in the next block.
fn start_after(end: u64) -> u64 {
    let (size, header) = (BLOCK_SIZE as u64, BLOCK_HEADER as u64);
    if end % size == header {
        end
    } else {
        end / size * size + size + header
    }
}

/// Both tail blocks, and the places of all blocks but those from the checkpoint on up to the start, are filled with zeros.
fn clear(log: &mut Device, shape: &Shape, ckpt: u64, start: u64) {
    for tail in 0..TAIL_BLOCKS {
        log.write(BLOCK_SIZE * (TAIL_BLOCK + tail), &ZEROS[..BLOCK_SIZE]);
    }
    log.sync();
    let ring = BLOCK_SIZE * shape.ring_blocks;
    let mut lsn = start - BLOCK_HEADER as u64;
    let end = ckpt + ring as u64;
    while lsn < end {
        let at = place_of(lsn, shape);
        let count = PIECE.min(RING_START + ring - at).min((end - lsn) as usize);
        log.write(at, &ZEROS[..count]);
        lsn += count as u64;
    }
    log.sync();
}
