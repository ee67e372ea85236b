//! Whether `recover` and `dump` print what is known of a store.

use crate::checking::{Logged, Store};
use crate::lsn::{BLOCK, BLOCK_HEADER, block_of};
use std::collections::HashMap;
use std::fmt::Write;

/// What `recover` printed: the number of groups, the log's end, and the lines of the pages.
pub struct Read<'a> {
    pub count: usize,
    pub end: u64,
    pub pages: &'a str,
}

pub fn read_of(text: &str) -> Result<Read<'_>, String> {
    let (line, pages) = text.split_once('\n').ok_or("no line of `recover`")?;
    let words: Vec<&str> = line.split(' ').collect();
    let ["read", count, end] = words[..] else {
        return Err(format!("no line of `recover`: {line}"));
    };
    let count = count.parse().map_err(|_| "no count")?;
    let end = end.parse().map_err(|_| "no end")?;
    let read = Read { count, end, pages };
    if format!("read {count} {end}\n{pages}") == text {
        Ok(read)
    } else {
        Err("`recover` isn't laid out as it is".to_string())
    }
}

pub fn check_recover(store: &Store, read: &Read, groups: usize) -> Result<(), String> {
    if read.end != store.end {
        return Err(format!(
            "`recover` reads up to {}, and not {}",
            read.end, store.end
        ));
    }
    if read.pages != store.pages.lines() {
        return Err("`recover` prints other pages".to_string());
    }
    if read.count != groups {
        return Err(format!(
            "`recover` counts {} groups, and `dump` {groups}",
            read.count
        ));
    }
    Ok(())
}

/// A block as `dump` lists it.
struct Block {
    lsn: u64,
    number: u64,
    length: u64,
    first: u64,
    checkpoint: u64,
}

/// Checks what `dump` prints of a store of this format, and says how many groups it lists.
pub fn check_dump(store: &mut Store, format: u64, text: &str) -> Result<usize, String> {
    let mut lines = text.split_inclusive('\n').peekable();
    let shape = &store.shape;
    let wanted = format!(
        "store {} {} {} {} {}\n",
        shape.page_size, shape.pages, shape.space, shape.log_blocks, shape.slots
    );
    if lines.next() != Some(&wanted) {
        return Err(format!("`dump` should begin with {wanted}"));
    }
    let [number, checkpoint] = numbers(lines.next(), "checkpoint")?;
    if !checkpoint.is_multiple_of(BLOCK) || checkpoint < store.checkpoint || store.end < checkpoint
    {
        return Err(format!("a checkpoint at {checkpoint}"));
    }
    store.checkpoint = checkpoint;
    let mut blocks = Vec::new();
    while lines.peek().is_some_and(|line| line.starts_with("block ")) {
        let [lsn, place, length, first, checkpoint] = numbers(lines.next(), "block")?;
        blocks.push(Block {
            lsn,
            number: place,
            length,
            first,
            checkpoint,
        });
    }
    check_blocks(store, format, &blocks, number)?;
    let listed: Vec<&Logged> = store
        .log
        .iter()
        .filter(|logged| checkpoint <= logged.start)
        .collect();
    let rest: String = lines.collect();
    if rest == groups_text(&listed, store.end) {
        Ok(listed.len())
    } else {
        Err("`dump` lists other groups".to_string())
    }
}

/// The numbers after the name of a line.
fn numbers<const N: usize>(line: Option<&str>, name: &str) -> Result<[u64; N], String> {
    let line = line.ok_or("`dump` ends too soon")?;
    let words = line.strip_suffix('\n').unwrap_or(line).split(' ');
    let found: Option<Vec<u64>> = words
        .clone()
        .skip(1)
        .map(|word| word.parse().ok())
        .collect();
    let found: Option<[u64; N]> = found.and_then(|found| found.try_into().ok());
    match found {
        Some(found) if words.clone().next() == Some(name) => Ok(found),
        _ => Err(format!("no line `{name}`: {line}")),
    }
}

fn groups_text(listed: &[&Logged], end: u64) -> String {
    let mut text = String::new();
    for Logged { start, end, ops } in listed {
        writeln!(text, "group {start} {end} {}", ops.len()).unwrap();
        for op in ops {
            writeln!(text, "rec {op}").unwrap();
        }
    }
    writeln!(text, "end {end}").unwrap();
    text
}

/// Where the first group of a block starts, by block: the place after a group that came from the block before, or a run's
/// start.
fn firsts(store: &Store) -> HashMap<u64, u64> {
    let mut firsts = HashMap::new();
    for start in &store.starts {
        firsts.insert(block_of(*start), BLOCK_HEADER);
    }
    for Logged { start, end, .. } in &store.log {
        if block_of(*start) != block_of(*end) {
            firsts.insert(block_of(*end), end % BLOCK);
        }
    }
    firsts
}

fn check_blocks(store: &Store, format: u64, blocks: &[Block], number: u64) -> Result<(), String> {
    let firsts = firsts(store);
    // a tail block tells how often the numbers went round, and no checkpoint
    let is_tail = |block: &Block| format != 1 && block.length != BLOCK;
    let mut lsn = store.checkpoint;
    let mut newest = 0;
    for (place, block) in blocks.iter().enumerate() {
        let is_last = place + 1 == blocks.len();
        let first = firsts.get(&block.lsn).copied().unwrap_or(0);
        let is_block = block.lsn == lsn
            && block.number == lsn / BLOCK % (1 << 30) + 1
            && (block.length == BLOCK || is_last && (BLOCK_HEADER..508).contains(&block.length))
            && block.first == first
            && if is_tail(block) {
                block.checkpoint == lsn >> 39
            } else {
                (newest..=number).contains(&block.checkpoint)
            };
        if !is_block {
            return Err(format!(
                "`dump` lists a block at {} that isn't there",
                block.lsn
            ));
        }
        newest = block.checkpoint;
        lsn += BLOCK;
    }
    match blocks.last() {
        None if store.end == store.checkpoint + BLOCK_HEADER => Ok(()),
        Some(last) if store.end <= end_of(last) => Ok(()),
        _ => Err("`dump` lists no block of the log's end".to_string()),
    }
}

/// Where the data of a block ends.
fn end_of(block: &Block) -> u64 {
    if block.length == BLOCK {
        block.lsn + BLOCK + BLOCK_HEADER
    } else {
        block.lsn + block.length
    }
}
