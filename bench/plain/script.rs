//! Scripts as the proved program reads them: the lines of a text, or the number of the first bad one.

pub enum Item {
    Num {
        width: u32,
        page: u32,
        offset: u32,
        value: u64,
    },
    Text {
        page: u32,
        offset: u32,
        bytes: Vec<u8>,
    },
    Init {
        page: u32,
    },
}

pub struct ScriptLine {
    pub user: u32,
    pub mode: u32,
    pub items: Vec<Item>,
}

/// The script that the text is, or the number of its first bad line.
pub fn parse(text: &[u8]) -> Result<Vec<ScriptLine>, u64> {
    let mut script = Vec::new();
    let body = text.strip_suffix(b"\n").unwrap_or(text);
    for (number, line) in (1u64..).zip(body.split(|byte| *byte == b'\n')) {
        let line = line.strip_suffix(b"\r").unwrap_or(line);
        if !line.is_empty() && line[0] != b'#' {
            script.push(read_line(line).ok_or(number)?);
        }
    }
    Ok(script)
}

fn read_line(text: &[u8]) -> Option<ScriptLine> {
    let mut operations = text.split(|byte| *byte == b';');
    let (user, words) = cut(operations.next()?)?;
    let (mode, first) = cut(words)?;
    let user = number_up_to(user, u64::from(u32::MAX))? as u32;
    let mode = match mode {
        b"f" => 1,
        b"w" => 2,
        b"n" => 0,
        _ => return None,
    };
    let mut items = vec![read_item(first)?];
    for operation in operations {
        items.push(read_item(operation)?);
    }
    Some(ScriptLine { user, mode, items })
}

/// What stands before the first space, and what after it.
fn cut(text: &[u8]) -> Option<(&[u8], &[u8])> {
    let at = text.iter().position(|byte| *byte == b' ')?;
    Some((&text[..at], &text[at + 1..]))
}

fn read_item(text: &[u8]) -> Option<Item> {
    let (name, words) = cut(text)?;
    if name == b"i" {
        let page = read_page(words)?;
        return Some(Item::Init { page });
    }
    let (page, words) = cut(words)?;
    let (offset, value) = cut(words)?;
    let page = read_page(page)?;
    let offset = number_up_to(offset, 0xFFFF)? as u32;
    if name == b"s" {
        let bytes = hex_bytes(value)?;
        return Some(Item::Text {
            page,
            offset,
            bytes,
        });
    }
    let (width, max) = match name {
        b"b1" => (1, 0xFF),
        b"b2" => (2, 0xFFFF),
        b"b4" => (4, 0xFFFF_FFFF),
        b"b8" => (8, u64::MAX),
        _ => return None,
    };
    let value = number_up_to(value, max)?;
    Some(Item::Num {
        width,
        page,
        offset,
        value,
    })
}

fn read_page(text: &[u8]) -> Option<u32> {
    Some(number_up_to(text, u64::from(u32::MAX))? as u32)
}

/// The number that the text is, of 1 to 20 digits and without a sign, if it is at most this.
fn number_up_to(text: &[u8], max: u64) -> Option<u64> {
    if text.is_empty() || text.len() > 20 {
        return None;
    }
    let mut value = 0u64;
    for byte in text {
        if !byte.is_ascii_digit() {
            return None;
        }
        value = value.checked_mul(10)?.checked_add(u64::from(byte - b'0'))?;
    }
    (value <= max).then_some(value)
}

fn hex_bytes(text: &[u8]) -> Option<Vec<u8>> {
    if text.is_empty() || !text.len().is_multiple_of(2) {
        return None;
    }
    let pairs = text.chunks_exact(2);
    pairs
        .map(|pair| Some(hex_digit(pair[0])? << 4 | hex_digit(pair[1])?))
        .collect()
}

fn hex_digit(byte: u8) -> Option<u8> {
    match byte {
        b'0'..=b'9' => Some(byte - b'0'),
        b'a'..=b'f' => Some(byte - b'a' + 10),
        b'A'..=b'F' => Some(byte - b'A' + 10),
        _ => None,
    }
}
