//! Reads a script: its lines, or why it is refused, as docs/FORMATS.md says it.

use crate::calls::{Call, Path};

const MOST_BYTES: u64 = 65_536;
const MOST_LINE: usize = 140_000;
const MOST_SCRIPT: usize = 16_777_216;
const MOST_CALLS: usize = 1_000_000;
const MOST_TOTAL: u64 = 268_435_456;

/// A call with the number of its line. The lines of all workers are done in their order, so neither workers nor barriers
/// are kept.
pub struct Line<'a> {
    pub number: u32,
    pub call: Call<'a>,
}

/// Line, column and cause of a refusal.
pub struct Refused(pub u32, pub u32, pub &'static str);

type Read<T> = Result<T, (u32, &'static str)>;

/// What is left of a line's words.
struct Words<'a> {
    line: &'a [u8],
    at: usize,
}

impl<'a> Words<'a> {
    /// The next word with its column.
    fn next(&mut self) -> Option<(u32, &'a [u8])> {
        while self.line.get(self.at) == Some(&b' ') {
            self.at += 1;
        }
        let rest = &self.line[self.at..];
        if rest.is_empty() {
            return None;
        }
        let word = &rest[..rest
            .iter()
            .position(|byte| *byte == b' ')
            .unwrap_or(rest.len())];
        let column = self.at as u32 + 1;
        self.at += word.len();
        Some((column, word))
    }

    /// What the next word spells.
    fn read<T>(&mut self, spelled: impl Fn(&'a [u8]) -> Result<T, &'static str>) -> Read<T> {
        let (column, word) = self.next().ok_or((self.line.len() as u32 + 1, "missing"))?;
        spelled(word).map_err(|why| (column, why))
    }

    fn end(&mut self) -> Read<()> {
        self.next()
            .map_or(Ok(()), |(column, _)| Err((column, "extra")))
    }
}

fn path(word: &[u8]) -> Result<Path<'_>, &'static str> {
    let is_name = |name: &[u8]| !name.is_empty() && name != b"." && name != b"..";
    let is_path =
        word == b"/" || word[0] == b'/' && word[1..].split(|byte| *byte == b'/').all(is_name);
    if is_path {
        Ok(Path(word))
    } else {
        Err("path")
    }
}

/// The number that 1 to 19 digits spell, below 2^63.
pub fn number(word: &[u8]) -> Result<u64, &'static str> {
    if word.is_empty() || word.len() > 19 || !word.iter().all(u8::is_ascii_digit) {
        return Err("number");
    }
    let value = word
        .iter()
        .fold(0, |value, digit| value * 10 + u64::from(digit - b'0'));
    if value < 1 << 63 {
        Ok(value)
    } else {
        Err("number")
    }
}

fn length(word: &[u8]) -> Result<u32, &'static str> {
    let value = number(word)?;
    if value <= MOST_BYTES {
        Ok(value as u32)
    } else {
        Err("long")
    }
}

fn digit(byte: u8) -> Result<u8, &'static str> {
    match byte {
        b'0'..=b'9' => Ok(byte - b'0'),
        b'a'..=b'f' => Ok(byte - b'a' + 10),
        b'A'..=b'F' => Ok(byte - b'A' + 10),
        _ => Err("hex"),
    }
}

fn byte(word: &[u8]) -> Result<u8, &'static str> {
    match word {
        [high, low] => Ok(digit(*high)? << 4 | digit(*low)?),
        _ => Err("hex"),
    }
}

fn data(word: &[u8]) -> Result<Vec<u8>, &'static str> {
    if word == b"-" {
        return Ok(Vec::new());
    }
    if word.len() % 2 != 0 {
        return Err("hex");
    }
    let bytes = word
        .chunks_exact(2)
        .map(byte)
        .collect::<Result<Vec<u8>, _>>()?;
    if bytes.len() as u64 <= MOST_BYTES {
        Ok(bytes)
    } else {
        Err("long")
    }
}

fn worker(word: &[u8]) -> Result<(), &'static str> {
    if matches!(word, [b'0'..=b'7']) {
        Ok(())
    } else {
        Err("worker")
    }
}

fn call<'a>(words: &mut Words<'a>) -> Read<Call<'a>> {
    let (column, command) = words
        .next()
        .ok_or((words.line.len() as u32 + 1, "missing"))?;
    Ok(match command {
        b"mkdir" => Call::Mkdir(words.read(path)?),
        b"rmdir" => Call::Rmdir(words.read(path)?),
        b"create" => Call::Create(words.read(path)?),
        b"unlink" => Call::Unlink(words.read(path)?),
        b"rename" => Call::Rename(words.read(path)?, words.read(path)?),
        b"write" => Call::Write(words.read(path)?, words.read(number)?, words.read(data)?),
        b"fill" => Call::Fill(
            words.read(path)?,
            words.read(number)?,
            words.read(length)?,
            words.read(byte)?,
        ),
        b"read" => Call::Read(words.read(path)?, words.read(number)?, words.read(length)?),
        b"truncate" => Call::Truncate(words.read(path)?, words.read(number)?),
        b"stat" => Call::Stat(words.read(path)?),
        b"list" => Call::List(words.read(path)?),
        b"sync" => Call::Sync,
        b"clean" => Call::Clean,
        _ => return Err((column, "command")),
    })
}

/// The call of a line, if it has one.
fn says(line: &[u8]) -> Read<Option<Call<'_>>> {
    let line = line.strip_suffix(b"\r").unwrap_or(line);
    if line.len() > MOST_LINE {
        return Err((MOST_LINE as u32 + 1, "long"));
    }
    let mut words = Words { line, at: 0 };
    let Some((column, first)) = words.next() else {
        return Ok(None);
    };
    if first[0] == b'#' {
        return Ok(None);
    }
    if let Some(at) = line.iter().position(|byte| *byte < 0x20 || *byte == 0x7f) {
        return Err((at as u32 + 1, "byte"));
    }
    if first == b"barrier" {
        return words.end().map(|()| None);
    }
    worker(first).map_err(|why| (column, why))?;
    let call = call(&mut words)?;
    words.end()?;
    Ok(Some(call))
}

/// The lines of a script that have calls.
pub fn lines(script: &[u8]) -> Result<Vec<Line<'_>>, Refused> {
    if script.len() > MOST_SCRIPT {
        return Err(Refused(0, 0, "size"));
    }
    let (mut lines, mut total) = (Vec::new(), 0);
    let script = script.strip_suffix(b"\n").unwrap_or(script);
    for (place, line) in script.split(|byte| *byte == b'\n').enumerate() {
        let number = place as u32 + 1;
        let Some(call) = says(line).map_err(|(column, why)| Refused(number, column, why))? else {
            continue;
        };
        total += match &call {
            Call::Read(_, _, len) => u64::from(*len),
            Call::List(_) => MOST_BYTES,
            _ => 0,
        };
        if lines.len() == MOST_CALLS {
            return Err(Refused(number, 1, "lines"));
        }
        if total > MOST_TOTAL {
            return Err(Refused(number, 1, "total"));
        }
        lines.push(Line { number, call });
    }
    Ok(lines)
}
