//! The input, in large pieces.
use crate::*;

/// An input that is read in chunks. `buf[..ready]` holds whole lines (or whole words) and ends
/// with white space; `buf[ready..filled]` is the beginning of the next one.
pub struct Source {
    pub from: Box<dyn Read>,
    pub buf: Vec<u8>,
    pub ready: usize,
    pub filled: usize,
    pub total: usize,
    pub lines: usize,
    pub end: bool,
}

impl Source {
    pub fn open(name: &OsString) -> Res<Source> {
        let from: Box<dyn Read> = if name == "-" {
            Box::new(io::stdin().lock())
        } else {
            Box::new(File::open(name).map_err(|_| Fault::Device)?)
        };
        Ok(Source {
            from,
            buf: Vec::new(),
            ready: 0,
            filled: 0,
            total: 0,
            lines: 0,
            end: false,
        })
    }

    pub fn pull(&mut self) -> Res<usize> {
        let room = (self.buf.len() - 1 - self.filled).min(MAX_INPUT + 1 - self.total);
        let got = self
            .from
            .read(&mut self.buf[self.filled..self.filled + room])
            .map_err(|_| Fault::Device)?;
        self.filled += got;
        self.total += got;
        if self.total > MAX_INPUT {
            return refused("TooLong");
        }
        Ok(got)
    }

    /// Drops the ready part and makes the next one; false at the end of the text.
    pub fn more(&mut self, boundary: fn(u8) -> bool) -> Res<bool> {
        self.lines += count_lines(&self.buf[..self.ready]);
        self.buf.copy_within(self.ready..self.filled, 0);
        self.filled -= self.ready;
        self.ready = 0;
        if self.buf.is_empty() {
            self.buf.resize(CHUNK, 0);
        }
        loop {
            if self.end {
                if self.filled == 0 {
                    return Ok(false);
                }
                self.buf[self.filled] = b'\n';
                self.filled += 1;
                self.ready = self.filled;
                return Ok(true);
            }
            if self.filled + 1 == self.buf.len() {
                self.buf.resize(self.buf.len() * 2, 0);
            }
            let old = self.filled;
            if self.pull()? == 0 {
                self.end = true;
                continue;
            }
            let new = &self.buf[old..self.filled];
            if let Some(k) = new.iter().rposition(|&b| boundary(b)) {
                self.ready = old + k + 1;
                return Ok(true);
            }
        }
    }

    /// Reads to the end, so that an input that is too long is refused before all else.
    pub fn drain(&mut self) -> Res<()> {
        if self.buf.is_empty() {
            self.buf.resize(CHUNK, 0);
        }
        while !self.end {
            self.filled = 0;
            self.end = self.pull()? == 0;
        }
        Ok(())
    }

    pub fn text(&self) -> &[u8] {
        &self.buf[..self.ready]
    }

    /// The line of the byte at this place of the ready part, where lines aren't counted otherwise.
    pub fn line_at(&self, at: usize) -> usize {
        self.lines + count_lines(&self.buf[..at]) + 1
    }

    /// The next line's bounds in the ready part, without its line feed.
    pub fn next_line(&mut self, at: usize) -> Res<Option<(usize, usize)>> {
        let start = if at == self.ready {
            if !self.more(is_feed)? {
                return Ok(None);
            }
            0
        } else {
            at
        };
        Ok(Some((start, line_end(&self.buf[..self.ready], start))))
    }
}

/// Runs a reader and reads what is left, whatever it answered.
pub fn reading<T>(source: &mut Source, read: impl FnOnce(&mut Source) -> Res<T>) -> Res<T> {
    match read(source) {
        Err(Fault::Device) => Err(Fault::Device),
        result => {
            source.drain()?;
            result
        }
    }
}

pub fn count_lines(text: &[u8]) -> usize {
    text.chunks(192)
        .map(|c| c.iter().map(|&b| (b == b'\n') as u8).sum::<u8>() as usize)
        .sum()
}

/// The place of the next line feed; the ready part of a source always has one.
#[inline]
pub fn line_end(text: &[u8], start: usize) -> usize {
    let mut rest = &text[start..];
    let _ = rest.skip_until(b'\n');
    text.len() - rest.len() - 1
}

#[inline(always)]
pub fn is_space(b: u8) -> bool {
    b == b' ' || b == b'\n' || b == b'\t' || b == b'\r'
}

pub fn is_feed(b: u8) -> bool {
    b == b'\n'
}

pub fn is_boundary(b: u8) -> bool {
    is_space(b)
}

pub fn words(line: &[u8]) -> impl Iterator<Item = &[u8]> {
    line.split(|&b| is_space(b)).filter(|w| !w.is_empty())
}

/// The first byte at or after `at` that isn't white space.
#[inline(always)]
pub fn skip_space(text: &[u8], mut at: usize) -> usize {
    while at < text.len() && is_space(text[at]) {
        at += 1;
    }
    at
}
