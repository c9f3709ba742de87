//! The output, through one buffer.
use crate::*;

pub static PAIRS: [u8; 200] = {
    let mut table = [0; 200];
    let mut k = 0;
    while k < 100 {
        table[2 * k] = b'0' + (k / 10) as u8;
        table[2 * k + 1] = b'0' + (k % 10) as u8;
        k += 1;
    }
    table
};

/// Writes a number so that it ends before `at`; answers where it begins.
#[inline(always)]
pub fn put<const N: usize>(line: &mut [u8; N], mut at: usize, mut value: u64) -> usize {
    while value >= 100 {
        let r = (value % 100) as usize * 2;
        value /= 100;
        at -= 2;
        line[at..at + 2].copy_from_slice(&PAIRS[r..r + 2]);
    }
    if value >= 10 {
        let r = value as usize * 2;
        at -= 2;
        line[at..at + 2].copy_from_slice(&PAIRS[r..r + 2]);
    } else {
        at -= 1;
        line[at] = b'0' + value as u8;
    }
    at
}

#[derive(Clone, Copy)]
pub struct Piece {
    pub job: u32,
    pub machine: u32,
    pub start: i64,
    pub stop: i64,
}

/// What is written, in pieces of a fixed size. A failure is kept until the end.
pub struct Text {
    pub out: io::Result<File>,
    pub buf: Vec<u8>,
}

pub const OUT: usize = 1 << 16;

impl Text {
    pub fn new() -> Text {
        let out = io::stdout().as_fd().try_clone_to_owned().map(File::from);
        Text {
            out,
            buf: Vec::with_capacity(OUT),
        }
    }

    pub fn answer(problem: &Problem, task: &Task, value: i64) -> Text {
        let mut text = Text::new();
        let (name, n, m) = (notation_text(problem), task.n, task.m);
        text.say(&format!(
            "answer 1\nproblem {name}\njobs {n}\nmachines {m}\nvalue {value}\n"
        ));
        text
    }

    #[inline(never)]
    pub fn flush(&mut self) {
        if let Ok(file) = &mut self.out {
            if let Err(fault) = file.write_all(&self.buf) {
                self.out = Err(fault);
            }
        }
        self.buf.clear();
    }

    #[inline(always)]
    pub fn push(&mut self, bytes: &[u8]) {
        if self.buf.len() + bytes.len() > OUT {
            self.flush();
        }
        self.buf.extend_from_slice(bytes);
    }

    /// One piece of the job with this index, on this machine from 1.
    #[inline(always)]
    pub fn piece(&mut self, j: usize, machine: usize, start: i64, stop: i64) {
        let mut line = [b' '; 64];
        line[63] = b'\n';
        let at = put(&mut line, 63, stop as u64);
        let at = put(&mut line, at - 1, start as u64);
        let at = put(&mut line, at - 1, machine as u64);
        let at = put(&mut line, at - 1, j as u64 + 1);
        line[at - 6..at - 1].copy_from_slice(b"piece");
        self.push(&line[at - 6..]);
    }

    /// A blank and the number of the job with this index.
    #[inline(always)]
    pub fn job(&mut self, j: usize) {
        let mut word = [b' '; 8];
        let at = put(&mut word, 8, j as u64 + 1);
        self.push(&word[at - 1..]);
    }

    pub fn marked(&mut self, marks: &[bool]) {
        for (j, &mark) in marks.iter().enumerate() {
            if mark {
                self.job(j);
            }
        }
    }

    pub fn say(&mut self, words: &str) {
        self.push(words.as_bytes());
    }

    pub fn end(mut self) -> Res<()> {
        self.flush();
        self.out.map(|_| ()).map_err(|_| Fault::Device)
    }

    pub fn end_answer(mut self) -> Res<()> {
        self.say("\nend\n");
        self.end()
    }
}

pub fn print(words: &str) -> Res<()> {
    let mut text = Text::new();
    text.say(words);
    text.end()
}
