//! Charts.
use crate::*;

pub fn chart(pieces: &[Piece], machines: u32, columns: u64) -> Res<()> {
    let length = pieces.iter().map(|x| x.stop).max().unwrap_or(0) as u64;
    let width = length.min(columns);
    let time = |c: u64| {
        if length <= columns {
            c as i64
        } else {
            (c as u128 * length as u128 / columns as u128) as i64
        }
    };
    let mut text = Text::new();
    text.say(&format!("length {length}\n"));
    let mut k = 0;
    for machine in 1..=machines {
        text.say(&format!("machine {machine} |"));
        for c in 0..width {
            let t = time(c);
            while pieces
                .get(k)
                .is_some_and(|x| x.machine == machine && x.stop <= t)
            {
                k += 1;
            }
            text.push(match pieces.get(k) {
                Some(x) if x.machine == machine && x.start <= t => {
                    let place = x.job as usize % 36;
                    &b"0123456789abcdefghijklmnopqrstuvwxyz"[place..=place]
                }
                _ => b".",
            });
        }
        text.say("|\n");
        k += pieces[k..]
            .iter()
            .take_while(|x| x.machine == machine)
            .count();
    }
    text.end()
}
