// Scripts that are made of a number.

use crate::script::{Command, Declared, Kind, Range, Script};

// The pseudorandom numbers of PCG XSH RR 64/32.
struct Words {
    state: u64,
    step: u64,
}

const FACTOR: u64 = 6364136223846793005;

fn spelled(state: u64) -> u32 {
    ((((state >> 18) ^ state) >> 27) as u32).rotate_right((state >> 59) as u32)
}

impl Words {
    fn new(number: u64) -> Words {
        let mut drawn = number;
        let mut word = || {
            drawn = drawn.wrapping_mul(FACTOR).wrapping_add(11634580027462260723);
            u64::from(spelled(drawn))
        };
        let state = word() | word() << 32;
        let step = (word() | word() << 32) | 1;
        let state = state.wrapping_add(step).wrapping_mul(FACTOR).wrapping_add(step);
        Words { state, step }
    }

    fn below(&mut self, limit: u32) -> u64 {
        let word = spelled(self.state);
        self.state = self.state.wrapping_mul(FACTOR).wrapping_add(self.step);
        u64::from(word % limit)
    }
}

pub fn make_script(number: u64, lines: u32) -> Script {
    let mut commands: Vec<Command> = Vec::new();
    commands.extend((0..6).map(|task| Command::Task { task, host: (task % 3) as u8 }));
    commands.extend((0..6).map(|task| Command::Map { task, range: Range { address: 0, bytes: 256 }, object: 0, offset: 0 }));
    commands.extend((0..6).map(|task| Command::Allocate { task, range: Range { address: 4096, bytes: 256 } }));
    let mut words = Words::new(number);
    commands.extend((0..lines).map(|_| drawn(&mut words)));
    commands.push(Command::Settle { count: 1_000_000 });
    Script {
        size: 64,
        slots: 512,
        frames: vec![8; 3],
        objects: vec![Declared { name: "a".into(), kind: Kind::Shared, pages: 4 }],
        commands: (5..).zip(commands).collect(),
        wild: None,
    }
}

fn drawn(words: &mut Words) -> Command {
    let (kind, task, at, value) = (words.below(16), words.below(16) as u16, words.below(64), words.below(256));
    let address = if (6..=9).contains(&kind) { 4096 + 4 * at } else { 4 * at };
    let child = 6 + (at % 10) as u16;
    match kind {
        0..=2 | 6 | 7 => Command::Load { task, address, size: 4 },
        3..=5 | 8 | 9 => Command::Store { task, address, size: 4, value },
        10 => Command::Pageout { host: (task % 3) as u8, count: 2 },
        11 => Command::Fork { task, child },
        12 => Command::Exit { task: child },
        13 => {
            let range = Range { address: if value % 2 == 0 { 4096 } else { 0 }, bytes: 256 };
            Command::Copy { task, range, target: task, to: 8192 + 256 * at as u32 }
        }
        _ => Command::Settle { count: 5 },
    }
}
