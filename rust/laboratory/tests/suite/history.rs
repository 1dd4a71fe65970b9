//! Random files of lines.

use crate::rng::Rng;

/// What a history is like.
#[derive(Clone, Copy)]
pub struct Plan {
    pub blocks: usize,
    /// How many windows are opened.
    pub windows: usize,
    /// How many identifiers there are.
    pub names: usize,
    /// The most events of a window.
    pub events: usize,
    /// One window in so many is followed by a removal, and one by a flush.
    pub remove: usize,
    pub flush: usize,
    /// The most merge steps after a window.
    pub steps: usize,
}

/// A card of the command program's size, which comes to its end.
pub const SMALL: Plan = Plan {
    blocks: 16,
    windows: 50,
    names: 8,
    events: 7,
    remove: 3,
    flush: 3,
    steps: 3,
};

/// Many small partitions, and levels above 1.
pub const MANY: Plan = Plan {
    blocks: 64,
    windows: 120,
    names: 24,
    events: 8,
    remove: 3,
    flush: 1,
    steps: 4,
};

/// Full partitions: a merge's output has several blocks.
pub const FULL: Plan = Plan {
    blocks: 64,
    windows: 40,
    names: 64,
    events: 130,
    remove: 9,
    flush: 30,
    steps: 20,
};

/// A large card.
pub const LARGE: Plan = Plan {
    blocks: 200,
    windows: 120,
    names: 40,
    events: 14,
    remove: 3,
    flush: 1,
    steps: 6,
};

/// Its lines and its identifiers.
pub struct History {
    pub blocks: String,
    pub lines: Vec<Vec<u8>>,
    pub names: Vec<Vec<u8>>,
    rng: Rng,
}

impl History {
    pub fn new(plan: &Plan, seed: u64) -> Self {
        let mut rng = Rng(seed);
        let names = (0..plan.names).map(|place| name(place, &mut rng)).collect();
        let mut history = History {
            blocks: plan.blocks.to_string(),
            lines: Vec::new(),
            names,
            rng,
        };
        for window in 1..=plan.windows {
            history.window(plan, window);
        }
        history
    }

    /// The file's bytes.
    pub fn text(&self) -> Vec<u8> {
        text(&self.lines)
    }

    /// The numbers of the lines that begin with one of these letters; lines count from 1.
    pub fn lines_of(&self, letters: &[u8]) -> Vec<usize> {
        let lines = (1..).zip(&self.lines);
        let chosen = lines.filter(|(_, line)| line.first().is_some_and(|it| letters.contains(it)));
        chosen.map(|(number, _)| number).collect()
    }

    /// A window, and what comes between it and the next.
    fn window(&mut self, plan: &Plan, window: usize) {
        self.put("O");
        for _ in 0..=self.rng.below(plan.events) {
            let name = self.rng.pick(&self.names);
            self.lines.push([&b"E "[..], &name].concat());
            self.sometimes(6 * plan.events, "F");
            self.sometimes(60, "M");
        }
        self.sometimes(20, &format!("R {window}"));
        self.put("C");
        if self.rng.one_in(plan.remove) {
            let line = format!("R {}", 1 + self.rng.below(window));
            self.put(&line);
        }
        self.sometimes(plan.flush, "F");
        for _ in 0..self.rng.below(plan.steps + 1) {
            self.put("M");
        }
        if self.rng.one_in(6) {
            let query = self.query();
            self.lines.push(query);
        }
    }

    /// A query of one to five identifiers; one twice is refused.
    fn query(&mut self) -> Vec<u8> {
        let mut line = format!("Q {}", 1 + self.rng.below(32)).into_bytes();
        for _ in 0..=self.rng.below(5) {
            line.push(b' ');
            line.extend(self.rng.pick(&self.names));
        }
        line
    }

    fn put(&mut self, line: &str) {
        self.lines.push(line.as_bytes().to_vec());
    }

    fn sometimes(&mut self, times: usize, line: &str) {
        if self.rng.one_in(times) {
            self.put(line);
        }
    }
}

/// Lines as a file.
pub fn text(lines: &[Vec<u8>]) -> Vec<u8> {
    lines
        .iter()
        .flat_map(|line| [line, &b"\n"[..]].concat())
        .collect()
}

/// An identifier: every second one of any bytes but space and line feed. The number in front keeps them different.
fn name(place: usize, rng: &mut Rng) -> Vec<u8> {
    let number = place as u8 + b'!';
    let length = rng.pick(&[0, 3, 9, 15, 16, 40, 63]);
    let byte = |rng: &mut Rng| match place % 2 {
        0 => rng.pick(b"ABCDEFGHIJKLMNOPQRSTUVWXYZ-#\\"),
        _ => rng.pick(&[0, 9, 13, 31, 127, 128, 239, 255, b'\\', b'x', b'~']),
    };
    let rest: Vec<u8> = (0..length).map(|_| byte(rng)).collect();
    [&[number], &rest[..]].concat()
}
