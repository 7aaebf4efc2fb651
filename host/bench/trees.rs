//! Trees from fixed seeds, so that every run measures the same: wide ones of a few levels, deep ones down to level 63.

pub const NAMES: [&str; 8] = ["S", "NP", "VP", "PP", "NN", "DT", "VBD", "JJ"];

/// A sentence, and its table with labels numbered by their places in `NAMES`.
pub struct Tree {
    pub text: Vec<u8>,
    pub post: Vec<u16>,
    pub label: Vec<u16>,
}

/// splitmix64
pub struct Random(pub u64);

impl Random {
    pub fn below(&mut self, n: usize) -> usize {
        self.0 = self.0.wrapping_add(0x9e37_79b9_7f4a_7c15);
        let mut z = self.0;
        z = (z ^ (z >> 30)).wrapping_mul(0xbf58_476d_1ce4_e5b9);
        z = (z ^ (z >> 27)).wrapping_mul(0x94d0_49bb_1331_11eb);
        ((z ^ (z >> 31)) % n as u64) as usize
    }
}

/// The level of each row: at most one more than the row before has.
fn levels(rows: usize, deep: bool, random: &mut Random) -> Vec<usize> {
    let mut levels = vec![0];
    while levels.len() < rows {
        let last = levels[levels.len() - 1];
        levels.push(if deep {
            match random.below(4) {
                0 => last.max(1),
                1 if last == 63 => 1 + random.below(63),
                _ => (last + 1).min(63),
            }
        } else {
            match random.below(4) {
                0 => (last + 1).min(4),
                1 => 1 + random.below(last.max(1)),
                _ => last.max(1),
            }
        });
    }
    levels
}

pub fn tree(rows: usize, deep: bool, seed: u64) -> Tree {
    let mut random = Random(seed);
    let levels = levels(rows, deep, &mut random);
    let mut tree = Tree { text: Vec::new(), post: vec![0; rows], label: Vec::new() };
    let mut open: Vec<usize> = Vec::new();
    for row in 0..=rows {
        let level = levels.get(row).copied().unwrap_or(0);
        while open.len() > level {
            let done = open.pop().unwrap();
            // its row number, plus the rows below it, minus its level
            tree.post[done] = (row - 1 - levels[done]) as u16;
            tree.text.push(b')');
        }
        if row == rows {
            break;
        }
        let leaf = levels.get(row + 1).is_none_or(|&next| next <= level);
        let label = if leaf { 4 + random.below(4) } else { random.below(4) };
        tree.label.push(label as u16);
        tree.text.extend(format!("{}({} ", if row > 0 { " " } else { "" }, NAMES[label]).bytes());
        if leaf {
            let length = 1 + random.below(9);
            tree.text.extend((0..length).map(|_| b'a' + random.below(26) as u8));
        }
        open.push(row);
    }
    tree.text.push(b'\n');
    tree
}
