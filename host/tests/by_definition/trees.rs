//! The tree table: its check, its axes, its orders.

/// 0 for a tree, or the number of the refusal.
pub fn check_table(post: &[u16], label: &[u16]) -> u64 {
    let n = post.len();
    if n != label.len() || n == 0 || n > 1024 {
        return 1;
    }
    let mut sorted: Vec<usize> = post.iter().map(|&p| p as usize).collect();
    sorted.sort();
    if sorted != (0..n).collect::<Vec<_>>() || post[0] as usize != n - 1 {
        return 2;
    }
    // no three rows a < b < c have post(c) < post(a) < post(b); the smallest post number behind b decides on c
    let mut smallest_behind = vec![u16::MAX; n];
    for b in (0..n - 1).rev() {
        smallest_behind[b] = smallest_behind[b + 1].min(post[b + 1]);
    }
    for a in 0..n {
        for b in a + 1..n {
            if post[a] < post[b] && smallest_behind[b] < post[a] {
                return 3;
            }
        }
    }
    0
}

/// A set of rows, one bit to a row.
pub type Rows = [u64; 16];

pub const NO_ROWS: Rows = [0; 16];

pub fn has(rows: &Rows, r: usize) -> bool {
    rows[r / 64] >> (r % 64) & 1 == 1
}

pub fn add(rows: &mut Rows, r: usize) {
    rows[r / 64] |= 1 << (r % 64);
}

pub fn remove(rows: &mut Rows, r: usize) {
    rows[r / 64] &= !(1 << (r % 64));
}

pub fn size(rows: &Rows) -> u64 {
    rows.iter().map(|w| w.count_ones() as u64).sum()
}

pub fn meet(a: &Rows, b: &Rows) -> bool {
    (0..16).any(|i| a[i] & b[i] != 0)
}

/// A tree with its axes, each as the rows that a row has it to and from.
pub struct Tree {
    pub rows: usize,
    pub post: Vec<u16>,
    pub label: Vec<u16>,
    pub level: Vec<usize>,
    /// to[code][p] holds q, and from[code][q] holds p, exactly if the axis holds for p and q
    pub to: Vec<Vec<Rows>>,
    pub from: Vec<Vec<Rows>>,
}

impl Tree {
    /// A table that has passed the check.
    pub fn new(post: &[u16], label: &[u16]) -> Tree {
        let n = post.len();
        let child_plus = relation(n, |p, q| p < q && post[q] < post[p]);
        let child_plus_from = turned(n, &child_plus);
        // Child+ holds and no row lies between under Child+
        let child = relation(n, |p, q| has(&child_plus[p], q) && !meet(&child_plus[p], &child_plus_from[q]));
        let child_star = relation(n, |p, q| p == q || has(&child_plus[p], q));
        // p < q and both are children of one row
        let mut sibling_plus = vec![NO_ROWS; n];
        for parent in 0..n {
            for p in 0..n {
                for q in p + 1..n {
                    if !has(&child[parent], p) {
                        break;
                    }
                    if has(&child[parent], q) {
                        add(&mut sibling_plus[p], q);
                    }
                }
            }
        }
        let sibling_plus_from = turned(n, &sibling_plus);
        // NextSibling+ holds and no row z has NextSibling+ from p to z and from z to q
        let sibling = relation(n, |p, q| has(&sibling_plus[p], q) && !meet(&sibling_plus[p], &sibling_plus_from[q]));
        let sibling_star = relation(n, |p, q| p == q || has(&sibling_plus[p], q));
        let following = relation(n, |p, q| p < q && post[p] < post[q]);
        // a row's level is the number of its ancestors
        let level = (0..n).map(|r| size(&child_plus_from[r]) as usize).collect();
        let to = vec![child, child_plus, child_star, sibling, sibling_plus, sibling_star, following];
        let from = to.iter().map(|axis| turned(n, axis)).collect();
        Tree { rows: n, post: post.to_vec(), label: label.to_vec(), level, to, from }
    }

    /// A row's place in the order of an axis set: pre-order, post-order, or by level and then by row number.
    pub fn key(&self, set: u64, r: usize) -> (usize, usize) {
        match set {
            1 => (r, 0),
            2 => (self.post[r] as usize, 0),
            _ => (self.level[r], r),
        }
    }
}

fn relation(n: usize, holds: impl Fn(usize, usize) -> bool) -> Vec<Rows> {
    let mut to = vec![NO_ROWS; n];
    for p in 0..n {
        for q in 0..n {
            if holds(p, q) {
                add(&mut to[p], q);
            }
        }
    }
    to
}

fn turned(n: usize, to: &[Rows]) -> Vec<Rows> {
    relation(n, |q, p| has(&to[p], q))
}
