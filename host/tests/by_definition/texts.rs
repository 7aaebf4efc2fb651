//! The query text and the bracketed sentence: readers that go through the grammar and stop at the first byte that no legal
//! text goes on with.

use super::{refused, told};

fn is_white(b: u8) -> bool {
    b == b' ' || b == b'\t' || b == b'\n' || b == b'\r'
}

/// A text and how far it has been read. `Err` is a place: the byte there continues no legal text, or the text ends early.
struct Reader<'a> {
    text: &'a [u8],
    at: usize,
}

type Place = usize;

impl Reader<'_> {
    fn peek(&self) -> Option<u8> {
        self.text.get(self.at).copied()
    }

    fn next_is(&self, b: u8) -> bool {
        self.peek() == Some(b)
    }

    fn skip_white(&mut self) {
        while self.peek().is_some_and(is_white) {
            self.at += 1;
        }
    }

    fn expect(&mut self, b: u8) -> Result<(), Place> {
        if !self.next_is(b) {
            return Err(self.at);
        }
        self.at += 1;
        Ok(())
    }

    /// A byte of the first kind, then at most `more` of the second.
    fn word(&mut self, first: fn(u8) -> bool, then: fn(u8) -> bool, more: usize) -> Result<Vec<u8>, Place> {
        if !self.peek().is_some_and(first) {
            return Err(self.at);
        }
        let start = self.at;
        self.at += 1;
        while self.at < start + 1 + more && self.peek().is_some_and(then) {
            self.at += 1;
        }
        Ok(self.text[start..self.at].to_vec())
    }
}

// ---- The query text

pub const AXES: [&[u8]; 7] =
    [b"Child", b"Child+", b"Child*", b"NextSibling", b"NextSibling+", b"NextSibling*", b"Following"];

/// What a query text says, in its own words.
struct Said {
    head: Vec<Vec<u8>>,
    conditions: Vec<(Vec<u8>, Vec<Vec<u8>>)>,
}

fn is_label_byte(b: u8) -> bool {
    b.is_ascii_uppercase() || b.is_ascii_digit() || b == b'$' || b == b'|'
}

fn is_label(name: &[u8]) -> bool {
    name.len() <= 16 && name.first().is_some_and(|b| b.is_ascii_uppercase()) && name.iter().all(|&b| is_label_byte(b))
}

fn is_axis(name: &[u8]) -> bool {
    AXES.contains(&name)
}

impl Reader<'_> {
    fn variable(&mut self) -> Result<Vec<u8>, Place> {
        self.word(|b| b.is_ascii_lowercase(), |b| b.is_ascii_lowercase() || b.is_ascii_digit(), 7)
    }

    /// A label name or an axis name: as long as some such name begins so.
    fn name(&mut self) -> Result<Vec<u8>, Place> {
        let start = self.at;
        let begins = |front: &[u8]| is_label(front) || AXES.iter().any(|axis| axis.starts_with(front));
        while self.at < self.text.len() && begins(&self.text[start..=self.at]) {
            self.at += 1;
        }
        let name = &self.text[start..self.at];
        if is_label(name) || is_axis(name) {
            Ok(name.to_vec())
        } else {
            Err(self.at)
        }
    }

    fn condition(&mut self) -> Result<(Vec<u8>, Vec<Vec<u8>>), Place> {
        let name = self.name()?;
        self.skip_white();
        self.expect(b'(')?;
        self.skip_white();
        let mut variables = vec![self.variable()?];
        self.skip_white();
        if is_axis(&name) {
            self.expect(b',')?;
            self.skip_white();
            variables.push(self.variable()?);
            self.skip_white();
        }
        self.expect(b')')?;
        Ok((name, variables))
    }

    fn query(&mut self) -> Result<Said, Place> {
        let mut said = Said { head: Vec::new(), conditions: Vec::new() };
        self.expect(b'Q')?;
        self.skip_white();
        self.expect(b'(')?;
        self.skip_white();
        if !self.next_is(b')') {
            said.head.push(self.variable()?);
            self.skip_white();
            while self.next_is(b',') {
                self.at += 1;
                self.skip_white();
                said.head.push(self.variable()?);
                self.skip_white();
            }
        }
        self.expect(b')')?;
        self.skip_white();
        self.expect(b'<')?;
        self.expect(b'-')?;
        self.skip_white();
        said.conditions.push(self.condition()?);
        self.skip_white();
        while self.next_is(b',') {
            self.at += 1;
            self.skip_white();
            said.conditions.push(self.condition()?);
            self.skip_white();
        }
        self.expect(b'.')?;
        self.skip_white();
        if self.at < self.text.len() {
            return Err(self.at);
        }
        Ok(said)
    }
}

fn place_in(words: &mut Vec<Vec<u8>>, word: &[u8]) -> usize {
    if let Some(place) = words.iter().position(|w| w == word) {
        return place;
    }
    words.push(word.to_vec());
    words.len() - 1
}

/// The buffers of a reading of a query text.
#[derive(Clone, Debug, PartialEq)]
pub struct QueryBuffers {
    pub names: Vec<u8>,
    pub head: [u8; 8],
    pub labels: [u16; 64],
    pub axes: [u8; 96],
}

pub fn read_query(text: &[u8], buffers: &mut QueryBuffers) -> [u64; 8] {
    let said = match (Reader { text, at: 0 }).query() {
        Err(place) => return told(10, place, &[]),
        Ok(said) => said,
    };
    let mut variables: Vec<Vec<u8>> = Vec::new();
    let mut names: Vec<Vec<u8>> = Vec::new();
    let head: Vec<usize> = said.head.iter().map(|v| place_in(&mut variables, v)).collect();
    let mut labels: Vec<usize> = Vec::new();
    let mut axes: Vec<usize> = Vec::new();
    for (name, of) in &said.conditions {
        let of: Vec<usize> = of.iter().map(|v| place_in(&mut variables, v)).collect();
        match AXES.iter().position(|axis| axis == name) {
            Some(code) => axes.extend([code, of[0], of[1]]),
            None => labels.extend([of[0], place_in(&mut names, name)]),
        }
    }
    let (label_count, axis_count) = (labels.len() / 2, axes.len() / 3);
    if variables.len() > 16 || names.len() > 32 || head.len() > 8 || label_count > 32 || axis_count > 32 {
        return refused(4);
    }
    if (0..head.len()).any(|i| head[..i].contains(&head[i])) {
        return refused(5);
    }
    let has_condition =
        |v: usize| labels.chunks(2).any(|c| c[0] == v) || axes.chunks(3).any(|c| c[1] == v || c[2] == v);
    if !head.iter().all(|&v| has_condition(v)) {
        return refused(13);
    }
    let list: Vec<u8> = names.iter().flat_map(|name| [&name[..], b"\n"].concat()).collect();
    if buffers.names.len() < list.len() {
        return refused(9);
    }
    buffers.names[..list.len()].copy_from_slice(&list);
    for (i, &v) in head.iter().enumerate() {
        buffers.head[i] = v as u8;
    }
    for (i, &x) in labels.iter().enumerate() {
        buffers.labels[i] = x as u16;
    }
    for (i, &x) in axes.iter().enumerate() {
        buffers.axes[i] = x as u8;
    }
    let counts = [list.len(), variables.len(), head.len(), label_count, axis_count];
    told(0, 0, &counts.map(|x| x as u64))
}

// ---- The bracketed sentence

fn is_inner(b: u8) -> bool {
    b > 32 && b != b'(' && b != b')'
}

enum Fault {
    Wrong(Place),
    Large(Place),
}

impl From<Place> for Fault {
    fn from(place: Place) -> Fault {
        Fault::Wrong(place)
    }
}

/// The rows so far: labels in the order of opening, and the post numbers of those that are closed.
#[derive(Default)]
struct Rows {
    labels: Vec<Vec<u8>>,
    post: Vec<usize>,
    closed: usize,
}

impl Reader<'_> {
    /// A tree whose opening parenthesis is the next byte; so many trees are open around it.
    fn tree(&mut self, open: usize, rows: &mut Rows) -> Result<(), Fault> {
        if open == 64 || rows.labels.len() == 1024 {
            return Err(Fault::Large(self.at));
        }
        self.at += 1;
        let row = rows.labels.len();
        rows.labels.push(self.word(is_inner, is_inner, 63)?);
        rows.post.push(0);
        if !self.peek().is_some_and(is_white) {
            return Err(Fault::Wrong(self.at));
        }
        self.skip_white();
        if self.next_is(b'(') {
            while self.next_is(b'(') {
                self.tree(open + 1, rows)?;
                self.skip_white();
            }
        } else {
            self.word(is_inner, is_inner, 63)?;
            self.skip_white();
        }
        self.expect(b')')?;
        rows.post[row] = rows.closed;
        rows.closed += 1;
        Ok(())
    }

    fn sentence(&mut self, rows: &mut Rows) -> Result<(), Fault> {
        self.skip_white();
        if !self.next_is(b'(') {
            return Err(Fault::Wrong(self.at));
        }
        let behind = self.text.get(self.at + 1).copied();
        let bare = behind.is_some_and(|b| is_white(b) || b == b'(');
        if !bare {
            return self.tree(0, rows);
        }
        self.at += 1;
        self.skip_white();
        if !self.next_is(b'(') {
            return Err(Fault::Wrong(self.at));
        }
        self.tree(0, rows)?;
        self.skip_white();
        self.expect(b')')?;
        Ok(())
    }
}

fn label_number(names: &[&[u8]], label: &[u8]) -> u16 {
    let end = label.iter().position(|&b| b == b'-' || b == b'=').unwrap_or(label.len());
    names.iter().position(|&name| name == &label[..end]).map_or(65_535, |place| place as u16)
}

pub fn read_sentence(text: &[u8], list: &[u8], post: &mut [u16], label: &mut [u16]) -> [u64; 8] {
    let mut names: Vec<&[u8]> = list.split(|&b| b == b'\n').collect();
    names.pop();
    if names.len() > 32 {
        return refused(4);
    }
    let mut reader = Reader { text, at: 0 };
    let mut rows = Rows::default();
    match reader.sentence(&mut rows) {
        Err(Fault::Wrong(place)) => return told(11, place, &[]),
        Err(Fault::Large(place)) => return told(12, place, &[]),
        Ok(()) => {}
    }
    let n = rows.labels.len();
    if post.len() < n || label.len() < n {
        return refused(9);
    }
    for r in 0..n {
        post[r] = rows.post[r] as u16;
        label[r] = label_number(&names, &rows.labels[r]);
    }
    told(0, 0, &[n as u64, reader.at as u64])
}
