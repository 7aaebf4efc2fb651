//! Tree search for dictionary editors: safe functions over the proved library.
//!
//! Every function takes any input. What cannot be used is refused, with document 01's number and place, and then no lent
//! buffer differs from before.

pub mod raw;

/// An axis by its code.
pub const CHILD: u8 = 0;
pub const CHILD_PLUS: u8 = 1;
pub const CHILD_STAR: u8 = 2;
pub const NEXT_SIBLING: u8 = 3;
pub const NEXT_SIBLING_PLUS: u8 = 4;
pub const NEXT_SIBLING_STAR: u8 = 5;
pub const FOLLOWING: u8 = 6;

/// The label number of a row whose label the query does not name.
pub const NOT_NAMED: u16 = 65_535;

/// An axis condition: the axis by its code, and two variables, perhaps the same one twice.
#[repr(C)]
#[derive(Clone, Copy, Debug, PartialEq, Eq)]
pub struct Condition {
    pub code: u8,
    pub first: u8,
    pub second: u8,
}

/// A label condition: the variable's row must carry the label.
#[repr(C)]
#[derive(Clone, Copy, Debug, PartialEq, Eq)]
pub struct LabelCondition {
    pub variable: u16,
    pub label: u16,
}

/// 1 to 16 variables, a head of at most 8 different ones, at most 32 conditions of each kind.
#[derive(Clone, Debug, Default, PartialEq, Eq)]
pub struct Query {
    pub variables: usize,
    pub head: Vec<u8>,
    pub labels: Vec<LabelCondition>,
    pub axes: Vec<Condition>,
}

/// Why an input is refused; the reasons in the order of document 01's numbers 1 to 13, with their places.
#[derive(Clone, Copy, Debug, PartialEq, Eq)]
pub enum Refusal {
    Columns,
    PostNumbers,
    ThreeRows,
    Counts,
    Variables,
    Axes,
    EmptyHead,
    Tuple,
    ShortBuffer,
    QueryText(usize),
    Brackets(usize),
    TooLarge(usize),
    HeadVariable,
}

impl Refusal {
    /// Document 01's number.
    pub fn number(self) -> u64 {
        match self {
            Refusal::Columns => 1,
            Refusal::PostNumbers => 2,
            Refusal::ThreeRows => 3,
            Refusal::Counts => 4,
            Refusal::Variables => 5,
            Refusal::Axes => 6,
            Refusal::EmptyHead => 7,
            Refusal::Tuple => 8,
            Refusal::ShortBuffer => 9,
            Refusal::QueryText(_) => 10,
            Refusal::Brackets(_) => 11,
            Refusal::TooLarge(_) => 12,
            Refusal::HeadVariable => 13,
        }
    }

    /// The place in the text, otherwise 0.
    pub fn place(self) -> usize {
        match self {
            Refusal::QueryText(place) | Refusal::Brackets(place) | Refusal::TooLarge(place) => place,
            _ => 0,
        }
    }
}

/// How a listing ends: with all answers, with no room for more, or with its allowance used up.
#[derive(Clone, Copy, Debug, PartialEq, Eq)]
pub enum Ending {
    Finished,
    Full,
    Spent,
}

#[derive(Clone, Copy, Debug, PartialEq, Eq)]
pub struct Listing {
    pub ending: Ending,
    pub tuples: usize,
    pub used: u64,
}

/// A query text as read: the query, and how many bytes of the lent buffer its names take, line feeds included.
#[derive(Clone, Debug, PartialEq, Eq)]
pub struct QueryReading {
    pub query: Query,
    pub bytes: usize,
}

/// A sentence as read: its rows, and the part of the text behind it.
#[derive(Clone, Copy, Debug, PartialEq, Eq)]
pub struct Sentence<'a> {
    pub rows: usize,
    pub rest: &'a [u8],
}

/// The 64-bit words that a query's sets need for a table of so many rows.
pub fn words_needed(query: &Query, rows: usize) -> usize {
    query.variables.saturating_mul(rows.div_ceil(64))
}

/// Is the table a tree?
pub fn check_table(post: &[u16], label: &[u16]) -> Result<(), Refusal> {
    let mut told = [0u64; 8];
    unsafe {
        raw::pouchmeadow_check_table(post.as_ptr(), post.len(), label.as_ptr(), label.len(), told.as_mut_ptr());
    }
    unless_refused(&told)
}

/// Is the query accepted? The number of the axis set that it takes.
pub fn check_query(query: &Query) -> Result<u8, Refusal> {
    let mut told = [0u64; 8];
    let (head, labels, axes) = (&query.head, numbers(&query.labels), bytes(&query.axes));
    unsafe {
        raw::pouchmeadow_check_query(
            query.variables,
            head.as_ptr(),
            head.len(),
            labels.as_ptr(),
            labels.len(),
            axes.as_ptr(),
            axes.len(),
            told.as_mut_ptr(),
        );
    }
    unless_refused(&told)?;
    Ok(told[2] as u8)
}

/// Prunes the label sets, which are left at the front of `sets`. How many rows were struck.
pub fn prune(post: &[u16], label: &[u16], query: &Query, sets: &mut [u64]) -> Result<u64, Refusal> {
    let mut told = [0u64; 8];
    let (head, labels, axes) = (&query.head, numbers(&query.labels), bytes(&query.axes));
    unsafe {
        raw::pouchmeadow_prune(
            post.as_ptr(),
            post.len(),
            label.as_ptr(),
            label.len(),
            query.variables,
            head.as_ptr(),
            head.len(),
            labels.as_ptr(),
            labels.len(),
            axes.as_ptr(),
            axes.len(),
            sets.as_mut_ptr(),
            sets.len(),
            told.as_mut_ptr(),
        );
    }
    unless_refused(&told)?;
    Ok(told[2])
}

/// Does some choice of rows meet all conditions? Zeros are left at the front of `sets`.
pub fn yes_or_no(post: &[u16], label: &[u16], query: &Query, sets: &mut [u64]) -> Result<bool, Refusal> {
    let mut told = [0u64; 8];
    let (head, labels, axes) = (&query.head, numbers(&query.labels), bytes(&query.axes));
    unsafe {
        raw::pouchmeadow_yes_or_no(
            post.as_ptr(),
            post.len(),
            label.as_ptr(),
            label.len(),
            query.variables,
            head.as_ptr(),
            head.len(),
            labels.as_ptr(),
            labels.len(),
            axes.as_ptr(),
            axes.len(),
            sets.as_mut_ptr(),
            sets.len(),
            told.as_mut_ptr(),
        );
    }
    unless_refused(&told)?;
    Ok(told[2] == 1)
}

/// The first answer after a tuple, to the front of `found`. Whether there is one.
pub fn find_after(
    post: &[u16],
    label: &[u16],
    query: &Query,
    tuple: &[u16],
    sets: &mut [u64],
    found: &mut [u16],
) -> Result<bool, Refusal> {
    let mut told = [0u64; 8];
    let (head, labels, axes) = (&query.head, numbers(&query.labels), bytes(&query.axes));
    unsafe {
        raw::pouchmeadow_find_after(
            post.as_ptr(),
            post.len(),
            label.as_ptr(),
            label.len(),
            query.variables,
            head.as_ptr(),
            head.len(),
            labels.as_ptr(),
            labels.len(),
            axes.as_ptr(),
            axes.len(),
            tuple.as_ptr(),
            tuple.len(),
            sets.as_mut_ptr(),
            sets.len(),
            found.as_mut_ptr(),
            found.len(),
            told.as_mut_ptr(),
        );
    }
    unless_refused(&told)?;
    Ok(told[2] == 1)
}

/// Lists answers, one tuple after another at the front of `found`.
pub fn list_answers(
    post: &[u16],
    label: &[u16],
    query: &Query,
    allowance: u64,
    sets: &mut [u64],
    found: &mut [u16],
) -> Result<Listing, Refusal> {
    let mut told = [0u64; 8];
    let (head, labels, axes) = (&query.head, numbers(&query.labels), bytes(&query.axes));
    unsafe {
        raw::pouchmeadow_list_answers(
            post.as_ptr(),
            post.len(),
            label.as_ptr(),
            label.len(),
            query.variables,
            head.as_ptr(),
            head.len(),
            labels.as_ptr(),
            labels.len(),
            axes.as_ptr(),
            axes.len(),
            allowance,
            sets.as_mut_ptr(),
            sets.len(),
            found.as_mut_ptr(),
            found.len(),
            told.as_mut_ptr(),
        );
    }
    unless_refused(&told)?;
    let ending = match told[2] {
        0 => Ending::Finished,
        1 => Ending::Full,
        _ => Ending::Spent,
    };
    Ok(Listing { ending, tuples: told[3] as usize, used: told[4] })
}

/// Reads a query text. Its names go to the front of `names`, each closed by a line feed.
pub fn read_query(text: &[u8], names: &mut [u8]) -> Result<QueryReading, Refusal> {
    let mut told = [0u64; 8];
    let mut head = [0u8; 8];
    let mut labels = [0u16; 64];
    let mut axes = [0u8; 96];
    unsafe {
        raw::pouchmeadow_read_query(
            text.as_ptr(),
            text.len(),
            names.as_mut_ptr(),
            names.len(),
            head.as_mut_ptr(),
            labels.as_mut_ptr(),
            axes.as_mut_ptr(),
            told.as_mut_ptr(),
        );
    }
    unless_refused(&told)?;
    let [_, _, bytes, variables, heads, label_conditions, axis_conditions, _] = told.map(|x| x as usize);
    let query = Query {
        variables,
        head: head[..heads].to_vec(),
        labels: labels[..2 * label_conditions]
            .chunks(2)
            .map(|c| LabelCondition { variable: c[0], label: c[1] })
            .collect(),
        axes: axes[..3 * axis_conditions]
            .chunks(3)
            .map(|c| Condition { code: c[0], first: c[1], second: c[2] })
            .collect(),
    };
    Ok(QueryReading { query, bytes })
}

/// Reads the sentence at the front of a text into two columns. `names` is a list as `read_query` writes it.
pub fn read_sentence<'a>(
    text: &'a [u8],
    names: &[u8],
    post: &mut [u16],
    label: &mut [u16],
) -> Result<Sentence<'a>, Refusal> {
    let mut told = [0u64; 8];
    unsafe {
        raw::pouchmeadow_read_sentence(
            text.as_ptr(),
            text.len(),
            names.as_ptr(),
            names.len(),
            post.as_mut_ptr(),
            post.len(),
            label.as_mut_ptr(),
            label.len(),
            told.as_mut_ptr(),
        );
    }
    unless_refused(&told)?;
    Ok(Sentence { rows: told[2] as usize, rest: &text[told[3] as usize..] })
}

fn unless_refused(told: &[u64; 8]) -> Result<(), Refusal> {
    let place = told[1] as usize;
    Err(match told[0] {
        0 => return Ok(()),
        1 => Refusal::Columns,
        2 => Refusal::PostNumbers,
        3 => Refusal::ThreeRows,
        4 => Refusal::Counts,
        5 => Refusal::Variables,
        6 => Refusal::Axes,
        7 => Refusal::EmptyHead,
        8 => Refusal::Tuple,
        9 => Refusal::ShortBuffer,
        10 => Refusal::QueryText(place),
        11 => Refusal::Brackets(place),
        12 => Refusal::TooLarge(place),
        13 => Refusal::HeadVariable,
        other => unreachable!("the library has no refusal {other}"),
    })
}

// Label conditions are two 16-bit numbers each, with nothing between them.
fn numbers(labels: &[LabelCondition]) -> &[u16] {
    unsafe { std::slice::from_raw_parts(labels.as_ptr().cast(), labels.len() * 2) }
}

// Axis conditions are three bytes each.
fn bytes(axes: &[Condition]) -> &[u8] {
    unsafe { std::slice::from_raw_parts(axes.as_ptr().cast(), axes.len() * 3) }
}
