//! The library beside plain Rust with the same algorithm, in one run: reading, table check, pruning and listing, on the
//! sample sentences and on trees of 64 to 1,024 rows. The answers of both are compared, then times are taken.
//!
//!     bash host/bench/native.sh && cd host && cargo bench --offline
//!
//! Times on a shared machine differ from run to run; the ratios and the growth are what to read.

mod plain;
mod trees;

use std::hint::black_box;
use std::time::{Duration, Instant};
use trees::{tree, Random, Tree, NAMES};

const ALLOWANCE: u64 = 1_000_000;
const ANSWERS: usize = 4096;

const QUERIES: [&str; 3] = [
    "Q(x,y) <- NP(x), Child+(x,y), NN(y).",
    "Q(x,y) <- NP(x), Following(x,y), PP(y).",
    "Q(x,y,z) <- VP(x), Child(x,y), NP(y), NextSibling+(y,z), PP(z).",
];

struct Question {
    query: pouchmeadow::Query,
    names: Vec<u8>,
}

fn question(text: &str) -> Question {
    let mut names = [0; 544];
    let read = pouchmeadow::read_query(text.as_bytes(), &mut names).expect("a query text");
    Question { query: read.query, names: names[..read.bytes].to_vec() }
}

/// The tree's columns with the query's label numbers, as the readers give them; both readers must agree.
fn columns(tree: &Tree, names: &[u8]) -> (Vec<u16>, Vec<u16>) {
    let mut ours = (vec![0; 1024], vec![0; 1024]);
    let mut plain = ours.clone();
    let a = pouchmeadow::read_sentence(&tree.text, names, &mut ours.0, &mut ours.1).expect("a sentence");
    let b = plain::read_sentence(&tree.text, names, &mut plain.0, &mut plain.1, &mut plain::Work::new())
        .expect("a sentence");
    assert!(a == b && ours == plain, "the readers differ");
    ours.0.truncate(a.rows);
    ours.1.truncate(a.rows);
    assert!(tree.post.is_empty() || tree.post == ours.0, "a tree's post numbers");
    ours
}

/// Nanoseconds a call of each: the best of some rounds in turn, so that both have the same neighbours on the machine.
fn measure(mut ours: impl FnMut(), mut plain: impl FnMut()) -> [f64; 2] {
    let calls = [calls(&mut ours), calls(&mut plain)];
    let mut best = [f64::MAX; 2];
    for _ in 0..7 {
        best[0] = best[0].min(round(&mut ours, calls[0]));
        best[1] = best[1].min(round(&mut plain, calls[1]));
    }
    best
}

fn round(f: &mut impl FnMut(), calls: u32) -> f64 {
    let start = Instant::now();
    for _ in 0..calls {
        f();
    }
    start.elapsed().as_nanos() as f64 / f64::from(calls)
}

/// How many calls take about three milliseconds.
fn calls(f: &mut impl FnMut()) -> u32 {
    let mut calls = 1;
    loop {
        let start = Instant::now();
        for _ in 0..calls {
            f();
        }
        if start.elapsed() > Duration::from_millis(3) {
            return calls;
        }
        calls *= 2;
    }
}

fn reading(trees: &[Tree], names: &[u8]) -> [f64; 2] {
    let mut buffers = (vec![0u16; 1024], vec![0u16; 1024]);
    let mut others = buffers.clone();
    let mut work = plain::Work::new();
    measure(
        || {
            for t in trees {
                black_box(pouchmeadow::read_sentence(black_box(&t.text), names, &mut buffers.0, &mut buffers.1))
                    .unwrap();
            }
        },
        || {
            for t in trees {
                black_box(plain::read_sentence(black_box(&t.text), names, &mut others.0, &mut others.1, &mut work))
                    .unwrap();
            }
        },
    )
}

fn checking(tables: &[(Vec<u16>, Vec<u16>)]) -> [f64; 2] {
    let mut work = plain::Work::new();
    measure(
        || {
            for (post, label) in tables {
                black_box(pouchmeadow::check_table(black_box(post), label)).unwrap();
            }
        },
        || {
            for (post, label) in tables {
                black_box(plain::check_table(black_box(post), label, &mut work)).unwrap();
            }
        },
    )
}

fn pruning(tables: &[(Vec<u16>, Vec<u16>)], query: &pouchmeadow::Query) -> [f64; 2] {
    let mut sets = [0u64; 256];
    let mut others = [0u64; 256];
    let mut work = plain::Work::new();
    for (post, label) in tables {
        let ours = pouchmeadow::prune(post, label, query, &mut sets);
        let plain = plain::prune(post, label, query, &mut others, &mut work);
        let words = pouchmeadow::words_needed(query, post.len());
        assert!(ours == plain && sets[..words] == others[..words], "the prunings differ");
    }
    measure(
        || {
            for (post, label) in tables {
                black_box(pouchmeadow::prune(black_box(post), label, query, &mut sets)).unwrap();
            }
        },
        || {
            for (post, label) in tables {
                black_box(plain::prune(black_box(post), label, query, &mut others, &mut work)).unwrap();
            }
        },
    )
}

/// The times, and how many tuples the listings give.
fn listing(tables: &[(Vec<u16>, Vec<u16>)], query: &pouchmeadow::Query) -> ([f64; 2], usize) {
    let mut sets = [0u64; 256];
    let mut found = vec![0u16; ANSWERS];
    let mut others = vec![0u16; ANSWERS];
    let mut work = plain::Work::new();
    let mut tuples = 0;
    for (post, label) in tables {
        let ours = pouchmeadow::list_answers(post, label, query, ALLOWANCE, &mut sets, &mut found).unwrap();
        let plain = plain::list_answers(post, label, query, ALLOWANCE, &mut sets, &mut others, &mut work).unwrap();
        let places = ours.tuples * query.head.len();
        assert!(ours == plain && found[..places] == others[..places], "the listings differ");
        tuples += ours.tuples;
    }
    let mut other_sets = sets;
    let times = measure(
        || {
            for (post, label) in tables {
                let query = black_box(query);
                black_box(pouchmeadow::list_answers(post, label, query, ALLOWANCE, &mut sets, &mut found)).unwrap();
            }
        },
        || {
            for (post, label) in tables {
                let query = black_box(query);
                black_box(plain::list_answers(post, label, query, ALLOWANCE, &mut other_sets, &mut others, &mut work))
                    .unwrap();
            }
        },
    );
    (times, tuples)
}

/// The sentences of the sample file.
fn samples() -> Vec<Tree> {
    let path = concat!(env!("CARGO_MANIFEST_DIR"), "/../samples/garden.mrg");
    let text = std::fs::read(path).expect("samples/garden.mrg");
    let (mut post, mut label) = ([0; 1024], [0; 1024]);
    let mut trees = Vec::new();
    let mut rest = &text[..];
    while !rest.iter().all(u8::is_ascii_whitespace) {
        let read = pouchmeadow::read_sentence(rest, b"", &mut post, &mut label).expect("a sentence");
        let end = rest.len() - read.rest.len();
        trees.push(Tree { text: rest[..end].to_vec(), post: Vec::new(), label: Vec::new() });
        rest = read.rest;
    }
    trees
}

fn line(what: &str, times: [f64; 2], sentences: usize) {
    let [ours, plain] = times.map(|t| t / 1000.0 / sentences as f64);
    println!("| {what} | {ours:.2} | {plain:.2} | {:.1} |", ours / plain);
}

fn on_samples() {
    let trees = samples();
    println!("\n## The {} sample sentences, microseconds a sentence\n", trees.len());
    println!("| | library | plain Rust | ratio |\n|---|---|---|---|");
    let questions = QUERIES.map(question);
    line("reading", reading(&trees, &questions[2].names), trees.len());
    let tables: Vec<_> = trees.iter().map(|t| columns(t, &questions[0].names)).collect();
    line("table check", checking(&tables), trees.len());
    for (text, q) in QUERIES.iter().zip(&questions) {
        let tables: Vec<_> = trees.iter().map(|t| columns(t, &q.names)).collect();
        line(&format!("pruning `{text}`"), pruning(&tables, &q.query), trees.len());
    }
    for (text, q) in QUERIES.iter().zip(&questions) {
        let tables: Vec<_> = trees.iter().map(|t| columns(t, &q.names)).collect();
        let (times, tuples) = listing(&tables, &q.query);
        line(&format!("listing `{text}`, {tuples} answers"), times, trees.len());
    }
}

const SIZES: [usize; 5] = [64, 128, 256, 512, 1024];

/// A table with a line for each thing measured. A cell has the library's microseconds; in brackets its time a row as a multiple
/// of that at 64 rows; and the ratio to plain Rust.
fn heading(title: &str, last: &str) {
    println!("\n## {title}\n\n| | {} |{last}", SIZES.map(|n| format!("{n} rows")).join(" | "));
    println!("|{}", "---|".repeat(SIZES.len() + 1 + usize::from(!last.is_empty())));
}

/// `times` gives for a number of rows the times of both, and how often a listing searched for a tuple, for which the time a
/// row is then given.
fn cells(what: &str, mut times: impl FnMut(usize) -> ([f64; 2], usize)) {
    print!("| {what} |");
    let mut first = None;
    for rows in SIZES {
        let ([ours, plain], searches) = times(rows);
        let each = ours / (rows * searches) as f64;
        let growth = each / *first.get_or_insert(each);
        print!(" {:.1} ({growth:.1}) ×{:.1} |", ours / 1000.0, ours / plain);
    }
}

fn growth(deep: bool) {
    heading(if deep { "Deep trees" } else { "Wide trees" }, " tuples |");
    let grown = |rows: usize| tree(rows, deep, 7 + rows as u64);
    let all_names: Vec<u8> = NAMES.iter().flat_map(|name| format!("{name}\n").into_bytes()).collect();
    for t in SIZES.map(grown) {
        assert!(columns(&t, &all_names) == (t.post.clone(), t.label.clone()), "a tree's columns");
    }
    let questions = QUERIES.map(question);
    cells("reading", |rows| (reading(&[grown(rows)], &questions[2].names), 1));
    println!(" |");
    cells("table check", |rows| (checking(&[columns(&grown(rows), &questions[0].names)]), 1));
    println!(" |");
    for (text, q) in QUERIES.iter().zip(&questions) {
        let table = |rows| [columns(&grown(rows), &q.names)];
        cells(&format!("pruning `{text}`"), |rows| (pruning(&table(rows), &q.query), 1));
        println!(" |");
    }
    for (text, q) in QUERIES.iter().zip(&questions) {
        let mut given = Vec::new();
        cells(&format!("listing `{text}`"), |rows| {
            let (times, tuples) = listing(&[columns(&grown(rows), &q.names)], &q.query);
            given.push(tuples.to_string());
            (times, tuples + 1)
        });
        println!(" {} |", given.join(", "));
    }
}

/// Pruning by each axis: the growth of a look at both sides.
fn growth_by_axis() {
    heading("Wide trees, pruning `Q(x,y) <- NP(x), AXIS(x,y), NN(y).`", "");
    for axis in ["Child", "Child+", "Child*", "NextSibling", "NextSibling+", "NextSibling*", "Following"] {
        let q = question(&format!("Q(x,y) <- NP(x), {axis}(x,y), NN(y)."));
        let table = |rows| [columns(&tree(rows, false, 7 + rows as u64), &q.names)];
        cells(axis, |rows| (pruning(&table(rows), &q.query), 1));
        println!();
    }
}

/// A variable on both sides of an axis: from a row of siblings each round strikes the first and the last that are left.
fn growth_by_rounds() {
    heading("The most rounds: one row with n - 1 children", "");
    for text in ["Q(x) <- Following(x,x).", "Q(x) <- NextSibling(x,x).", "Q(x) <- NextSibling+(x,x)."] {
        let q = question(text);
        cells(&format!("pruning `{text}`"), |rows| {
            let mut post: Vec<u16> = (0..rows as u16 - 1).collect();
            post.insert(0, rows as u16 - 1);
            (pruning(&[(post, vec![0; rows])], &q.query), 1)
        });
        println!();
    }
}

/// Both must agree before they are timed: on small trees with every axis, and on texts with one byte changed.
fn compare() {
    let sets: [&[u8]; 3] = [&[1, 2], &[6], &[0, 3, 4, 5]];
    let mut random = Random(1);
    let mut work = plain::Work::new();
    for _ in 0..3000 {
        let t = tree(1 + random.below(150), random.below(2) == 0, random.below(1 << 30) as u64);
        let codes = sets[random.below(3)];
        let variables = 1 + random.below(3);
        let labels = random.below(3);
        let axes = random.below(4);
        let query = pouchmeadow::Query {
            variables,
            head: (0..variables as u8).collect(),
            labels: (0..labels)
                .map(|_| pouchmeadow::LabelCondition {
                    variable: random.below(variables) as u16,
                    label: random.below(8) as u16,
                })
                .collect(),
            axes: (0..axes)
                .map(|_| pouchmeadow::Condition {
                    code: codes[random.below(codes.len())],
                    first: random.below(variables) as u8,
                    second: random.below(variables) as u8,
                })
                .collect(),
        };
        let (mut a, mut b) = ([7u64; 64], [7u64; 64]);
        let ours = pouchmeadow::prune(&t.post, &t.label, &query, &mut a);
        assert_eq!(ours, plain::prune(&t.post, &t.label, &query, &mut b, &mut work));
        assert_eq!(a, b);
        let (mut found, mut other) = ([9u16; 100], [9u16; 100]);
        let allowance = random.below(2000) as u64;
        let ours = pouchmeadow::list_answers(&t.post, &t.label, &query, allowance, &mut a, &mut found);
        let plain = plain::list_answers(&t.post, &t.label, &query, allowance, &mut b, &mut other, &mut work);
        assert!(ours == plain && a == b && found == other, "the listings differ: {query:?}");
        let mut text = t.text;
        let at = random.below(text.len());
        text[at] = b"() \tx-="[random.below(7)];
        let mut ours = ([0; 200], [0; 200]);
        let mut others = ours;
        let a = pouchmeadow::read_sentence(&text, b"NP\nVP\n", &mut ours.0, &mut ours.1);
        let b = plain::read_sentence(&text, b"NP\nVP\n", &mut others.0, &mut others.1, &mut work);
        assert!(a == b && ours == others, "the readers differ");
        let mut post = t.post;
        let (i, j) = (random.below(post.len()), random.below(post.len()));
        post.swap(i, j);
        assert_eq!(pouchmeadow::check_table(&post, &t.label), plain::check_table(&post, &t.label, &mut work));
    }
}

fn main() {
    // `-- wide 256` prints that sentence, for count.sh
    let words: Vec<String> = std::env::args().skip(1).filter(|a| a != "--bench").collect();
    if let [shape, rows] = &words[..] {
        let rows = rows.parse().expect("a number of rows");
        print!("{}", String::from_utf8(tree(rows, shape == "deep", 7 + rows as u64).text).unwrap());
        return;
    }
    compare();
    on_samples();
    growth(false);
    growth(true);
    growth_by_axis();
    growth_by_rounds();
}
