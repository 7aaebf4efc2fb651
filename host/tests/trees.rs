//! The library compared with document 01 by definition: tables, queries, pruning, yes or no, search and listing.

mod by_definition;
mod calls;

use by_definition::asking::{check_query, width, Asked, Lent, Table};
use by_definition::random::Random;
use by_definition::trees::{check_table, has, Rows};
use by_definition::{refused, told};

const SETS: [&[u8]; 3] = [&[1, 2], &[6], &[0, 3, 4, 5]];

/// What a set buffer holds before a call.
fn set_buffer(words: usize) -> Vec<u64> {
    (0..words as u64).map(|i| 0x5a5a_0000_f00d_0001 ^ i).collect()
}

/// What an answer buffer holds before a call.
fn tuple_buffer(places: usize) -> Vec<u16> {
    (0..places).map(|i| 0xb000 + (i % 256) as u16).collect()
}

/// A tree of n rows: row by row, under one of the open rows, at most `levels` deep.
fn random_tree(random: &mut Random, n: usize, levels: usize, chain: usize) -> Vec<u16> {
    let mut post = vec![0; n];
    let mut open: Vec<usize> = Vec::new();
    let mut closed = 0;
    for row in 0..n {
        let stay = match row {
            0 => 0,
            _ if row < chain => row,
            // mostly near the last row, so that trees are deep as well as broad
            _ if random.once_in(3) => 1 + random.below(open.len()),
            _ => open.len() - random.below(open.len().min(3)),
        };
        let stay = stay.min(levels - 1).min(open.len());
        while open.len() > stay {
            post[open.pop().unwrap()] = closed;
            closed += 1;
        }
        open.push(row);
    }
    while let Some(row) = open.pop() {
        post[row] = closed;
        closed += 1;
    }
    post
}

fn random_labels(random: &mut Random, n: usize, kinds: usize) -> Vec<u16> {
    (0..n).map(|_| if random.once_in(9) { 65_535 } else { random.below(kinds) as u16 }).collect()
}

fn random_query(random: &mut Random, most_variables: usize, kinds: usize) -> Lent {
    let variables = 1 + random.below(most_variables);
    let mut head: Vec<u8> = (0..variables as u8).collect();
    for i in (1..variables).rev() {
        head.swap(i, random.below(i + 1));
    }
    head.truncate(random.below(variables.min(8) + 1));
    let mut q = Lent { variables, head, labels: Vec::new(), axes: Vec::new() };
    for _ in 0..random.below(variables + 2) {
        q.labels.extend([random.below(variables) as u16, random.below(kinds) as u16]);
    }
    let codes = random.pick(&SETS);
    for _ in 0..random.below(variables + 2) {
        q.axes.extend([random.pick(codes), random.below(variables) as u8, random.below(variables) as u8]);
    }
    q
}

fn damage_query(random: &mut Random, q: &mut Lent) {
    let times = |random: &mut Random| random.pick(&[1, 2, 9, 33, 40]);
    match random.below(11) {
        0 => q.variables = random.pick(&[0, 17, 255, 256, 1 << 20, usize::MAX]),
        1 => q.head.push(random.below(18) as u8),
        2 => q.head.extend(vec![0; times(random)]),
        3 => q.labels.push(random.below(3) as u16),
        4 => q.labels.extend([random.pick(&[16, 255, 256, 257, 65_535]), 0]),
        5 => q.labels.extend([0, 1].repeat(times(random))),
        6 => q.axes.push(random.below(3) as u8),
        7 => q.axes.extend([random.pick(&[0, 3, 6, 7, 8, 255]), random.below(3) as u8, random.below(3) as u8]),
        8 => q.axes.extend([2, random.pick(&[0, 15, 16, 255]), random.pick(&[0, 15, 16, 255])]),
        9 => q.axes.extend([2, 0, 0].repeat(times(random))),
        _ => q.variables = 1 + random.below(16),
    }
}

fn damage_table(random: &mut Random, post: &mut Vec<u16>, label: &mut Vec<u16>) {
    let n = post.len();
    match random.below(8) {
        0 => drop(label.pop()),
        1 => label.push(0),
        2 => {
            post.clear();
            label.clear();
        }
        3 => post[random.below(n)] = random.pick(&[0, 1, n as u16 - 1, n as u16, 65_535]),
        4 => {
            post.resize(1025, 0);
            label.resize(1025, 0);
        }
        _ => {
            let (a, b) = (random.below(n), random.below(n));
            post.swap(a, b);
        }
    }
}

/// How often each way out was seen, so that a test can say that it tried them all.
#[derive(Default, Debug)]
struct Seen {
    /// of all entries, by the number of refusal; 0 is none
    numbers: [usize; 14],
    yes: [usize; 2],
    found: [usize; 2],
    endings: [usize; 3],
    /// listings of two tuples or more
    lists: usize,
}

fn compare_listing(table: &Table, q: &Lent, allowance: u64, words: usize, places: usize, small: bool) -> [u64; 8] {
    let (post, label) = (&table.post, &table.label);
    let context =
        || format!("post {post:?} label {label:?} query {q:?} allowance {allowance} words {words} places {places}");
    let (mut mine, mut theirs) = (set_buffer(words), set_buffer(words));
    let (mut my_tuples, mut their_tuples) = (tuple_buffer(places), tuple_buffer(places));
    let expected = table.list_answers(q, allowance, &mut mine, &mut my_tuples, small);
    let got = calls::list_answers(post, label, q, allowance, &mut theirs, &mut their_tuples);
    assert_eq!(got, expected, "listing: {}", context());
    assert_eq!(theirs, mine, "listing, sets: {}", context());
    assert_eq!(their_tuples, my_tuples, "listing, tuples: {}", context());
    got
}

/// Calls every entry that takes a table and a query and compares what is told and every buffer.
fn compare_all(random: &mut Random, table: &Table, q: &Lent, most_room: usize, small: bool, seen: &mut Seen) {
    let (post, label) = (&table.post, &table.label);
    assert_eq!(calls::check_table(post, label), refused(check_table(post, label)), "{post:?} {label:?}");
    let checked = match check_query(q) {
        Ok(set) => told(0, 0, &[set]),
        Err(number) => refused(number),
    };
    assert_eq!(calls::check_query(q), checked, "{q:?}");

    let needed = q.variables.min(16) * width(post.len().min(1024));
    let words = match random.below(8) {
        0 => needed.saturating_sub(1),
        1 => random.below(needed + 1),
        2 => needed,
        _ => needed + random.below(3),
    };
    let context = || format!("post {post:?} label {label:?} query {q:?} words {words}");

    let (mut mine, mut theirs) = (set_buffer(words), set_buffer(words));
    let got = calls::prune(post, label, q, &mut theirs);
    assert_eq!(got, table.prune(q, &mut mine), "prune: {}", context());
    assert_eq!(theirs, mine, "prune, sets: {}", context());
    seen.numbers[got[0] as usize] += 1;

    let (mut mine, mut theirs) = (set_buffer(words), set_buffer(words));
    let expected = table.yes_or_no(q, &mut mine, small);
    let got = calls::yes_or_no(post, label, q, &mut theirs);
    assert_eq!(got, expected, "yes or no: {}", context());
    assert_eq!(theirs, mine, "yes or no, sets: {}", context());
    if got[0] == 0 {
        seen.yes[got[2] as usize] += 1;
    }

    let k = q.head.len();
    let mut tuple: Vec<u16> = (0..k).map(|_| random.below(post.len().max(1)) as u16).collect();
    if random.once_in(12) {
        tuple.push(0);
    }
    if random.once_in(12) {
        tuple.pop();
    }
    if random.once_in(12) && k > 0 && !tuple.is_empty() {
        tuple[0] = random.pick(&[post.len() as u16, 1024, 65_535]);
    }
    let places = if random.once_in(8) { k.saturating_sub(1) } else { k + random.below(3) };
    let (mut mine, mut theirs) = (set_buffer(words), set_buffer(words));
    let (mut my_tuple, mut their_tuple) = (tuple_buffer(places), tuple_buffer(places));
    let expected = table.find_after(q, &tuple, &mut mine, &mut my_tuple, small);
    let got = calls::find_after(post, label, q, &tuple, &mut theirs, &mut their_tuple);
    assert_eq!(got, expected, "search after {tuple:?} into {places}: {}", context());
    assert_eq!((theirs, their_tuple), (mine, my_tuple), "search after {tuple:?}, buffers: {}", context());
    seen.numbers[got[0] as usize] += 1;
    if got[0] == 0 {
        seen.found[got[2] as usize] += 1;
    }

    let room = random.below(most_room + 1);
    let places = room * k.max(1) + random.below(k.max(1));
    let allowance = match random.below(4) {
        0 => u64::MAX,
        1 => random.below(4) as u64,
        2 => random.below(30) as u64,
        _ => random.below(1 + post.len() * q.variables.min(16)) as u64,
    };
    let got = compare_listing(table, q, allowance, words, places, small);
    seen.numbers[got[0] as usize] += 1;
    if got[0] == 0 {
        seen.endings[got[2] as usize] += 1;
        seen.lists += (got[3] > 1) as usize;
    }
}

impl Seen {
    /// Every refusal that a table and a query can meet, every answer and every ending came so often at least.
    fn assert_all(&self, often: usize) {
        let all = [&self.numbers[..10], &self.yes, &self.found, &self.endings, &[self.lists]].concat();
        assert!(all.iter().all(|&times| times >= often), "{self:?}");
    }
}

#[test]
fn small_inputs_by_trying_every_choice() {
    let mut random = Random(1);
    let mut seen = Seen::default();
    for _ in 0..30_000 {
        let n = 1 + random.below(7);
        let mut post = random_tree(&mut random, n, 64, 0);
        let mut label = random_labels(&mut random, n, 3);
        let mut q = random_query(&mut random, 3, 3);
        if random.once_in(8) {
            damage_table(&mut random, &mut post, &mut label);
        }
        if random.once_in(5) {
            damage_query(&mut random, &mut q);
        }
        // trying every choice of many variables would not end
        let small = q.variables <= 4;
        compare_all(&mut random, &Table::new(post, label), &q, 12, small, &mut seen);
    }
    seen.assert_all(100);
}

#[test]
fn every_short_column() {
    for n in 0..6usize {
        for code in 0..(n + 1).pow(n as u32) {
            let post: Vec<u16> = (0..n).map(|i| (code / (n + 1).pow(i as u32) % (n + 1)) as u16).collect();
            let label = vec![0; n];
            assert_eq!(calls::check_table(&post, &label), refused(check_table(&post, &label)), "{post:?}");
        }
    }
}

#[test]
fn every_order_of_seven_rows() {
    fn orders(left: &mut Vec<u16>, chosen: &mut Vec<u16>, seen: &mut usize) {
        if left.is_empty() {
            let label = vec![0; chosen.len()];
            assert_eq!(calls::check_table(chosen, &label), refused(check_table(chosen, &label)), "{chosen:?}");
            *seen += (check_table(chosen, &label) == 0) as usize;
        }
        for i in 0..left.len() {
            chosen.push(left.remove(i));
            orders(left, chosen, seen);
            left.insert(i, chosen.pop().unwrap());
        }
    }
    let mut trees = 0;
    orders(&mut (0..7).collect(), &mut Vec::new(), &mut trees);
    // the ordered trees of seven rows, as many as there are: 132
    assert_eq!(trees, 132);
}

#[test]
fn middling_inputs_by_stages() {
    let mut random = Random(2);
    let mut seen = Seen::default();
    for _ in 0..600 {
        let n = 1 + random.below(150);
        let mut post = random_tree(&mut random, n, 64, 0);
        let mut label = random_labels(&mut random, n, 4);
        let mut q = random_query(&mut random, 16, 4);
        if random.once_in(10) {
            damage_table(&mut random, &mut post, &mut label);
        }
        if random.once_in(6) {
            damage_query(&mut random, &mut q);
        }
        compare_all(&mut random, &Table::new(post, label), &q, 20, false, &mut seen);
    }
    seen.assert_all(20);
}

/// A query with all its places taken, made so that it has an answer: rows are chosen first, conditions that hold for them
/// second. 16 variables, 32 conditions of each kind, a head of 8.
fn full_query(random: &mut Random, table: &Table, set: usize) -> Lent {
    let tree = table.tree.as_ref().expect("a tree");
    let codes = SETS[set];
    let any = |random: &mut Random, rows: &Rows| {
        let all: Vec<usize> = (0..tree.rows).filter(|&r| has(rows, r)).collect();
        (!all.is_empty()).then(|| random.pick(&all))
    };
    let mut rows: Vec<usize> = vec![tree.rows / 3 + random.below(tree.rows / 3)];
    while rows.len() < 16 {
        let from = random.pick(&rows);
        let code = random.pick(codes) as usize;
        let related = if random.once_in(2) { &tree.to[code][from] } else { &tree.from[code][from] };
        if let Some(row) = any(random, related) {
            rows.push(row);
        }
    }
    let mut axes: Vec<u8> = Vec::new();
    while axes.len() < 96 {
        let (code, x, y) = (random.pick(codes), random.below(16), random.below(16));
        if has(&tree.to[code as usize][rows[x]], rows[y]) {
            axes.extend([code, x as u8, y as u8]);
        }
    }
    // each variable twice
    let labels = (0..32).flat_map(|i| [i % 16, table.label[rows[i as usize % 16]]]).collect();
    let mut head: Vec<u8> = (0..16).collect();
    for i in (1..16).rev() {
        head.swap(i, random.below(i + 1));
    }
    head.truncate(8);
    Lent { variables: 16, head, labels, axes }
}

#[test]
fn full_size_by_stages() {
    let mut random = Random(3);
    let mut seen = Seen::default();
    let mut answers = 0;
    for round in 0..6 {
        // a chain of 64 rows first, so that there are 64 levels
        let post = random_tree(&mut random, 1024, 64, 64);
        // one label for all rows, or two, or so many that few rows can be an answer
        let kinds = [1, 2, 100][round % 3];
        let label: Vec<u16> = (0..1024).map(|_| random.below(kinds) as u16).collect();
        let table = Table::new(post, label);
        assert_eq!(table.tree.as_ref().unwrap().level.iter().max(), Some(&63));
        for set in 0..3 {
            let q = full_query(&mut random, &table, set);
            let asked = Asked::new(table.tree.as_ref().unwrap(), &q);
            answers += asked.first().0.is_some() as usize;
            for (allowance, room) in [(u64::MAX, 20), (random.below(60_000) as u64, 20), (u64::MAX, 1)] {
                let got = compare_listing(&table, &q, allowance, 256, room * 8 + 7, false);
                seen.endings[got[2] as usize] += 1;
                seen.lists += (got[3] > 1) as usize;
            }
            compare_all(&mut random, &table, &q, 12, false, &mut seen);
            if round == 0 {
                let mut wrong = q.clone();
                wrong.axes.extend([wrong.axes[0], 0, 0]);
                compare_all(&mut random, &table, &wrong, 12, false, &mut seen);
                let mut wrong = q.clone();
                wrong.labels.extend([0, 0]);
                compare_all(&mut random, &table, &wrong, 12, false, &mut seen);
                let mut wrong = q;
                wrong.head.push(0);
                compare_all(&mut random, &table, &wrong, 12, false, &mut seen);
            }
        }
    }
    assert!(seen.endings.iter().all(|&times| times >= 5) && seen.lists >= 20, "{seen:?}");
    assert_eq!(answers, 18, "each of these queries is made to have an answer");
}

#[test]
fn full_size_shapes() {
    let mut random = Random(4);
    let mut seen = Seen::default();
    let chain = random_tree(&mut random, 1024, 1024, 1024);
    let mut flat: Vec<u16> = (0..1023).collect();
    flat.insert(0, 1023);
    for post in [chain, flat] {
        let label: Vec<u16> = (0..1024).map(|_| random.below(2) as u16).collect();
        let table = Table::new(post.clone(), label.clone());
        assert!(table.tree.is_some());
        for _ in 0..4 {
            let mut q = random_query(&mut random, 3, 2);
            q.head = vec![0];
            compare_all(&mut random, &table, &q, 40, false, &mut seen);
        }
        let (mut longer, mut label) = (post, label);
        for p in longer.iter_mut() {
            *p += 1;
        }
        longer.push(0);
        label.push(0);
        assert_eq!(calls::check_table(&longer, &label), refused(1));
    }
}

#[test]
fn whole_lists_of_full_tables() {
    let mut random = Random(5);
    for code in 0..7 {
        let table = Table::new(random_tree(&mut random, 1024, 64, 64), vec![0; 1024]);
        let q = Lent { variables: 2, head: vec![1], labels: vec![], axes: vec![code, 0, 1] };
        let asked = Asked::new(table.tree.as_ref().unwrap(), &q);
        // with one head variable, one pruning shows the list: the rows that are left, rising
        let mut sets = asked.label_sets();
        asked.prune(&mut sets);
        let mut list: Vec<usize> = (0..1024).filter(|&r| has(&sets[1], r)).collect();
        list.sort_by_key(|&r| table.tree.as_ref().unwrap().key(asked.set, r));
        let (mut words, mut found) = (set_buffer(32), tuple_buffer(1025));
        let answer = calls::list_answers(&table.post, &table.label, &q, u64::MAX, &mut words, &mut found);
        assert_eq!(answer[..4], [0, 0, 0, list.len() as u64]);
        assert_eq!(found[..list.len()], list.iter().map(|&r| r as u16).collect::<Vec<_>>());
        assert_eq!(found[list.len()..], tuple_buffer(1025)[list.len()..]);
        assert_eq!(words, vec![0; 32]);
    }
}

#[test]
fn limits_on_both_sides() {
    let one = |variables, head: Vec<u8>, labels: Vec<u16>, axes: Vec<u8>| Lent { variables, head, labels, axes };
    let cases = [
        (one(1, vec![], vec![], vec![]), told(0, 0, &[1])),
        (one(16, (0..8).collect(), [15, 65_535].repeat(32), [2, 15, 0].repeat(32)), told(0, 0, &[1])),
        (one(0, vec![], vec![], vec![]), refused(4)),
        (one(17, vec![], vec![], vec![]), refused(4)),
        (one(16, (0..9).collect(), vec![], vec![]), refused(4)),
        (one(16, vec![], [0, 0].repeat(33), vec![]), refused(4)),
        (one(16, vec![], vec![], [2, 0, 0].repeat(33)), refused(4)),
        (one(16, vec![], vec![0], vec![]), refused(4)),
        (one(16, vec![], vec![], vec![1, 0]), refused(4)),
        (one(16, vec![0, 0], vec![], vec![]), refused(5)),
        (one(16, vec![16], vec![], vec![]), refused(5)),
        (one(16, vec![], vec![16, 0], vec![]), refused(5)),
        (one(16, vec![], vec![256, 0], vec![]), refused(5)),
        (one(16, vec![], vec![], vec![7, 0, 0]), refused(5)),
        (one(16, vec![], vec![], vec![1, 16, 0]), refused(5)),
        (one(16, vec![], vec![], vec![1, 0, 16]), refused(5)),
        (one(16, vec![], vec![], vec![1, 0, 0, 6, 0, 0]), refused(6)),
        (one(16, vec![], vec![], vec![6, 0, 0]), told(0, 0, &[2])),
        (one(16, vec![], vec![], vec![0, 0, 0, 3, 0, 0, 4, 0, 0, 5, 0, 0]), told(0, 0, &[3])),
    ];
    for (q, expected) in cases {
        assert_eq!(calls::check_query(&q), expected, "{q:?}");
    }
}

/// Any length is taken: what is far beyond the limits is refused like what is just beyond them.
#[test]
fn very_long_lists() {
    let long = 100_002;
    let mut random = Random(6);
    let table = Table::new(vec![0], vec![0]);
    let query = Lent { variables: 1, head: vec![0], labels: vec![0, 0], axes: vec![2, 0, 0] };
    for q in [
        query.clone(),
        Lent { head: vec![0; long], ..query.clone() },
        Lent { labels: vec![0; long], ..query.clone() },
        Lent { axes: vec![0; long], ..query.clone() },
        Lent { head: vec![0; 256], labels: vec![0; 65_536], axes: vec![0; 3 * 65_536], ..query.clone() },
    ] {
        compare_all(&mut random, &table, &q, 3, true, &mut Seen::default());
    }
    for (post, label) in [(vec![0; long], vec![0; long]), (vec![0], vec![0; long]), (vec![0; 65_537], vec![0; 65_537])]
    {
        compare_all(&mut random, &Table::new(post, label), &query, 3, true, &mut Seen::default());
    }
    // buffers far longer than is needed
    compare_listing(&table, &query, u64::MAX, long, long, true);
}

/// The examples that document 01 gives on table D.
#[test]
fn examples_of_the_document() {
    let post: Vec<u16> = vec![9, 2, 0, 1, 8, 3, 7, 4, 6, 5];
    // S NP DT NN VP VBD PP IN NP NN, with NP = 0 and NN = 1
    let label: Vec<u16> = vec![65_535, 0, 65_535, 1, 65_535, 65_535, 65_535, 65_535, 0, 1];
    let levels = Table::new(post.clone(), label.clone()).tree.unwrap().level;
    assert_eq!(levels, [0, 1, 2, 2, 1, 2, 2, 3, 3, 4]);
    for (column, number) in [
        (vec![0], 0),
        (vec![2, 0, 1], 0),
        (vec![2, 1, 0], 0),
        (vec![1, 2, 0], 2),
        (vec![3, 1, 2, 0], 3),
        (post.clone(), 0),
    ] {
        assert_eq!(calls::check_table(&column, &vec![0; column.len()]), refused(number));
    }
    let list = |q: &Lent, allowance: u64, room: usize| {
        let k = q.head.len();
        let (mut words, mut found) = (set_buffer(2), tuple_buffer(room * k));
        let answer = calls::list_answers(&post, &label, q, allowance, &mut words, &mut found);
        found.truncate(answer[3] as usize * k);
        (answer[2..5].to_vec(), found)
    };
    let query = Lent { variables: 2, head: vec![0, 1], labels: vec![0, 0, 1, 1], axes: vec![1, 0, 1] };
    assert_eq!(list(&query, 1_000_000, 3), (vec![0, 2, 6], vec![1, 3, 8, 9]));
    assert_eq!(list(&query, 2, 3), (vec![2, 1, 2], vec![1, 3]));
    assert_eq!(list(&query, 3, 2), (vec![1, 2, 3], vec![1, 3, 8, 9]));
    assert_eq!(list(&query, 5, 3), (vec![2, 2, 5], vec![1, 3, 8, 9]));
    assert_eq!(list(&query, 6, 3), (vec![0, 2, 6], vec![1, 3, 8, 9]));
    let following = Lent { variables: 2, head: vec![0], labels: vec![1, 0], axes: vec![6, 1, 0] };
    assert_eq!(list(&following, u64::MAX, 20).1, [5, 7, 9, 8, 6, 4]);
    let child = Lent { variables: 2, head: vec![0], labels: vec![], axes: vec![0, 1, 0] };
    assert_eq!(list(&child, u64::MAX, 20).1, [1, 4, 2, 3, 5, 6, 7, 8, 9]);
    let child_of_itself = Lent { variables: 1, head: vec![0], labels: vec![], axes: vec![0, 0, 0] };
    assert_eq!(list(&child_of_itself, u64::MAX, 20).1, []);
    let itself = Lent { variables: 1, head: vec![0], labels: vec![], axes: vec![2, 0, 0] };
    assert_eq!(list(&itself, u64::MAX, 20).1, [0, 1, 2, 3, 4, 5, 6, 7, 8, 9]);
}
