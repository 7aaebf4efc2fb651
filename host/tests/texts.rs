//! The library compared with document 01 by definition: query texts and bracketed sentences.

mod by_definition;
mod calls;

use by_definition::random::Random;
use by_definition::texts::{self, QueryBuffers, AXES};
use by_definition::{refused, told};

const WHITE: [u8; 4] = *b" \t\n\r";

fn query_buffers(names: usize) -> QueryBuffers {
    QueryBuffers {
        names: (0..names).map(|i| 0x80 + (i % 100) as u8).collect(),
        head: [0xa1; 8],
        labels: [0xa1b2; 64],
        axes: [0xa3; 96],
    }
}

fn compare_query(text: &[u8], names: usize) -> [u64; 8] {
    let (mut mine, mut theirs) = (query_buffers(names), query_buffers(names));
    let expected = texts::read_query(text, &mut mine);
    let got = calls::read_query(text, &mut theirs);
    let shown = String::from_utf8_lossy(text);
    assert_eq!(got, expected, "{shown:?} with {names} bytes for names");
    assert_eq!(theirs, mine, "{shown:?} with {names} bytes for names, buffers");
    got
}

fn column(length: usize, pattern: u16) -> Vec<u16> {
    (0..length).map(|i| pattern ^ (i as u16)).collect()
}

fn compare_sentence(text: &[u8], list: &[u8], posts: usize, labels: usize) -> [u64; 8] {
    let (mut my_post, mut my_label) = (column(posts, 0x7100), column(labels, 0x6200));
    let (mut their_post, mut their_label) = (my_post.clone(), my_label.clone());
    let expected = texts::read_sentence(text, list, &mut my_post, &mut my_label);
    let got = calls::read_sentence(text, list, &mut their_post, &mut their_label);
    let shown = String::from_utf8_lossy(text);
    let names = String::from_utf8_lossy(list);
    assert_eq!(got, expected, "{shown:?} with names {names:?} into {posts} and {labels}");
    assert_eq!(their_post, my_post, "{shown:?} with names {names:?} into {posts} and {labels}, post");
    assert_eq!(their_label, my_label, "{shown:?} with names {names:?} into {posts} and {labels}, label");
    got
}

fn blanks(random: &mut Random, text: &mut Vec<u8>) {
    while random.once_in(4) {
        text.push(random.pick(&WHITE));
    }
}

/// Every text that differs from this one at one place: a byte changed, left out, put in, or the text cut there.
fn damaged(random: &mut Random, text: &[u8], bytes: &[u8], mut see: impl FnMut(&mut Random, &[u8])) {
    for at in 0..=text.len() {
        see(random, &text[..at]);
        let (front, back) = text.split_at(at);
        for _ in 0..3 {
            let b = if random.once_in(6) { random.next() as u8 } else { random.pick(bytes) };
            see(random, &[front, &[b], back].concat());
            if !back.is_empty() {
                see(random, &[front, &[b], &back[1..]].concat());
            }
        }
        if !back.is_empty() {
            see(random, &[front, &back[1..]].concat());
        }
    }
}

// ---- Query texts

fn random_variable(random: &mut Random, most: usize) -> Vec<u8> {
    let mut v = vec![b'a' + random.below(4) as u8];
    for _ in 0..random.below(most) {
        v.push(random.pick(b"az09"));
    }
    v
}

fn random_name(random: &mut Random) -> Vec<u8> {
    if random.once_in(2) {
        return random.pick(&AXES).to_vec();
    }
    let mut name = vec![random.pick(b"ACNFQZ")];
    let length = random.pick(&[0, 0, 1, 1, 2, 14, 15]);
    for _ in 0..length {
        name.push(random.pick(b"AEZ09$|"));
    }
    name
}

/// A legal text most of the time: the names and variables are few, so that they come again.
fn random_query_text(random: &mut Random, conditions: usize) -> Vec<u8> {
    let variables: Vec<Vec<u8>> = (0..1 + random.below(5)).map(|_| random_variable(random, 8)).collect();
    let names: Vec<Vec<u8>> = (0..1 + random.below(5)).map(|_| random_name(random)).collect();
    let any = |random: &mut Random, words: &[Vec<u8>]| words[random.below(words.len())].clone();
    let mut text = b"Q".to_vec();
    let put = |random: &mut Random, text: &mut Vec<u8>, token: &[u8]| {
        blanks(random, text);
        text.extend(token);
    };
    put(random, &mut text, b"(");
    for i in 0..random.below(3) {
        if i > 0 {
            put(random, &mut text, b",");
        }
        let v = any(random, &variables);
        put(random, &mut text, &v);
    }
    put(random, &mut text, b")");
    put(random, &mut text, b"<-");
    for i in 0..1 + random.below(conditions) {
        if i > 0 {
            put(random, &mut text, b",");
        }
        let name = any(random, &names);
        put(random, &mut text, &name);
        put(random, &mut text, b"(");
        let v = any(random, &variables);
        put(random, &mut text, &v);
        if AXES.contains(&&name[..]) {
            put(random, &mut text, b",");
            let v = any(random, &variables);
            put(random, &mut text, &v);
        }
        put(random, &mut text, b")");
    }
    put(random, &mut text, b".");
    blanks(random, &mut text);
    text
}

#[test]
fn query_texts_and_every_damage() {
    let mut random = Random(11);
    let mut numbers = [0usize; 14];
    for _ in 0..60 {
        let text = random_query_text(&mut random, 4);
        numbers[compare_query(&text, 200)[0] as usize] += 1;
        damaged(&mut random, &text, b"Q(),.<-+*xyz09NPACF$| \n", |_, t| {
            numbers[compare_query(t, 200)[0] as usize] += 1;
        });
    }
    for _ in 0..4_000 {
        let text = random_query_text(&mut random, 40);
        let names = random.pick(&[0, 5, 20, 60, 300]);
        numbers[compare_query(&text, names)[0] as usize] += 1;
    }
    // each way out is seen often
    for number in [0, 4, 5, 9, 10, 13] {
        assert!(numbers[number] > 50, "refusal {number} came {} times", numbers[number]);
    }
}

#[test]
fn query_texts_going_on_with_each_byte() {
    let texts: [&[u8]; 5] = [
        b"Q(x,y) <- NP(x), Child+(x,y), NN(y). \n",
        b"Q () <- NextSibling*(a,b),NextSibling(a,a),NextSibling+ (b , b).",
        b"Q(a1234567)<-Following(a1234567,b),Child*(b,a1234567),Child(b,b).",
        b"Q\t(c)\r<-ABCDEFGHIJ$|0123 ( c ) .",
        b"Q(q)<-C(q),N(q),F(q),Q(q),NE$(q).",
    ];
    for text in texts {
        assert_eq!(compare_query(text, 100)[0], 0, "{:?}", String::from_utf8_lossy(text));
        for at in 0..=text.len() {
            for b in 0..=255u8 {
                compare_query(&[&text[..at], &[b]].concat(), 100);
            }
        }
    }
}

#[test]
fn query_texts_of_random_tokens() {
    let mut random = Random(12);
    let tokens: [&[u8]; 20] = [
        b"Q",
        b"(",
        b")",
        b",",
        b"<-",
        b".",
        b"x",
        b"yy1",
        b"abcdefgh",
        b"NP",
        b"Child",
        b"Child+",
        b"NextSibling*",
        b"Following",
        b" ",
        b"\n",
        b"<",
        b"A123456789012345",
        b"Chil",
        b"+",
    ];
    for _ in 0..20_000 {
        let mut text = b"Q(x)<-".to_vec();
        text.truncate(random.below(7));
        for _ in 0..random.below(12) {
            text.extend(random.pick(&tokens));
        }
        compare_query(&text, 30);
    }
}

/// Head and conditions of the given sizes, over so many variables, each in some condition.
fn sized_query(variables: usize, head: usize, labels: usize, axes: usize, names: usize) -> Vec<u8> {
    let heads: Vec<String> = (0..head).map(|i| format!("v{}", i % variables)).collect();
    let mut conditions: Vec<String> = Vec::new();
    for i in 0..labels {
        conditions.push(format!("ABCDEFGHIJKLM{:03}(v{})", i % names, i % variables));
    }
    for i in 0..axes {
        conditions.push(format!("Child*(v{},v{})", i % variables, (i + 1) % variables));
    }
    format!("Q({}) <- {}.", heads.join(", "), conditions.join(", ")).into_bytes()
}

#[test]
fn query_texts_at_the_limits() {
    // the largest query: 16 variables, a head of 8, 32 conditions of each kind, 32 names of 16 bytes
    let text = sized_query(16, 8, 32, 32, 32);
    assert_eq!(compare_query(&text, 544), told(0, 0, &[544, 16, 8, 32, 32]));
    for names in [0, 1, 543, 545, 600] {
        compare_query(&text, names);
    }
    assert_eq!(compare_query(&text, 543), refused(9));
    assert_eq!(compare_query(&sized_query(17, 8, 32, 32, 32), 600), refused(4));
    assert_eq!(compare_query(&sized_query(16, 9, 32, 32, 32), 600), refused(4));
    assert_eq!(compare_query(&sized_query(16, 8, 33, 32, 32), 600), refused(4));
    assert_eq!(compare_query(&sized_query(16, 8, 32, 33, 32), 600), refused(4));
    assert_eq!(compare_query(&sized_query(3, 9, 3, 3, 1), 600), refused(4));
    assert_eq!(compare_query(&sized_query(3, 4, 3, 3, 1), 600), refused(5));
    for variables in [1, 15, 16, 17, 18, 40] {
        for head in [0, 1, 8, 9, 20] {
            for (labels, axes) in [(1, 0), (0, 1), (31, 32), (32, 32), (33, 0), (0, 33), (100, 100)] {
                for names in [1, 31, 32, 33, 50] {
                    compare_query(&sized_query(variables, head, labels, axes, names), 600);
                }
            }
        }
    }
}

#[test]
fn very_long_texts() {
    assert_eq!(compare_query(&sized_query(40, 300, 5_000, 5_000, 900), 70_000), refused(4));
    let mut text = sized_query(16, 8, 32, 32, 32);
    text.extend(b" ".repeat(70_000));
    assert_eq!(compare_query(&text, 70_000)[0], 0);
    text.push(b'x');
    assert_eq!(compare_query(&text, 70_000), told(10, text.len() - 1, &[]));

    let blank = b" ".repeat(70_000);
    assert_eq!(compare_sentence(&blank, b"", 9, 9), told(11, 70_000, &[]));
    let text = [&blank[..], b"(S x)", &blank].concat();
    assert_eq!(compare_sentence(&text, &b"x".repeat(70_000), 70_000, 70_000), told(0, 0, &[1, 70_005]));
    assert_eq!(compare_sentence(&text, &b"\n".repeat(70_000), 9, 9), refused(4));
}

#[test]
fn places_of_query_texts_by_reading() {
    let cases: [(&[u8], u64); 18] = [
        (b"", 0),
        (b"q", 0),
        (b" Q", 0),
        (b"Q", 1),
        (b"Q(x)< -NP(x).", 5),
        (b"Q(x)<-Child +(x,x).", 12),
        (b"Q(x)<-Chil(x,x).", 10),
        (b"Q(x)<-Childs(x,x).", 11),
        (b"Q(x)<-CHild(x,x).", 8),
        (b"Q(x)<-Child(x).", 13),
        (b"Q(x)<-NP(x,x).", 10),
        (b"Q(x)<-NP(x),.", 12),
        (b"Q(x)<-NP(x)", 11),
        (b"Q(x)<-NP(x). .", 13),
        (b"Q(abcdefghi)<-NP(x).", 10),
        (b"Q(x)<-ABCDEFGHIJKLMNOPQ(x).", 22),
        (b"Q(x,)<-NP(x).", 4),
        (b"Q(x)<-.", 6),
    ];
    for (text, place) in cases {
        assert_eq!(compare_query(text, 99), told(10, place as usize, &[]), "{:?}", String::from_utf8_lossy(text));
    }
}

// ---- Sentences

fn random_label(random: &mut Random) -> Vec<u8> {
    let length = random.pick(&[1, 1, 2, 2, 3, 63, 64]);
    let mut label: Vec<u8> = (0..length).map(|_| random.pick(b"NPSV")).collect();
    if random.once_in(4) {
        label[random.below(length)] = random.pick(b"-=\xff!");
    }
    label
}

fn write_tree(random: &mut Random, text: &mut Vec<u8>, levels: usize) {
    text.push(b'(');
    text.extend(random_label(random));
    text.push(random.pick(&WHITE));
    blanks(random, text);
    if levels > 1 && !random.once_in(3) {
        for _ in 0..1 + random.below(3) {
            write_tree(random, text, levels - 1);
            blanks(random, text);
        }
    } else {
        text.extend(random_label(random));
        blanks(random, text);
    }
    text.push(b')');
}

fn random_sentence(random: &mut Random, levels: usize) -> Vec<u8> {
    let mut text = Vec::new();
    blanks(random, &mut text);
    let bare = random.once_in(2);
    if bare {
        text.push(b'(');
        blanks(random, &mut text);
    }
    write_tree(random, &mut text, levels);
    if bare {
        blanks(random, &mut text);
        text.push(b')');
    }
    if random.once_in(3) {
        text.extend(random.pick(&[&b" "[..], b"x", b"(S x)", b")", b"\n\n("]));
    }
    text
}

fn random_names(random: &mut Random) -> Vec<u8> {
    let mut list = Vec::new();
    let count = random.pick(&[0, 1, 2, 5, 5, 5, 32, 33, 40]);
    for _ in 0..count {
        for _ in 0..random.below(4) {
            list.push(random.pick(b"NPSV"));
        }
        list.push(b'\n');
    }
    if random.once_in(3) {
        list.extend(b"NP");
    }
    list
}

#[test]
fn sentences_and_every_damage() {
    let mut random = Random(13);
    let mut numbers = [0usize; 14];
    for _ in 0..60 {
        let text = random_sentence(&mut random, 4);
        let names = random_names(&mut random);
        damaged(&mut random, &text, b"() \n\tSN-=\x00\x1f", |_, t| {
            numbers[compare_sentence(t, &names, 50, 50)[0] as usize] += 1;
        });
    }
    for _ in 0..6_000 {
        let text = random_sentence(&mut random, 5);
        let names = random_names(&mut random);
        let (posts, labels) = (random.pick(&[0, 1, 3, 10, 100]), random.pick(&[0, 1, 3, 10, 100, 100]));
        numbers[compare_sentence(&text, &names, posts, labels)[0] as usize] += 1;
    }
    for number in [0, 4, 9, 11] {
        assert!(numbers[number] > 50, "refusal {number} came {} times", numbers[number]);
    }
}

#[test]
fn every_short_sentence() {
    let bytes = b"( )a";
    for length in 0..=7u32 {
        for code in 0..4usize.pow(length) {
            let text: Vec<u8> = (0..length).map(|i| bytes[code / 4usize.pow(i) % 4]).collect();
            compare_sentence(&text, b"a\n", 4, 4);
        }
    }
}

#[test]
fn sentences_going_on_with_each_byte() {
    for text in [&b" ( (S (NP-SBJ (DT a) (NN dog)) (VP= ran )) ) "[..], b"(S(", b"(S\r( A a) )", b"((A a)(B b))"] {
        for at in 0..=text.len() {
            for b in 0..=255u8 {
                compare_sentence(&[&text[..at], &[b]].concat(), b"S\nNP\nVP\n", 10, 10);
            }
        }
    }
}

/// So many trees inside each other, then so many side by side in the innermost.
fn shaped(levels: usize, side_by_side: usize) -> Vec<u8> {
    let mut text = b"(S ".repeat(levels);
    text.extend(b"(NP x)".repeat(side_by_side));
    if side_by_side == 0 {
        text.extend(b"x");
    }
    text.extend(b")".repeat(levels));
    text
}

#[test]
fn sentences_at_the_limits() {
    assert_eq!(compare_sentence(&shaped(64, 0), b"", 64, 64), told(0, 0, &[64, 64 * 3 + 1 + 64]));
    assert_eq!(compare_sentence(&shaped(65, 0), b"", 100, 100), told(12, 64 * 3, &[]));
    assert_eq!(compare_sentence(&shaped(64, 1), b"", 100, 100), told(12, 64 * 3, &[]));
    assert_eq!(compare_sentence(&shaped(1, 1023), b"NP\nS\n", 1024, 1024)[..3], [0, 0, 1024]);
    assert_eq!(compare_sentence(&shaped(1, 1024), b"NP\nS\n", 1024, 1024), told(12, 3 + 1023 * 6, &[]));
    assert_eq!(compare_sentence(&shaped(1, 1023), b"NP\nS\n", 1023, 1024), refused(9));
    assert_eq!(compare_sentence(&shaped(1, 1023), b"NP\nS\n", 1024, 1023), refused(9));
    // 64 levels and 1,024 rows at once, and one row more
    assert_eq!(compare_sentence(&shaped(63, 961), b"S\n", 1030, 1030)[..3], [0, 0, 1024]);
    assert_eq!(compare_sentence(&shaped(63, 962), b"S\n", 1030, 1030)[0], 12);
    // a fault before the limit, one at the limit, and one behind it
    let mut text = shaped(1, 1024);
    text[3 + 1022 * 6 + 3] = b'(';
    assert_eq!(compare_sentence(&text, b"", 0, 0)[0], 11);
    let mut text = shaped(1, 1024);
    text[3 + 1023 * 6] = b'x';
    assert_eq!(compare_sentence(&text, b"", 0, 0)[0], 11);
    let mut text = shaped(1, 1024);
    text[3 + 1023 * 6 + 1] = b' ';
    assert_eq!(compare_sentence(&text, b"", 0, 0)[0], 12);
    // 33 names come before all
    assert_eq!(compare_sentence(b"x", &b"\n".repeat(33), 0, 0), refused(4));
    assert_eq!(compare_sentence(b"x", &b"\n".repeat(32), 0, 0), told(11, 0, &[]));
    for length in [1, 63, 64, 65, 66, 200] {
        let word = b"w".repeat(length);
        compare_sentence(&[b"(", &word[..], b" x)"].concat(), b"", 1, 1);
        compare_sentence(&[b"(S ", &word[..], b")"].concat(), b"", 1, 1);
        compare_sentence(&[b"(S ", &word[..]].concat(), b"", 1, 1);
    }
}

#[test]
fn places_of_sentences_by_reading() {
    let cases: [(&[u8], u64); 13] = [
        (b"", 0),
        (b"  ", 2),
        (b"(S(NP x))", 2),
        (b"( S x)", 2),
        (b"(S ( NP x))", 4),
        (b"(((A a)))", 2),
        (b"( (A a) (B b) )", 8),
        (b"()", 1),
        (b"(NP)", 3),
        (b"(NP )", 4),
        (b"(A a b)", 5),
        (b"(A a", 4),
        (b"(A (B b) c)", 9),
    ];
    for (text, place) in cases {
        assert_eq!(
            compare_sentence(text, b"", 9, 9),
            told(11, place as usize, &[]),
            "{:?}",
            String::from_utf8_lossy(text)
        );
    }
    assert_eq!(compare_sentence(b"(A (B b)(C c))", b"C\n", 9, 9), told(0, 0, &[3, 14]));
    assert_eq!(compare_sentence(b"(S x)y", b"", 9, 9), told(0, 0, &[1, 5]));
}
