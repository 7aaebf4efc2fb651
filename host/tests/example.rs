//! The safe functions: document 01's whole run, and each refusal by its name and number.

mod by_definition;
mod calls;

use pouchmeadow::{
    check_query, check_table, find_after, list_answers, prune, read_query, read_sentence, words_needed, yes_or_no,
    Condition, Ending, LabelCondition, Listing, Query, Refusal, CHILD_PLUS, FOLLOWING, NOT_NAMED,
};

const QUERY: &[u8] = b"Q(x,y) <- NP(x), Child+(x,y), NN(y).";
const SENTENCE: &[u8] = b"( (S (NP (DT a) (NN dog)) (VP (VBD ran) (PP (IN in) (NP (NN rain))))) )";

struct Read {
    query: Query,
    post: Vec<u16>,
    label: Vec<u16>,
}

fn example() -> Read {
    let mut names = [7u8; 8];
    let read = read_query(QUERY, &mut names).expect("a query text");
    assert_eq!((read.bytes, &names[..]), (6, &b"NP\nNN\n\x07\x07"[..]));
    let (mut post, mut label) = (vec![7; 11], vec![7; 11]);
    let text = [SENTENCE, b"\n(S x)"].concat();
    let sentence = read_sentence(&text, &names[..read.bytes], &mut post, &mut label).expect("a sentence");
    assert_eq!((sentence.rows, sentence.rest), (10, &b"\n(S x)"[..]));
    assert_eq!((post.pop(), label.pop()), (Some(7), Some(7)));
    Read { query: read.query, post, label }
}

#[test]
fn a_whole_run() {
    let Read { query, post, label } = example();
    let expected = Query {
        variables: 2,
        head: vec![0, 1],
        labels: vec![LabelCondition { variable: 0, label: 0 }, LabelCondition { variable: 1, label: 1 }],
        axes: vec![Condition { code: CHILD_PLUS, first: 0, second: 1 }],
    };
    assert_eq!(query, expected);
    assert_eq!(post, [9, 2, 0, 1, 8, 3, 7, 4, 6, 5]);
    assert_eq!(label, [NOT_NAMED, 0, NOT_NAMED, 1, NOT_NAMED, NOT_NAMED, NOT_NAMED, NOT_NAMED, 0, 1]);
    assert_eq!(check_table(&post, &label), Ok(()));
    assert_eq!(check_query(&query), Ok(1));

    let mut sets = vec![7; words_needed(&query, post.len()) + 1];
    assert_eq!(prune(&post, &label, &query, &mut sets), Ok(0));
    assert_eq!(sets, [1 << 1 | 1 << 8, 1 << 3 | 1 << 9, 7]);
    assert_eq!(yes_or_no(&post, &label, &query, &mut sets), Ok(true));
    assert_eq!(sets, [0, 0, 7]);

    let mut found = [7; 3];
    assert_eq!(find_after(&post, &label, &query, &[1, 3], &mut sets, &mut found), Ok(true));
    assert_eq!(found, [8, 9, 7]);
    assert_eq!(find_after(&post, &label, &query, &[8, 9], &mut sets, &mut found), Ok(false));

    let mut found = [7; 5];
    let list =
        |allowance, found: &mut [u16], sets: &mut [u64]| list_answers(&post, &label, &query, allowance, sets, found);
    let ended = |ending, tuples, used| Ok(Listing { ending, tuples, used });
    assert_eq!(list(1_000_000, &mut [0; 6], &mut sets), ended(Ending::Finished, 2, 6));
    assert_eq!(list(1_000_000, &mut found, &mut sets), ended(Ending::Full, 2, 3));
    assert_eq!(found, [1, 3, 8, 9, 7]);
    assert_eq!(list(5, &mut [0; 6], &mut sets), ended(Ending::Spent, 2, 5));
}

#[test]
fn refusals_by_name() {
    let Read { query, post, label } = example();
    let mut sets = vec![0; 2];
    let refusals = [
        (check_table(&post, &label[1..]).unwrap_err(), Refusal::Columns, 1),
        (check_table(&[1, 2, 0], &[0; 3]).unwrap_err(), Refusal::PostNumbers, 2),
        (check_table(&[3, 1, 2, 0], &[0; 4]).unwrap_err(), Refusal::ThreeRows, 3),
        (check_query(&Query::default()).unwrap_err(), Refusal::Counts, 4),
        (check_query(&Query { variables: 1, ..query.clone() }).unwrap_err(), Refusal::Variables, 5),
        {
            let mut mixed = query.clone();
            mixed.axes.push(Condition { code: FOLLOWING, first: 0, second: 1 });
            (check_query(&mixed).unwrap_err(), Refusal::Axes, 6)
        },
        {
            let no_head = Query { head: vec![], ..query.clone() };
            let answer = list_answers(&post, &label, &no_head, 9, &mut sets, &mut [0; 4]);
            (answer.unwrap_err(), Refusal::EmptyHead, 7)
        },
        {
            let answer = find_after(&post, &label, &query, &[1, 10], &mut sets, &mut [0; 2]);
            (answer.unwrap_err(), Refusal::Tuple, 8)
        },
        (prune(&post, &label, &query, &mut sets[..1]).unwrap_err(), Refusal::ShortBuffer, 9),
        (read_query(b"Q(x) NP", &mut []).unwrap_err(), Refusal::QueryText(5), 10),
        (read_sentence(b"(S )", &[], &mut [], &mut []).unwrap_err(), Refusal::Brackets(3), 11),
        (read_sentence(&b"(S ".repeat(65), &[], &mut [], &mut []).unwrap_err(), Refusal::TooLarge(192), 12),
        (read_query(b"Q(x) <- NP(y).", &mut [0; 3]).unwrap_err(), Refusal::HeadVariable, 13),
    ];
    for (got, expected, number) in refusals {
        assert_eq!(got, expected);
        assert_eq!(got.number(), number);
    }
    assert_eq!(Refusal::Brackets(3).place(), 3);
    assert_eq!(Refusal::Counts.place(), 0);
}
