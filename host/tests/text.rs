//! Rules as text, worked by hand: what a text stands for, where it is refused, what is printed.

use nadhirukh_host::build::{
    alone, constant, of, table, table_a, variable, Rule, AT_LEAST, AT_MOST, DIFFERENCE, EQUAL,
    GREATER, LESS, PRODUCT, QUOTIENT, REMAINDER, SUM, UNEQUAL,
};
use nadhirukh_host::format::{LONGEST_PRINTED, LONGEST_TABLE, MAX_TEXT};
use nadhirukh_host::outcome::{Outcome, COUNTS_FROM, RESULT_WORDS};
use nadhirukh_host::reference::{check, print_text, read_text};

/// What a buffer holds before a call.
const FILL: u8 = 0xA5;

/// The table of a good text; the bytes behind it stay.
fn reads(text: &str) -> Vec<u8> {
    let mut room = vec![FILL; LONGEST_TABLE + 1];
    let written = read_text(text.as_bytes(), &mut room);
    assert_eq!(written.outcome, Outcome::GOOD, "{}", text);
    let behind = room.split_off(written.length as usize);
    assert!(behind.iter().all(|byte| *byte == FILL));
    room
}

/// The number and place of a refused text, for which nothing is written.
fn refused_within(text: &[u8], room: usize) -> (u32, u32) {
    let mut room = vec![FILL; room];
    let written = read_text(text, &mut room);
    assert!(room.iter().all(|byte| *byte == FILL));
    refusal(written.outcome, written.length)
}

fn refused(text: &str) -> (u32, u32) {
    refused_within(text.as_bytes(), LONGEST_TABLE)
}

fn refusal(outcome: Outcome, length: u32) -> (u32, u32) {
    assert!(outcome.number >= 16, "{:?}", outcome);
    assert_eq!(
        outcome.words()[COUNTS_FROM..],
        [0; RESULT_WORDS - COUNTS_FROM]
    );
    assert_eq!(length, 0);
    (outcome.number, outcome.place)
}

/// The text of a good table, which reads back to the same bytes.
fn prints(table: &[u8]) -> String {
    let mut room = vec![FILL; MAX_TEXT];
    let written = print_text(table, &mut room);
    assert_eq!(written.outcome, Outcome::GOOD);
    let behind = room.split_off(written.length as usize);
    assert!(behind.iter().all(|byte| *byte == FILL));
    let text = String::from_utf8(room).expect("ASCII");
    assert_eq!(reads(&text), table, "{}", text);
    text
}

/// The text of table A of document 01.
const TABLE_A: &str = "s0/2.\ns0(V0, V1) \\ s0(V0, V2) <=> V1 =< V2 | true.\n";

#[test]
fn table_a_is_read_and_printed() {
    assert_eq!(reads(TABLE_A), table_a());
    assert_eq!(prints(&table_a()), TABLE_A);
    let squeezed = "s0/2.s0(V0,V1)\\s0(V0,V2)<=>V1=<V2|true.";
    assert_eq!(reads(squeezed), table_a());
    let spread = "\r\n s0 / 2 .\ns0 ( V0 , V1 ) \\\ns0 ( V0 , V2 )\r<=>\nV1 =< V2 | true .  ";
    assert_eq!(reads(spread), table_a());
}

#[test]
fn the_empty_text_is_the_empty_table() {
    for text in ["", " ", "\n", "\r\n  \r"] {
        assert_eq!(reads(text), [8]);
    }
    assert_eq!(prints(&[8]), "");
    assert_eq!(refused_within(b"", 0), (51, 0));
}

#[test]
fn arities_are_constants_from_0_to_4_in_any_spelling() {
    assert_eq!(reads("s0/0.s1/04.s2/-0.s3/4."), table(&[0, 4, 0, 4], &[]));
    assert_eq!(prints(&table(&[0, 4], &[])), "s0/0.\ns1/4.\n");
    assert_eq!(refused("s0/5."), (50, 3));
    assert_eq!(refused("s0/-1."), (50, 3));
    assert_eq!(refused("s0/V0."), (50, 3));
    let many = |last: usize| (0..=last).map(|k| format!("s{}/1.", k)).collect::<String>();
    assert_eq!(reads(&many(31)), table(&[1; 32], &[]));
    // There is no symbol for a 33rd declaration.
    assert_eq!(refused(&many(32)), (49, many(31).len() as u32));
}

#[test]
fn a_symbol_out_of_turn_is_refused_at_its_slash() {
    assert_eq!(refused("s1/2."), (50, 2));
    assert_eq!(refused("s0/2. s0/2."), (50, 8));
    assert_eq!(refused("s0/2. s2/2."), (50, 8));
    assert_eq!(refused("s0/0. s0 <=> true. s1/0."), (50, 21));
    assert_eq!(refused("s0/0. s0 <=> true. s0/0."), (50, 21));
}

#[test]
fn heads_are_kept_or_removed_by_the_arrow() {
    let [x, y] = [0, 1].map(variable);
    let rules = [
        Rule::new().remove(0, &[x]).remove(1, &[]),
        Rule::new().keep(0, &[x]).keep(1, &[]),
        Rule::new().keep(0, &[x]).keep(1, &[]).remove(0, &[y]),
        Rule::new().keep(1, &[]).remove(0, &[y]).remove(1, &[]),
    ];
    let text = "s0/1.\ns1/0.\n\
        s0(V0), s1 <=> true.\n\
        s0(V0), s1 ==> true.\n\
        s0(V0), s1 \\ s0(V1) <=> true.\n\
        s1 \\ s0(V1), s1 <=> true.\n";
    assert_eq!(prints(&table(&[1, 0], &rules)), text);
    assert_eq!(refused("s0 \\ s1 ==> true."), (50, 8));
}

#[test]
fn every_comparator_and_operation() {
    let (a, b) = (variable(14), constant(-2_147_483_648));
    let comparators = [EQUAL, UNEQUAL, LESS, AT_MOST, GREATER, AT_LEAST];
    let operations = [SUM, DIFFERENCE, PRODUCT, QUOTIENT, REMAINDER];
    let rule = |comparator, operation| {
        Rule::new()
            .remove(0, &[a])
            .guard(of(operation, a, b), comparator, alone(b))
            .guard(alone(a), comparator, of(operation, b, a))
            .add(0, &[of(operation, a, a)])
    };
    let each = comparators.iter().zip(operations.iter().cycle());
    let rules: Vec<Rule> = each.map(|(c, o)| rule(*c, *o)).collect();
    let mut text = "s0/1.\n".to_string();
    let marks = ["=", "\\=", "<", "=<", ">", ">="].iter();
    for (c, o) in marks.zip(["+", "-", "*", "/", "%", "+"]) {
        text += &format!(
            "s0(V14) <=> V14 {o} -2147483648 {c} -2147483648, V14 {c} -2147483648 {o} V14 | s0(V14 {o} V14).\n",
            c = c,
            o = o
        );
    }
    assert_eq!(prints(&table(&[1], &rules)), text);
}

#[test]
fn bodies_are_true_for_nothing_and_fail_and_facts() {
    let x = variable(15);
    let rule = Rule::new()
        .keep(1, &[x, constant(0), x, constant(7)])
        .fail()
        .add(0, &[])
        .add(1, &[alone(x), of(SUM, x, x), alone(constant(-5)), alone(x)])
        .fail();
    let text = "s0/0.\ns1/4.\n\
        s1(V15, 0, V15, 7) ==> fail, s0, s1(V15, V15 + V15, -5, V15), fail.\n";
    assert_eq!(prints(&table(&[0, 4], &[rule])), text);
    assert_eq!(refused("s0 <=> true, s0."), (50, 11));
    assert_eq!(refused("s0 <=> s0, true."), (50, 11));
    assert_eq!(refused("s0 <=> true(V0)."), (50, 11));
    assert_eq!(refused("s0 <=> fail()."), (50, 11));
    assert_eq!(refused("fail <=> true."), (50, 0));
    assert_eq!(refused("s0 <=> ."), (50, 7));
}

#[test]
fn at_most_four_arguments_and_no_empty_parentheses() {
    assert_eq!(refused("s0(0, 1, 2, 3, 4) <=> true."), (50, 13));
    assert_eq!(refused("s0 <=> s0(0, 1, 2, 3 + 3, 4)."), (50, 24));
    assert_eq!(refused("s0() <=> true."), (50, 3));
    assert_eq!(refused("s0 <=> s0()."), (50, 10));
    assert_eq!(refused("s0(V0 + 1) <=> true."), (50, 6));
    assert_eq!(refused("s0 <=> s0(V0 + 1 + 1)."), (50, 17));
}

#[test]
fn guards_stand_before_one_bar() {
    assert_eq!(refused("s0 <=> | true."), (50, 7));
    assert_eq!(refused("s0 <=> 0 < 1, true."), (50, 14));
    assert_eq!(refused("s0 <=> 0 < 1."), (50, 12));
    assert_eq!(refused("s0 <=> true | true."), (50, 12));
    assert_eq!(refused("s0 <=> 0 < 1 | 0 < 1 | true."), (50, 15));
    assert_eq!(refused("s0 <=> 0 | true."), (50, 9));
    assert_eq!(refused("s0 <=> 0 < 1 < 2 | true."), (50, 13));
}

#[test]
fn a_text_that_could_go_on_is_refused_at_its_length() {
    let whole = "s0 / 1 . s0 ( V0 ) \\ s0 ( V1 ) <=> V0 < 5 | s0 ( V0 - 1 ) , fail .";
    let words: Vec<&str> = whole.split(' ').collect();
    for count in 1..words.len() {
        let cut = words[..count].join(" ");
        if cut == "s0 / 1 ." {
            continue;
        }
        assert_eq!(refused(&cut), (50, cut.len() as u32), "{}", cut);
        let longer = format!("{}\n ", cut);
        assert_eq!(refused(&longer), (50, longer.len() as u32), "{}", cut);
    }
    assert_eq!(reads(whole).len(), 2 + 1 + 2 * 22 + 24 + 46 + 1 + 1);
}

#[test]
fn a_token_that_is_cut_is_another_one_or_none() {
    assert_eq!(refused("s0 <"), (50, 3));
    assert_eq!(refused("s0 <="), (50, 3));
    assert_eq!(refused("s0 =="), (50, 3));
    assert_eq!(refused("s0 <=> tru"), (49, 7));
    assert_eq!(refused("s0 <=> fai."), (49, 7));
    assert_eq!(refused("s0(V) <=> true."), (49, 3));
    assert_eq!(refused("s"), (49, 0));
}

#[test]
fn a_minus_is_an_operation_behind_a_value_alone() {
    let rule = |arguments: &str| format!("s0/2.s0(V0,V1)<=>s0({}).", arguments);
    let [x, five, minus_five] = [variable(0), constant(5), constant(-5)];
    let body = |first, second| {
        let rule = Rule::new().remove(0, &[x, variable(1)]);
        table(&[2], &[rule.add(0, &[first, second])])
    };
    let difference = of(DIFFERENCE, x, five);
    assert_eq!(reads(&rule("V0-5,-5")), body(difference, alone(minus_five)));
    assert_eq!(
        reads(&rule("V0 -5, -5")),
        body(difference, alone(minus_five))
    );
    let by_minus = of(DIFFERENCE, x, minus_five);
    assert_eq!(reads(&rule("V0--5,5")), body(by_minus, alone(five)));
    assert_eq!(reads(&rule("V0 - -5,5")), body(by_minus, alone(five)));
    let constants = of(DIFFERENCE, minus_five, minus_five);
    assert_eq!(
        reads(&rule("-5--5,-0")),
        body(constants, alone(constant(0)))
    );
    assert_eq!(refused("s0<=>s0(- 5)."), (49, 8));
    assert_eq!(refused("s0<=>s0(V0---5)."), (49, 11));
    // Behind a constant a minus is the operation, also where the grammar has none.
    assert_eq!(refused("s0(3 -5) <=> true."), (50, 5));
    // Behind a symbol it belongs to a constant.
    assert_eq!(refused("s0 -5 <=> true."), (50, 3));
}

#[test]
fn tests_come_in_their_order() {
    let too_long = [vec![b' '; MAX_TEXT], vec![b'_']].concat();
    assert_eq!(refused_within(&too_long, 0), (48, 0));
    let no_token = [vec![b')'; MAX_TEXT - 1], vec![b'_']].concat();
    assert_eq!(refused_within(&no_token, 0), (49, MAX_TEXT as u32 - 1));
    assert_eq!(refused_within(&vec![b' '; MAX_TEXT], 0), (51, 0));
    assert_eq!(refused_within(&vec![b')'; MAX_TEXT], 0), (50, 0));
    assert_eq!(refused("s0 ) <=> _"), (49, 9));
    // 51 comes before the table's own tests, and looks at the length of a bad table too.
    let undeclared = b"s0<=>s0.";
    let len = 1 + 22 + 46 + 1;
    assert_eq!(refused_within(undeclared, len - 1), (51, 0));
    assert_eq!(refused_within(undeclared, len), (20, 1));
    assert_eq!(refused_within(b"s0 <=> s0", 0), (50, 9));
}

#[test]
fn a_bad_table_is_refused_as_document_01_does() {
    // The declaration has 2 bytes, a rule 1, a head 22, a guard 24, a body fact 46.
    assert_eq!(refused("s0/1. s0(V0) <=> s0(V1)."), (22, 25));
    assert_eq!(refused("s0/1. s0(V0) <=> V0 < V1 | true."), (22, 25));
    assert_eq!(refused("s0/1. s0(V0) <=> V0 < 0 | s0(0 + V2)."), (22, 49));
    assert_eq!(
        refused("s0/1. s0(V0) <=> true. s0(1) <=> s0(V0)."),
        (22, 48)
    );
    assert_eq!(refused("s0/1. s0(V0, V0) <=> true."), (20, 3));
    assert_eq!(refused("s0/1. s0 <=> true."), (20, 3));
    assert_eq!(refused("s0/1. s0(0) \\ s1(0) <=> true."), (20, 25));
    assert_eq!(refused("s0/0. s0 <=> s0(0)."), (20, 25));
    assert_eq!(refused("s0/0. s0,s0,s0,s0,s0 <=> true."), (19, 3 + 4 * 22));
    assert_eq!(
        refused("s0/0. s0,s0 \\ s0,s0,s9 <=> true."),
        (19, 3 + 4 * 22)
    );
    assert_eq!(
        refused("s0/0. s0 <=> 0=0,0=0,0=0,0=0,0=V0 | true."),
        (19, 25 + 4 * 24)
    );
    assert_eq!(
        refused("s0/0. s0 <=> fail,s0,fail,s0,s0."),
        (19, 25 + 2 * 47)
    );
    let rules = "s0<=>true.".repeat(65);
    assert_eq!(refused(&format!("s0/0.{}", rules)), (19, 2 + 64 * 23));
}

#[test]
fn room_is_asked_for_to_the_byte() {
    let table = table_a();
    let text = TABLE_A.as_bytes();
    let mut room = vec![FILL; table.len()];
    assert_eq!(read_text(text, &mut room).length as usize, table.len());
    assert_eq!(room, table);
    assert_eq!(refused_within(text, table.len() - 1), (51, 0));
    let mut room = vec![FILL; text.len()];
    assert_eq!(print_text(&table, &mut room).length as usize, text.len());
    assert_eq!(room, text);
    let mut short = vec![FILL; text.len() - 1];
    let written = print_text(&table, &mut short);
    assert_eq!(refusal(written.outcome, written.length), (51, 0));
    assert!(short.iter().all(|byte| *byte == FILL));
}

#[test]
fn a_bad_table_is_printed_as_little_as_it_is_run() {
    for bad in [&[][..], &[9], &[1], &[7, 8], &[1, 5, 8], &[2, 8], &[8, 8]] {
        let mut room = vec![FILL; 64];
        let written = print_text(bad, &mut room);
        assert_eq!(written.outcome, check(bad));
        refusal(written.outcome, written.length);
        assert!(room.iter().all(|byte| *byte == FILL));
    }
}

#[test]
fn the_longest_printed_text_is_within_the_longest_text() {
    let lowest = constant(i32::MIN);
    let both = of(REMAINDER, lowest, lowest);
    let heads = Rule::new().keep(31, &[lowest; 4]).keep(30, &[lowest; 4]);
    let heads = heads.remove(29, &[lowest; 4]).remove(28, &[lowest; 4]);
    let guards = (0..4).fold(heads, |rule, _| rule.guard(both, UNEQUAL, both));
    let rule = (0..4).fold(guards, |rule, _| rule.add(31, &[both; 4]));
    let longest = table(&[4; 32], &vec![rule; 64]);
    assert_eq!(longest.len(), LONGEST_TABLE);
    assert_eq!(prints(&longest).len(), LONGEST_PRINTED);
}
