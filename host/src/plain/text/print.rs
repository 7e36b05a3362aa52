//! A good table's text, written as its records are passed.

use crate::format::{
    body_len, BODY_FACT, BODY_FAIL, END, EXPRESSION_LEN, GUARD, KEPT, PLACES, REMOVED, RULE,
    SLOT_LEN, SYMBOL,
};

const COMPARATORS: [&[u8]; 6] = [b" = ", b" \\= ", b" < ", b" =< ", b" > ", b" >= "];
const OPERATIONS: [&[u8]; 6] = [b"", b" + ", b" - ", b" * ", b" / ", b" % "];

/// Writes the text of a good table.
pub fn text(table: &[u8], text: &mut Vec<u8>) {
    text.clear();
    let mut printer = Printer { table, at: 0, text };
    let mut declared = 0;
    while printer.kind() == SYMBOL {
        printer.symbol(declared);
        printer.put(&[b'/', b'0' + table[printer.at + 1], b'.', b'\n']);
        printer.at += 2;
        declared += 1;
    }
    while printer.kind() == RULE {
        printer.at += 1;
        printer.rule();
    }
}

/// A place in a good table, and the text so far.
struct Printer<'a> {
    table: &'a [u8],
    at: usize,
    text: &'a mut Vec<u8>,
}

impl Printer<'_> {
    fn kind(&self) -> u8 {
        self.table.get(self.at).copied().unwrap_or(END)
    }

    fn put(&mut self, bytes: &[u8]) {
        self.text.extend_from_slice(bytes);
    }

    fn rule(&mut self) {
        let kept = self.kind() == KEPT;
        self.list(KEPT, Printer::head);
        if self.kind() == REMOVED {
            if kept {
                self.put(b" \\ ");
            }
            self.list(REMOVED, Printer::head);
            self.put(b" <=> ");
        } else {
            self.put(b" ==> ");
        }
        if self.kind() == GUARD {
            self.list(GUARD, Printer::guard);
            self.put(b" | ");
        }
        self.body();
        self.put(b".\n");
    }

    /// The records of this kind that stand here, with commas between them.
    fn list(&mut self, kind: u8, one: fn(&mut Self)) {
        let mut first = true;
        while self.kind() == kind {
            if !first {
                self.put(b", ");
            }
            first = false;
            one(self);
            self.at += 1 + body_len(kind).unwrap_or(0);
        }
    }

    fn body(&mut self) {
        let mut first = true;
        while matches!(self.kind(), BODY_FACT | BODY_FAIL) {
            if !first {
                self.put(b", ");
            }
            first = false;
            if self.kind() == BODY_FAIL {
                self.put(b"fail");
                self.at += 1;
            } else {
                self.fact(EXPRESSION_LEN, Printer::expression);
                self.at += 2 + PLACES * EXPRESSION_LEN;
            }
        }
        if first {
            self.put(b"true");
        }
    }

    fn head(&mut self) {
        self.fact(SLOT_LEN, Printer::slot);
    }

    /// A symbol and its used places; the tag of the first slot of an unused one is 0.
    fn fact(&mut self, width: usize, place: fn(&mut Self, usize)) {
        self.symbol(self.table[self.at + 1]);
        let tag = usize::from(width == EXPRESSION_LEN);
        let mut used = 0;
        for number in 0..PLACES {
            let at = self.at + 2 + number * width;
            if self.table[at + tag] == 0 {
                break;
            }
            self.put(if number == 0 { b"(" } else { b", " });
            place(self, at);
            used += 1;
        }
        if used > 0 {
            self.put(b")");
        }
    }

    fn guard(&mut self) {
        let left = self.at + 2;
        self.expression(left);
        self.put(COMPARATORS[usize::from(self.table[self.at + 1])]);
        self.expression(left + EXPRESSION_LEN);
    }

    fn expression(&mut self, at: usize) {
        self.slot(at + 1);
        let operation = usize::from(self.table[at]);
        if operation > 0 {
            self.put(OPERATIONS[operation]);
            self.slot(at + 1 + SLOT_LEN);
        }
    }

    fn slot(&mut self, at: usize) {
        let value = &self.table[at + 1..at + SLOT_LEN];
        let value = i32::from_le_bytes([value[0], value[1], value[2], value[3]]);
        if self.table[at] == 2 {
            self.put(b"V");
        } else if value < 0 {
            self.put(b"-");
        }
        self.decimal(value.unsigned_abs());
    }

    fn symbol(&mut self, number: u8) {
        self.put(b"s");
        self.decimal(u32::from(number));
    }

    fn decimal(&mut self, mut number: u32) {
        let mut digits = [0; 10];
        let mut at = digits.len();
        loop {
            at -= 1;
            digits[at] = b'0' + (number % 10) as u8;
            number /= 10;
            if number == 0 {
                break;
            }
        }
        self.put(&digits[at..]);
    }
}
