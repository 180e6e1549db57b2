//! Programs made by LANGUAGE.md's grammar. Nearly all are accepted: a call on
//! something other than a variable, a missing map field and a `max` out of range
//! are made now and then.

use super::random::Random;
use super::spelling::{joined, Spellings};

const VARIABLES: [&str; 6] = ["a", "b", "ctx", "x1", "_v", "hash"];
const METHODS: [&str; 4] = ["m", "get", "load_u32", "_"];
const NUMBERS: [&str; 9] = [
    "0",
    "1",
    "2",
    "14",
    "-1",
    "-0",
    "0xFf",
    "-9223372036854775807",
    "9223372036854775807",
];
const SECTIONS: [&str; 16] = [
    "\"xdp\"",
    "\"tc\"",
    "\"classifier\"",
    "\"tcx/in\"",
    "\"sk_msg\"",
    "\"cgroup/skb\"",
    "\"kprobe/f\"",
    "\"kretprobe/f\"",
    "\"tracepoint/t\"",
    "\"raw_tracepoint/t\"",
    "\"fentry/f\"",
    "\"fexit/f\"",
    "\"lsm/f\"",
    "\"xdp\\\"\"",
    "\"tc\\\"\"",
    "\"\"",
];
const LICENCES: [&str; 3] = ["\"GPL\"", "\"\"", "\"MIT\\\\\""];
const TYPES: [&str; 4] = ["u32", "u64", "i32", "i64"];
const MAP_TYPES: [&str; 5] = ["hash", "array", "ringbuf", "lru_hash", "prog_array"];
const LENGTHS: [&str; 6] = ["0", "1", "16", "0x100", "4294967295", "-0"];
const MAXIMA: [&str; 6] = ["0", "1", "1024", "0x10", "-0", "4294967295"];
const MAXIMA_OUT_OF_RANGE: [&str; 2] = ["4294967296", "-1"];
const SHIFT_COUNTS: [&str; 8] = ["0", "1", "4", "31", "32", "62", "63", "64"];

/// A program of about `size` tokens at most.
pub fn text(random: &mut Random, size: usize) -> Vec<u8> {
    let tokens = tokens(random, size);
    joined(random, &tokens)
}

/// The tokens of a program of about `size` tokens at most.
pub fn tokens(random: &mut Random, size: usize) -> Spellings {
    let mut maker = Maker {
        random,
        tokens: Vec::new(),
        size,
    };
    maker.program();
    maker.tokens
}

/// What an expression is, as far as a call behind it asks.
#[derive(Clone, Copy, PartialEq, Eq)]
enum Shape {
    Variable,
    Other,
}

struct Maker<'r> {
    random: &'r mut Random,
    tokens: Spellings,
    size: usize,
}

impl Maker<'_> {
    fn put(&mut self, token: &str) {
        self.tokens.push(token.to_string());
    }

    fn put_all(&mut self, tokens: &[&str]) {
        for token in tokens {
            self.put(token);
        }
    }

    fn put_one_of(&mut self, tokens: &[&str]) {
        let token = self.random.pick(tokens);
        self.put(token);
    }

    /// Whether there is room for more, and one of `times` draws for it succeeds.
    fn more(&mut self, times: usize) -> bool {
        self.tokens.len() < self.size && self.random.one_in(times)
    }

    fn program(&mut self) {
        self.declaration();
        while self.more(2) {
            self.declaration();
        }
    }

    fn declaration(&mut self) {
        match self.random.below(6) {
            0 => self.map(),
            1 => self.event(),
            _ => self.unit(),
        }
    }

    fn map(&mut self) {
        self.put("map");
        self.put_one_of(&VARIABLES);
        self.put("{");
        let map_type = self.random.pick(&MAP_TYPES);
        for field in self.map_fields(map_type == "ringbuf") {
            self.map_field(field, map_type);
        }
        self.put("}");
    }

    /// The fields in any order; now and then one is missing or given twice.
    fn map_fields(&mut self, is_ringbuf: bool) -> Vec<&'static str> {
        let mut fields = if is_ringbuf {
            vec!["type", "max"]
        } else {
            vec!["type", "key", "value", "max"]
        };
        let at = self.random.below(fields.len());
        match self.random.below(12) {
            0 => {
                fields.remove(at);
            }
            1 => fields.push(fields[at]),
            _ => {}
        }
        let turn = self.random.below(fields.len().max(1));
        fields.rotate_left(turn);
        fields
    }

    fn map_field(&mut self, field: &str, map_type: &str) {
        self.put_all(&[field, ":"]);
        match field {
            "type" => self.put_all(&[".", map_type]),
            "max" => self.maximum(),
            _ => self.put_one_of(&TYPES),
        }
        self.put(";");
    }

    fn maximum(&mut self) {
        if self.random.one_in(12) {
            self.put_one_of(&MAXIMA_OUT_OF_RANGE);
        } else {
            self.put_one_of(&MAXIMA);
        }
        while self.random.one_in(3) {
            self.put_one_of(&["<<", ">>"]);
            self.put_one_of(&SHIFT_COUNTS);
        }
    }

    fn event(&mut self) {
        self.put("event");
        self.put_one_of(&VARIABLES);
        self.put("{");
        for _ in 0..self.random.below(3) {
            self.event_field();
        }
        self.put("}");
    }

    fn event_field(&mut self) {
        self.put_one_of(&VARIABLES);
        self.put(":");
        match self.random.below(3) {
            0 => self.put_one_of(&TYPES),
            1 => {
                self.put_one_of(&TYPES);
                self.length();
            }
            _ => {
                self.put("bytes");
                self.length();
            }
        }
        self.put(";");
    }

    fn length(&mut self) {
        self.put("[");
        self.put_one_of(&LENGTHS);
        self.put("]");
    }

    fn unit(&mut self) {
        self.put("unit");
        self.put_one_of(&VARIABLES);
        self.put("{");
        for _ in 0..self.random.below(4) {
            self.unit_item();
        }
        while self.more(1) && !self.random.one_in(6) {
            self.unit_item();
        }
        self.put("}");
    }

    fn unit_item(&mut self) {
        match self.random.below(12) {
            0 => self.put_string("section", &SECTIONS),
            1 => self.put_string("license", &LICENCES),
            _ => self.statement(),
        }
    }

    fn put_string(&mut self, word: &str, strings: &[&str]) {
        self.put(word);
        self.put_one_of(strings);
        self.put(";");
    }

    fn statement(&mut self) {
        match self.random.below(9) {
            0 => self.variable("reg"),
            1 => self.variable("imm"),
            2 => self.variable("heap"),
            3 => {
                self.put("return");
                self.expression();
                self.put(";");
            }
            4 | 5 => self.guarded(),
            6 => self.assignment("="),
            7 => self.assignment("+="),
            _ => {
                self.expression();
                self.put(";");
            }
        }
    }

    fn variable(&mut self, word: &str) {
        self.put(word);
        self.put_one_of(&VARIABLES);
        self.put("=");
        self.expression();
        self.put(";");
    }

    fn assignment(&mut self, sign: &str) {
        self.expression();
        self.put(sign);
        self.expression();
        self.put(";");
    }

    fn guarded(&mut self) {
        self.put_all(&["if", "guard", "("]);
        self.put_one_of(&VARIABLES);
        self.put(")");
        self.body();
        if self.random.one_in(2) {
            self.put("else");
            self.body();
        }
    }

    fn body(&mut self) {
        self.put("{");
        while self.more(2) {
            self.statement();
        }
        self.put("}");
    }

    fn expression(&mut self) -> Shape {
        let mut shape = self.shift();
        while self.more(4) {
            self.put_one_of(&["+", "-"]);
            self.product();
            shape = Shape::Other;
        }
        shape
    }

    fn shift(&mut self) -> Shape {
        let mut shape = self.product();
        while self.more(8) {
            self.put_one_of(&["<<", ">>"]);
            self.product();
            shape = Shape::Other;
        }
        shape
    }

    fn product(&mut self) -> Shape {
        let mut shape = self.unary();
        while self.more(5) {
            self.put_one_of(&["*", "/", "%"]);
            self.unary();
            shape = Shape::Other;
        }
        shape
    }

    fn unary(&mut self) -> Shape {
        if self.more(7) {
            self.put("*");
            self.unary();
            return Shape::Other;
        }
        self.primary()
    }

    fn primary(&mut self) -> Shape {
        let mut shape = self.operand();
        while self.more(3) {
            self.put(".");
            self.put_one_of(&METHODS);
            let may_be_called = shape == Shape::Variable || self.random.one_in(8);
            if may_be_called && self.random.one_in(2) {
                self.arguments();
            }
            shape = Shape::Other;
        }
        shape
    }

    fn operand(&mut self) -> Shape {
        if self.more(6) {
            self.put("(");
            let shape = self.expression();
            self.put(")");
            return shape;
        }
        if self.random.one_in(3) {
            self.put_one_of(&NUMBERS);
            return Shape::Other;
        }
        self.put_one_of(&VARIABLES);
        Shape::Variable
    }

    fn arguments(&mut self) {
        self.put("(");
        if self.more(2) {
            self.expression();
            while self.more(3) {
                self.put(",");
                self.expression();
            }
        }
        self.put(")");
    }
}
