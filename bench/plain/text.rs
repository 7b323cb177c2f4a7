//! Tokens of a text, and what a reader asks of the next one.

const RESERVED: [&str; 64] = [
    "protocol", "use", "status", "message", "kind", "root", "mid", "leaf", "field", "init", "dir", "rule", "take",
    "need", "up", "down", "any", "free", "child", "parent", "self", "when", "in", "all", "asked", "set", "lock",
    "send", "end", "me", "kids", "others", "none", "val", "targets", "msg", "kept", "rs", "ext_req", "ext_rsp",
    "up_req", "up_rsp", "down_req", "down_rsp", "tree", "work", "lines", "at", "line", "history", "from", "modules",
    "reg", "queue", "spontaneous", "do", "if", "and", "head", "deq", "enq", "value", "never", "feed",
];

const MOST_NAME: usize = 32;

/// The first token that can't stand: where it starts, and why it can't.
pub struct Fault {
    pub start: usize,
    pub cause: &'static str,
}

/// The line and the column of an offset, both from 1.
pub fn place_of(bytes: &[u8], start: usize) -> (usize, usize) {
    let before = &bytes[..start];
    let line = before.iter().filter(|b| **b == b'\n').count() + 1;
    let line_start = before.iter().rposition(|b| *b == b'\n').map_or(0, |at| at + 1);
    (line, start - line_start + 1)
}

#[derive(Clone, Copy, PartialEq, Eq)]
pub enum TokenKind {
    Word,
    Number,
    Sign,
    Bad,
    End,
}

#[derive(Clone, Copy)]
pub struct Token<'a> {
    pub kind: TokenKind,
    pub text: &'a [u8],
    pub start: usize,
}

impl<'a> Token<'a> {
    /// Whether it is this reserved word.
    pub fn is(&self, word: &str) -> bool {
        self.kind == TokenKind::Word && self.text == word.as_bytes()
    }

    pub fn is_sign(&self, sign: &str) -> bool {
        self.kind == TokenKind::Sign && self.text == sign.as_bytes()
    }

    /// Whether it is a word that isn't reserved.
    pub fn is_name(&self) -> bool {
        self.kind == TokenKind::Word && !RESERVED.iter().any(|word| word.as_bytes() == self.text)
    }

    /// Its value, where it is a number of at most 64 bits.
    pub fn value(&self) -> Option<u64> {
        if self.kind != TokenKind::Number {
            return None;
        }
        self.text.iter().try_fold(0u64, |value, b| value.checked_mul(10)?.checked_add(u64::from(b - b'0')))
    }

    pub fn fault(&self, cause: &'static str) -> Fault {
        Fault { start: self.start, cause }
    }

    pub fn expected(&self) -> Fault {
        self.fault("expected")
    }

    /// The fault where only declared names and reserved words may stand.
    pub fn unknown(&self) -> Fault {
        self.fault(if self.is_name() { "unknown" } else { "expected" })
    }
}

/// Cuts a text into tokens and hands them out one by one.
pub struct Tokens<'a> {
    bytes: &'a [u8],
    at: usize,
}

fn is_word_byte(b: u8) -> bool {
    b.is_ascii_alphanumeric() || b == b'_'
}

impl<'a> Tokens<'a> {
    pub fn new(bytes: &'a [u8]) -> Tokens<'a> {
        Tokens { bytes, at: 0 }
    }

    fn skip_space(&mut self) {
        while let Some(b) = self.bytes.get(self.at) {
            match b {
                b' ' | b'\t' | b'\r' | b'\n' => self.at += 1,
                b'#' => {
                    let rest = &self.bytes[self.at..];
                    self.at += rest.iter().position(|b| *b == b'\n').unwrap_or(rest.len());
                }
                _ => return,
            }
        }
    }

    fn run_kind(run: &[u8]) -> TokenKind {
        if run[0].is_ascii_alphabetic() {
            TokenKind::Word
        } else if run.iter().all(u8::is_ascii_digit) {
            TokenKind::Number
        } else {
            TokenKind::Bad
        }
    }

    /// The next token; after the last one always the end.
    pub fn next(&mut self) -> Token<'a> {
        self.skip_space();
        let start = self.at;
        let rest = &self.bytes[start..];
        let (kind, len) = match rest {
            [] => (TokenKind::End, 0),
            [b, ..] if is_word_byte(*b) => {
                let len = rest.iter().position(|b| !is_word_byte(*b)).unwrap_or(rest.len());
                (Self::run_kind(&rest[..len]), len)
            }
            [b':' | b'!', b'=', ..] => (TokenKind::Sign, 2),
            [b'(' | b')' | b',' | b'=' | b'|', ..] => (TokenKind::Sign, 1),
            _ => (TokenKind::Bad, 1),
        };
        self.at += len;
        Token { kind, text: &rest[..len], start }
    }

    /// Takes this reserved word.
    pub fn word(&mut self, word: &str) -> Result<Token<'a>, Fault> {
        let token = self.next();
        if token.is(word) { Ok(token) } else { Err(token.expected()) }
    }

    /// Takes the end.
    pub fn end(&mut self) -> Result<(), Fault> {
        let token = self.next();
        if token.kind == TokenKind::End { Ok(()) } else { Err(token.expected()) }
    }

    /// Takes one of these reserved words, and answers its value.
    pub fn one_of<T: Copy>(&mut self, words: &[(&str, T)]) -> Result<T, Fault> {
        let token = self.next();
        match words.iter().find(|(word, _)| token.is(word)) {
            Some((_, value)) => Ok(*value),
            None => Err(token.expected()),
        }
    }

    pub fn sign(&mut self, sign: &str) -> Result<(), Fault> {
        let token = self.next();
        if token.is_sign(sign) { Ok(()) } else { Err(token.expected()) }
    }

    /// Takes a name that is declared here.
    pub fn new_name(&mut self, is_taken: impl Fn(&[u8]) -> bool) -> Result<&'a [u8], Fault> {
        let token = self.next();
        new_name(token, false, is_taken)
    }

    /// Takes a declared name.
    pub fn used<T>(&mut self, find: impl Fn(&[u8]) -> Option<T>) -> Result<T, Fault> {
        let token = self.next();
        if token.kind != TokenKind::Word {
            return Err(token.expected());
        }
        find(token.text).ok_or_else(|| token.unknown())
    }

    /// Takes a number of at most 32 bits, and answers it and where it starts.
    pub fn number(&mut self) -> Result<(u32, usize), Fault> {
        let token = self.next();
        Ok((number(token)?, token.start))
    }

    /// Takes a number of at most 64 bits.
    pub fn value(&mut self) -> Result<u64, Fault> {
        let token = self.next();
        if token.kind != TokenKind::Number {
            return Err(token.expected());
        }
        token.value().ok_or_else(|| token.fault("too many"))
    }
}

/// The name that a token declares.
pub fn new_name<'a>(token: Token<'a>, is_past: bool, is_taken: impl Fn(&[u8]) -> bool) -> Result<&'a [u8], Fault> {
    if !token.is_name() {
        Err(token.expected())
    } else if is_taken(token.text) {
        Err(token.fault("repeated"))
    } else if is_past || token.text.len() > MOST_NAME {
        Err(token.fault("too many"))
    } else {
        Ok(token.text)
    }
}

/// The value of a number of at most 32 bits.
pub fn number(token: Token) -> Result<u32, Fault> {
    if token.kind != TokenKind::Number {
        return Err(token.expected());
    }
    match token.value() {
        Some(value) if value <= u64::from(u32::MAX) => Ok(value as u32),
        _ => Err(token.fault("too many")),
    }
}
