//! From text to tokens, with the brackets of template lists told from comparisons by the algorithm of WGSL.
use crate::words::{Name, Names};

macro_rules! symbols {
    ($($symbol:ident $text:literal)*) => {
        #[derive(Clone, Copy, Debug, PartialEq, Eq)]
        pub enum Symbol { $($symbol),* }

        impl Symbol {
            pub fn text(self) -> &'static str {
                match self { $(Symbol::$symbol => $text),* }
            }
        }
    };
}

symbols! {
    ParenLeft "(" ParenRight ")" BracketLeft "[" BracketRight "]" BraceLeft "{" BraceRight "}" Less "<" Greater ">"
    At "@" Comma "," Period "." Semicolon ";" Colon ":" Equal "=" Plus "+" Minus "-" Star "*" Slash "/" Percent "%"
    And "&" Or "|" Xor "^" Bang "!" Tilde "~" ColonColon "::" Arrow "->" PlusPlus "++" MinusMinus "--" AndAnd "&&"
    OrOr "||" EqualEqual "==" NotEqual "!=" LessEqual "<=" GreaterEqual ">=" ShiftLeft "<<" ShiftRight ">>"
    PlusEqual "+=" MinusEqual "-=" StarEqual "*=" SlashEqual "/=" PercentEqual "%=" AndEqual "&=" OrEqual "|="
    XorEqual "^=" ShiftLeftEqual "<<=" ShiftRightEqual ">>="
}

#[derive(Clone, Copy, Debug, PartialEq, Eq)]
pub enum Token {
    Name(Name),
    Number(Name),
    Symbol(Symbol),
    /// The `<` and the `>` of a template list.
    OpenList,
    CloseList,
    End,
}

/// A token with the bytes before it and the bytes before its end.
#[derive(Clone, Copy, Debug)]
pub struct Placed {
    pub token: Token,
    pub start: u32,
    pub end: u32,
}

/// What is wrong with a text, and the bytes before it.
#[derive(Debug)]
pub struct Fault {
    pub place: u32,
    pub message: String,
}

pub type Read<T> = Result<T, Box<Fault>>;

pub fn fault<T>(place: usize, message: impl Into<String>) -> Read<T> {
    Err(Box::new(Fault { place: place as u32, message: message.into() }))
}

/// The tokens of a text of less than 2^32 bytes, the last one its end.
pub fn tokens<'t>(text: &'t str, names: &mut Names<'t>) -> Read<Vec<Placed>> {
    let mut lexer = Lexer { text, bytes: text.as_bytes(), at: 0, found: Vec::new(), pending: Vec::new(), depth: 0 };
    while lexer.skip_blank()? {
        let start = lexer.at;
        let token = lexer.token(names)?;
        lexer.found.push(Placed { token, start: start as u32, end: lexer.at as u32 });
    }
    let end = text.len() as u32;
    lexer.found.push(Placed { token: Token::End, start: end, end });
    Ok(lexer.found)
}

struct Lexer<'t> {
    text: &'t str,
    bytes: &'t [u8],
    at: usize,
    found: Vec<Placed>,
    /// The tokens `<` that may open a list, each with how many `(` and `[` it stands in.
    pending: Vec<(usize, usize)>,
    depth: usize,
}

impl<'t> Lexer<'t> {
    /// The byte so many behind the next one; 0, with which nothing begins, where the text has ended.
    fn byte(&self, ahead: usize) -> u8 {
        self.bytes.get(self.at + ahead).copied().unwrap_or(0)
    }

    fn character(&self) -> Option<char> {
        self.text[self.at..].chars().next()
    }

    /// Goes past blanks and comments; whether something is left.
    fn skip_blank(&mut self) -> Read<bool> {
        loop {
            match (self.byte(0), self.byte(1)) {
                (b' ' | b'\t'..=b'\r', _) => self.at += 1,
                (b'/', b'/') => self.skip_line(),
                (b'/', b'*') => self.skip_block()?,
                (0x80.., _) => match self.character() {
                    Some(blank @ ('\u{85}' | '\u{200e}' | '\u{200f}' | '\u{2028}' | '\u{2029}')) => self.at += blank.len_utf8(),
                    _ => return Ok(true),
                },
                _ => return Ok(self.at < self.bytes.len()),
            }
        }
    }

    fn skip_line(&mut self) {
        let ends_line = |it| matches!(it, '\n'..='\r' | '\u{85}' | '\u{2028}' | '\u{2029}');
        self.at = self.text[self.at..].find(ends_line).map_or(self.text.len(), |length| self.at + length);
    }

    fn skip_block(&mut self) -> Read<()> {
        let (start, mut depth) = (self.at, 0);
        while self.at < self.bytes.len() {
            match (self.byte(0), self.byte(1)) {
                (b'/', b'*') => depth += 1,
                (b'*', b'/') => depth -= 1,
                _ => {
                    self.at += 1;
                    continue;
                }
            }
            self.at += 2;
            if depth == 0 {
                return Ok(());
            }
        }
        fault(start, "this comment is not ended; expected `*/`")
    }

    fn token(&mut self, names: &mut Names<'t>) -> Read<Token> {
        let start = self.at;
        match self.byte(0) {
            b'a'..=b'z' | b'A'..=b'Z' | b'_' | 0x80.. if self.skip_name() => {
                Ok(Token::Name(names.number(&self.text[start..self.at])))
            }
            b'0'..=b'9' => self.number(names),
            b'.' if self.byte(1).is_ascii_digit() => self.number(names),
            _ => match self.symbol() {
                Some(token) => Ok(token),
                None => fault(start, format!("the character {:?} begins no token", self.character().unwrap_or_default())),
            },
        }
    }

    /// Goes past a name, whose first byte is known to be right if it is of ASCII; whether there is one.
    fn skip_name(&mut self) -> bool {
        if self.byte(0) < 0x80 || self.character().is_some_and(char::is_alphabetic) {
            while self.goes_on_name() {
                self.at += if self.byte(0) < 0x80 { 1 } else { self.character().map_or(0, char::len_utf8) };
            }
            return true;
        }
        false
    }

    fn goes_on_name(&self) -> bool {
        match self.byte(0) {
            b'a'..=b'z' | b'A'..=b'Z' | b'_' | b'0'..=b'9' => true,
            0x80.. => self.character().is_some_and(char::is_alphanumeric),
            _ => false,
        }
    }

    fn number(&mut self, names: &mut Names<'t>) -> Read<Token> {
        let start = self.at;
        if !self.skip_number() || self.goes_on_name() {
            return fault(start, "this is no number of WGSL");
        }
        Ok(Token::Number(names.number(&self.text[start..self.at])))
    }

    /// Goes past the digits, the point, the exponent and the suffix of a number; whether it is one.
    fn skip_number(&mut self) -> bool {
        let is_hex = self.byte(0) == b'0' && matches!(self.byte(1), b'x' | b'X');
        self.at += if is_hex { 2 } else { 0 };
        let is_digit: fn(&u8) -> bool = if is_hex { u8::is_ascii_hexdigit } else { u8::is_ascii_digit };
        let is_led_by_zero = self.byte(0) == b'0';
        let whole = self.skip_while(is_digit);
        let has_point = self.takes(b".");
        let digits = whole + if has_point { self.skip_while(is_digit) } else { 0 };
        let has_power = self.takes(if is_hex { b"pP" } else { b"eE" });
        if has_power {
            self.takes(b"+-");
            if self.skip_while(u8::is_ascii_digit) == 0 {
                return false;
            }
        }
        let suffixes: &[u8] = match (is_hex, has_point, has_power) {
            (false, false, false) if is_led_by_zero && whole > 1 => return false,
            (false, false, false) => b"iufh",
            (true, false, false) => b"iu",
            (true, true, false) => b"",
            _ => b"fh",
        };
        self.takes(suffixes);
        digits > 0
    }

    fn takes(&mut self, wanted: &[u8]) -> bool {
        let is_wanted = wanted.contains(&self.byte(0));
        self.at += usize::from(is_wanted);
        is_wanted
    }

    /// How many bytes it went past.
    fn skip_while(&mut self, holds: impl Fn(&u8) -> bool) -> usize {
        let length = self.bytes[self.at..].iter().take_while(|it| holds(it)).count();
        self.at += length;
        length
    }

    /// The longest symbol that begins here. A `>` closes the newest `<` that may open a list, if both stand in as many `(` and
    /// `[`, and is a token of its own then, behind `-` too.
    fn symbol(&mut self) -> Option<Token> {
        use Symbol::*;
        let closes = self.pending.last().is_some_and(|&(_, depth)| depth == self.depth);
        let (symbol, length) = match (self.byte(0), self.byte(1), self.byte(2)) {
            (b'>', _, _) if closes => {
                self.at += 1;
                let (open, _) = self.pending.pop()?;
                self.found[open].token = Token::OpenList;
                return Some(Token::CloseList);
            }
            (b'-', b'>', _) if !closes => (Arrow, 2),
            (b'<', b'<', b'=') => (ShiftLeftEqual, 3),
            (b'>', b'>', b'=') => (ShiftRightEqual, 3),
            (b'<', b'<', _) => (ShiftLeft, 2),
            (b'>', b'>', _) => (ShiftRight, 2),
            (b'<', b'=', _) => (LessEqual, 2),
            (b'>', b'=', _) => (GreaterEqual, 2),
            (b'=', b'=', _) => (EqualEqual, 2),
            (b'!', b'=', _) => (NotEqual, 2),
            (b':', b':', _) => (ColonColon, 2),
            (b'&', b'&', _) => (AndAnd, 2),
            (b'|', b'|', _) => (OrOr, 2),
            (b'+', b'+', _) => (PlusPlus, 2),
            (b'-', b'-', _) => (MinusMinus, 2),
            (b'+', b'=', _) => (PlusEqual, 2),
            (b'-', b'=', _) => (MinusEqual, 2),
            (b'*', b'=', _) => (StarEqual, 2),
            (b'/', b'=', _) => (SlashEqual, 2),
            (b'%', b'=', _) => (PercentEqual, 2),
            (b'&', b'=', _) => (AndEqual, 2),
            (b'|', b'=', _) => (OrEqual, 2),
            (b'^', b'=', _) => (XorEqual, 2),
            (single, _, _) => (single_symbol(single)?, 1),
        };
        self.note_brackets(symbol);
        self.at += length;
        Some(Token::Symbol(symbol))
    }

    /// Which `<` may still open a list behind a symbol.
    fn note_brackets(&mut self, symbol: Symbol) {
        use Symbol::*;
        match symbol {
            Less if matches!(self.found.last(), Some(Placed { token: Token::Name(_), .. })) => {
                self.pending.push((self.found.len(), self.depth))
            }
            ParenLeft | BracketLeft => self.depth += 1,
            ParenRight | BracketRight => {
                self.forget_inner();
                self.depth = self.depth.saturating_sub(1);
            }
            AndAnd | OrOr => self.forget_inner(),
            Semicolon | BraceLeft | Colon | Equal | PlusEqual | MinusEqual | StarEqual | SlashEqual | PercentEqual | AndEqual
            | OrEqual | XorEqual | ShiftLeftEqual | ShiftRightEqual => {
                self.pending.clear();
                self.depth = 0;
            }
            _ => {}
        }
    }

    /// No `<` in as many `(` and `[` as these opens a list.
    fn forget_inner(&mut self) {
        while self.pending.last().is_some_and(|&(_, depth)| depth >= self.depth) {
            self.pending.pop();
        }
    }
}

fn single_symbol(byte: u8) -> Option<Symbol> {
    use Symbol::*;
    Some(match byte {
        b'(' => ParenLeft,
        b')' => ParenRight,
        b'[' => BracketLeft,
        b']' => BracketRight,
        b'{' => BraceLeft,
        b'}' => BraceRight,
        b'<' => Less,
        b'>' => Greater,
        b'@' => At,
        b',' => Comma,
        b'.' => Period,
        b';' => Semicolon,
        b':' => Colon,
        b'=' => Equal,
        b'+' => Plus,
        b'-' => Minus,
        b'*' => Star,
        b'/' => Slash,
        b'%' => Percent,
        b'&' => And,
        b'|' => Or,
        b'^' => Xor,
        b'!' => Bang,
        b'~' => Tilde,
        _ => return None,
    })
}
