//! Reads lines of JSON, as far as the linker writes them: objects, lists, texts, whole numbers and truth values.

/// The text is no such JSON.
#[derive(Clone, Copy, Debug, PartialEq, Eq)]
pub(crate) struct Malformed;

type Result<T> = std::result::Result<T, Malformed>;

/// A text, and how much of it was read.
pub(crate) struct Reader<'a> {
    text: &'a str,
    at: usize,
}

impl<'a> Reader<'a> {
    pub fn new(text: &'a str) -> Self {
        Self { text, at: 0 }
    }

    /// Nothing but blanks is left.
    pub fn end(&mut self) -> Result<()> {
        if self.peek().is_none() { Ok(()) } else { Err(Malformed) }
    }

    /// An object, whose values `read` reads, each behind its key.
    pub fn object(&mut self, mut read: impl FnMut(String, &mut Self) -> Result<()>) -> Result<()> {
        self.list_of(b'{', b'}', |reader| {
            let key = reader.string()?;
            reader.take(b':')?;
            read(key, reader)
        })
    }

    /// A list of texts.
    pub fn strings(&mut self) -> Result<Vec<String>> {
        let mut found = Vec::new();
        self.list_of(b'[', b']', |reader| reader.string().map(|text| found.push(text)))?;
        Ok(found)
    }

    /// A list of whole numbers.
    pub fn numbers(&mut self) -> Result<Vec<u32>> {
        let mut found = Vec::new();
        self.list_of(b'[', b']', |reader| {
            found.push(reader.raw()?.parse().map_err(|_| Malformed)?);
            Ok(())
        })?;
        Ok(found)
    }

    pub fn boolean(&mut self) -> Result<bool> {
        self.raw()?.parse().map_err(|_| Malformed)
    }

    /// A text.
    pub fn string(&mut self) -> Result<String> {
        let quoted = self.quoted()?;
        if quoted.contains('\\') { unescape(quoted) } else { Ok(quoted.to_owned()) }
    }

    /// The text of a whole value.
    pub fn raw(&mut self) -> Result<&'a str> {
        let mut depth = 0;
        let first = self.peek().map(|_| self.at).ok_or(Malformed)?;
        loop {
            match self.peek().ok_or(Malformed)? {
                b'"' => drop(self.quoted()?),
                b'{' | b'[' => {
                    depth += 1;
                    self.at += 1;
                }
                b'}' | b']' if depth > 0 => {
                    depth -= 1;
                    self.at += 1;
                }
                b',' | b':' if depth > 0 => self.at += 1,
                _ => self.word()?,
            }
            if depth == 0 {
                return Ok(&self.text[first..self.at]);
            }
        }
    }

    /// A number, `true`, `false` or `null`.
    fn word(&mut self) -> Result<()> {
        let is_of_word = |byte: &u8| byte.is_ascii_alphanumeric() || b"+-.".contains(byte);
        let length = self.text.as_bytes()[self.at..].iter().take_while(|byte| is_of_word(byte)).count();
        self.at += length;
        if length > 0 { Ok(()) } else { Err(Malformed) }
    }

    /// What stands between the quotes of a text.
    fn quoted(&mut self) -> Result<&'a str> {
        self.take(b'"')?;
        let first = self.at;
        let bytes = self.text.as_bytes();
        loop {
            match bytes.get(self.at).ok_or(Malformed)? {
                b'"' => break,
                b'\\' => self.at += 2,
                _ => self.at += 1,
            }
        }
        self.at += 1;
        Ok(&self.text[first..self.at - 1])
    }

    /// What stands between two brackets, by commas.
    fn list_of(&mut self, open: u8, close: u8, mut read: impl FnMut(&mut Self) -> Result<()>) -> Result<()> {
        self.take(open)?;
        if self.peek() == Some(close) {
            return self.take(close);
        }
        loop {
            read(self)?;
            if self.peek() != Some(b',') {
                return self.take(close);
            }
            self.take(b',')?;
        }
    }

    fn take(&mut self, wanted: u8) -> Result<()> {
        if self.peek() != Some(wanted) {
            return Err(Malformed);
        }
        self.at += 1;
        Ok(())
    }

    /// The next byte that is no blank.
    fn peek(&mut self) -> Option<u8> {
        let bytes = self.text.as_bytes();
        while bytes.get(self.at).is_some_and(u8::is_ascii_whitespace) {
            self.at += 1;
        }
        bytes.get(self.at).copied()
    }
}

/// A text without its escapes.
fn unescape(quoted: &str) -> Result<String> {
    let mut text = String::with_capacity(quoted.len());
    let mut rest = quoted;
    while let Some((before, behind)) = rest.split_once('\\') {
        text.push_str(before);
        let escape = behind.chars().next().ok_or(Malformed)?;
        rest = &behind[escape.len_utf8()..];
        match escape {
            '"' | '\\' | '/' => text.push(escape),
            'b' => text.push('\u{8}'),
            'f' => text.push('\u{c}'),
            'n' => text.push('\n'),
            'r' => text.push('\r'),
            't' => text.push('\t'),
            'u' => text.push(unicode_escape(&mut rest)?),
            _ => return Err(Malformed),
        }
    }
    text.push_str(rest);
    Ok(text)
}

/// The character of the four digits behind `\u`, or of two such escapes that are a pair.
fn unicode_escape(rest: &mut &str) -> Result<char> {
    let first = four_digits(rest)?;
    if !(0xd800..0xdc00).contains(&first) {
        return char::from_u32(first).ok_or(Malformed);
    }
    *rest = rest.strip_prefix("\\u").ok_or(Malformed)?;
    match four_digits(rest)? {
        second @ 0xdc00..0xe000 => char::from_u32(0x10000 + ((first - 0xd800) << 10) + (second - 0xdc00)).ok_or(Malformed),
        _ => Err(Malformed),
    }
}

fn four_digits(rest: &mut &str) -> Result<u32> {
    let (digits, behind) = rest.split_at_checked(4).ok_or(Malformed)?;
    if !digits.bytes().all(|byte| byte.is_ascii_hexdigit()) {
        return Err(Malformed);
    }
    *rest = behind;
    u32::from_str_radix(digits, 16).map_err(|_| Malformed)
}

#[cfg(test)]
mod tests {
    use super::*;

    #[test]
    fn texts_are_read_without_their_escapes() {
        let text = r#""a\"\\\/\n\u0001\u00e9\ud83d\ude00ö""#;
        assert_eq!(Reader::new(text).string(), Ok("a\"\\/\n\u{1}é😀ö".into()));
    }

    #[test]
    fn broken_escapes_are_refused() {
        for text in [r#""\x""#, r#""\u12""#, r#""\u+123""#, r#""\ud800""#, r#""\ud800\u0041""#, r#""\ud800\ue000""#, r#""\""#] {
            assert_eq!(Reader::new(text).string(), Err(Malformed), "{text}");
        }
    }

    #[test]
    fn a_whole_value_is_taken_as_it_stands() {
        for (text, wanted) in [
            (r#"{"a":[1,{"b":"]}\""}],"c":null} ,"#, r#"{"a":[1,{"b":"]}\""}],"c":null}"#),
            ("[] x", "[]"),
            ("-12,", "-12"),
            (r#""a,b":"#, r#""a,b""#),
        ] {
            assert_eq!(Reader::new(text).raw(), Ok(wanted));
        }
        for text in ["", "}", ",", "[", r#"{"a":"#, "[[]"] {
            assert_eq!(Reader::new(text).raw(), Err(Malformed), "{text}");
        }
    }

    #[test]
    fn lists_have_their_commas() {
        assert_eq!(Reader::new("[1, 2]").numbers(), Ok(vec![1, 2]));
        assert_eq!(Reader::new("[]").strings(), Ok(vec![]));
        for text in ["[1 2]", "[1,]", "[,1]", "[1", "1", "[-1]", "[4294967296]"] {
            assert_eq!(Reader::new(text).numbers(), Err(Malformed), "{text}");
        }
    }
}
