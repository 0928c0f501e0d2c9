//! A reader of JSON that keeps the place of every value, so that what is wrong can be named.

use std::collections::HashSet;
use std::fmt;
use std::str::Chars;

/// How deep lists and objects may stand in each other.
const DEEPEST: usize = 100;

/// A place in a text: its line and the character in it, both from 1.
#[derive(Clone, Copy, Debug, PartialEq, Eq)]
pub struct Place {
    /// The line.
    pub line: usize,
    /// The character.
    pub column: usize,
}

impl fmt::Display for Place {
    fn fmt(&self, f: &mut fmt::Formatter<'_>) -> fmt::Result {
        write!(f, "line {}, column {}", self.line, self.column)
    }
}

/// A value and where it begins.
#[derive(Clone, Debug, PartialEq, Eq)]
pub struct Value {
    /// Where it begins.
    pub place: Place,
    /// What it is.
    pub kind: Kind,
}

/// What a value is.
#[derive(Clone, Debug, PartialEq, Eq)]
pub enum Kind {
    /// A string.
    Text(String),
    /// A list.
    List(Vec<Value>),
    /// An object: names and values in their order, no name twice.
    Object(Vec<(String, Value)>),
    /// A number, `true`, `false` or `null`.
    Other,
}

impl Value {
    /// The member of an object with a name.
    pub fn member(&self, name: &str) -> Option<&Value> {
        let Kind::Object(members) = &self.kind else {
            return None;
        };
        members.iter().find(|(n, _)| n == name).map(|(_, v)| v)
    }

    /// The characters of a string.
    pub fn text(&self) -> Option<&str> {
        match &self.kind {
            Kind::Text(text) => Some(text),
            _ => None,
        }
    }
}

/// What is wrong with a text, and where.
#[derive(Clone, Copy, Debug, PartialEq, Eq)]
pub struct Malformed {
    /// Where.
    pub place: Place,
    /// What.
    pub what: &'static str,
}

impl fmt::Display for Malformed {
    fn fmt(&self, f: &mut fmt::Formatter<'_>) -> fmt::Result {
        write!(f, "{}: {}", self.place, self.what)
    }
}

/// Reads a text that is one value of JSON, with blanks around it.
pub fn read(text: &[u8]) -> Result<Value, Malformed> {
    let text = str::from_utf8(text).map_err(|error| not_utf8(&text[..error.valid_up_to()]))?;
    let mut reader = Reader::new(text);
    let value = reader.value(0)?;
    reader.blanks();
    match reader.next {
        None => Ok(value),
        Some(_) => Err(reader.malformed("something stands behind the end")),
    }
}

/// The failure of a byte behind this text that no character begins with.
fn not_utf8(before: &[u8]) -> Malformed {
    let before = String::from_utf8_lossy(before);
    let mut reader = Reader::new(&before);
    while reader.next.is_some() {
        reader.step();
    }
    reader.malformed("these bytes are not UTF-8")
}

/// A text, the character that comes next, and its place.
struct Reader<'a> {
    rest: Chars<'a>,
    next: Option<char>,
    place: Place,
}

impl<'a> Reader<'a> {
    fn new(text: &'a str) -> Reader<'a> {
        let mut rest = text.chars();
        let next = rest.next();
        let place = Place { line: 1, column: 1 };
        Reader { rest, next, place }
    }

    /// What is wrong here.
    fn malformed(&self, what: &'static str) -> Malformed {
        let place = self.place;
        Malformed { place, what }
    }

    /// Goes on by a character.
    fn step(&mut self) {
        match self.next {
            Some('\n') => {
                self.place.line += 1;
                self.place.column = 1;
            }
            Some(_) => self.place.column += 1,
            None => {}
        }
        self.next = self.rest.next();
    }

    /// Goes on if a character comes next.
    fn takes(&mut self, character: char) -> bool {
        let found = self.next == Some(character);
        if found {
            self.step();
        }
        found
    }

    /// Goes over blanks.
    fn blanks(&mut self) {
        while matches!(self.next, Some(' ' | '\t' | '\n' | '\r')) {
            self.step();
        }
    }

    /// Reads a value, behind blanks, that stands in so many lists and objects.
    fn value(&mut self, depth: usize) -> Result<Value, Malformed> {
        self.blanks();
        if depth > DEEPEST {
            return Err(self.malformed("lists and objects stand too deep in each other"));
        }
        let place = self.place;
        let kind = match self.next {
            Some('{') => Kind::Object(self.object(depth)?),
            Some('[') => Kind::List(self.list(depth)?),
            Some('"') => Kind::Text(self.string()?),
            Some('-' | '0'..='9') => self.number()?,
            Some('t') => self.word("true")?,
            Some('f') => self.word("false")?,
            Some('n') => self.word("null")?,
            None => return Err(self.malformed("the text ends where a value has to stand")),
            Some(_) => return Err(self.malformed("a value has to stand here")),
        };
        Ok(Value { place, kind })
    }

    /// Reads a list from its bracket on.
    fn list(&mut self, depth: usize) -> Result<Vec<Value>, Malformed> {
        self.step();
        let mut values = Vec::new();
        self.blanks();
        if self.takes(']') {
            return Ok(values);
        }
        loop {
            values.push(self.value(depth + 1)?);
            self.blanks();
            if self.takes(']') {
                return Ok(values);
            }
            if !self.takes(',') {
                return Err(self.malformed("a comma or the end of the list has to stand here"));
            }
        }
    }

    /// Reads an object from its bracket on.
    fn object(&mut self, depth: usize) -> Result<Vec<(String, Value)>, Malformed> {
        self.step();
        let mut members = Vec::new();
        let mut names = HashSet::new();
        self.blanks();
        if self.takes('}') {
            return Ok(members);
        }
        loop {
            self.blanks();
            if self.next != Some('"') {
                return Err(self.malformed("a name in quotes has to stand here"));
            }
            let twice = self.malformed("this name stands twice in its object");
            let name = self.string()?;
            if !names.insert(name.clone()) {
                return Err(twice);
            }
            self.blanks();
            if !self.takes(':') {
                return Err(self.malformed("a colon has to stand behind a name"));
            }
            members.push((name, self.value(depth + 1)?));
            self.blanks();
            if self.takes('}') {
                return Ok(members);
            }
            if !self.takes(',') {
                return Err(self.malformed("a comma or the end of the object has to stand here"));
            }
        }
    }

    /// Reads a string from its quote on.
    fn string(&mut self) -> Result<String, Malformed> {
        self.step();
        let mut text = String::new();
        loop {
            match self.next {
                None => return Err(self.malformed("the text ends inside a string")),
                Some('"') => {
                    self.step();
                    return Ok(text);
                }
                Some('\\') => text.push(self.escape()?),
                Some(c) if c < ' ' => {
                    return Err(self.malformed("a control character stands in a string"))
                }
                Some(c) => {
                    text.push(c);
                    self.step();
                }
            }
        }
    }

    /// Reads an escape from its backslash on.
    fn escape(&mut self) -> Result<char, Malformed> {
        let wrong = self.malformed("this escape is none of JSON's");
        self.step();
        let plain = match self.next {
            Some('u') => return self.code(wrong),
            Some(c @ ('"' | '\\' | '/')) => c,
            Some('b') => '\u{8}',
            Some('f') => '\u{c}',
            Some('n') => '\n',
            Some('r') => '\r',
            Some('t') => '\t',
            _ => return Err(wrong),
        };
        self.step();
        Ok(plain)
    }

    /// Reads the character of `u` and four digits, or of a pair of these.
    fn code(&mut self, wrong: Malformed) -> Result<char, Malformed> {
        let first = self.four(wrong)?;
        let code = match first {
            0xd800..=0xdbff => {
                if !(self.takes('\\') && self.next == Some('u')) {
                    return Err(wrong);
                }
                match self.four(wrong)? {
                    low @ 0xdc00..=0xdfff => 0x10000 + ((first - 0xd800) << 10) + (low - 0xdc00),
                    _ => return Err(wrong),
                }
            }
            code => code,
        };
        char::from_u32(code).ok_or(wrong)
    }

    /// Reads `u` and four digits as a number.
    fn four(&mut self, wrong: Malformed) -> Result<u32, Malformed> {
        self.step();
        let mut code = 0;
        for _ in 0..4 {
            let digit = self.next.and_then(|c| c.to_digit(16)).ok_or(wrong)?;
            code = code * 16 + digit;
            self.step();
        }
        Ok(code)
    }

    /// Reads a number; which one does not matter here.
    fn number(&mut self) -> Result<Kind, Malformed> {
        let wrong = self.malformed("this number is none of JSON's");
        self.takes('-');
        if !self.takes('0') {
            self.digits(wrong)?;
        }
        if self.takes('.') {
            self.digits(wrong)?;
        }
        if self.takes('e') || self.takes('E') {
            if !self.takes('+') {
                self.takes('-');
            }
            self.digits(wrong)?;
        }
        Ok(Kind::Other)
    }

    /// Goes over one digit or more.
    fn digits(&mut self, wrong: Malformed) -> Result<(), Malformed> {
        let mut some = false;
        while matches!(self.next, Some('0'..='9')) {
            some = true;
            self.step();
        }
        some.then_some(()).ok_or(wrong)
    }

    /// Reads `true`, `false` or `null`.
    fn word(&mut self, word: &str) -> Result<Kind, Malformed> {
        let wrong = self.malformed("this word is none of JSON's: true, false, null");
        match word.chars().all(|c| self.takes(c)) {
            true => Ok(Kind::Other),
            false => Err(wrong),
        }
    }
}

#[cfg(test)]
mod tests;
