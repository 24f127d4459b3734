//! Counts the tokens of a file, which it reads whole. Each token is made, with the value that it stands for.

use std::{env, fs, process};

#[allow(dead_code)]
enum Token {
    Marker,
    Keyword(String),
    UserKeyword(String),
    Name(u64),
    Whole(i64),
    Real(f64),
    Text(String),
    Item(String),
    Bits(Vec<u8>),
    Sign(u8),
}

struct Lexer<'a> {
    bytes: &'a [u8],
    at: usize,
}

fn is_keyword_byte(byte: u8) -> bool {
    byte.is_ascii_uppercase() || byte.is_ascii_digit() || byte == b'_'
}

impl<'a> Lexer<'a> {
    fn peek(&self) -> Option<u8> {
        self.bytes.get(self.at).copied()
    }

    /// Takes the bytes that pass a test.
    fn run(&mut self, test: impl Fn(u8) -> bool) -> &'a [u8] {
        let rest = &self.bytes[self.at..];
        let count = rest.iter().position(|byte| !test(*byte)).unwrap_or(rest.len());
        self.at += count;
        &rest[..count]
    }

    fn word(&mut self) -> Option<String> {
        String::from_utf8(self.run(is_keyword_byte).to_vec()).ok()
    }

    fn skip_blanks(&mut self) -> Option<()> {
        loop {
            self.run(|byte| matches!(byte, b' ' | b'\n' | b'\r' | b'\t'));
            if !self.bytes[self.at..].starts_with(b"/*") {
                return Some(());
            }
            self.at += 2;
            let end = self.bytes[self.at..].windows(2).position(|two| two == b"*/")?;
            self.at += end + 2;
        }
    }

    fn number(&mut self) -> Option<Token> {
        let start = self.at;
        if matches!(self.peek(), Some(b'+' | b'-')) {
            self.at += 1;
        }
        self.run(|byte| byte.is_ascii_digit());
        let is_real = self.peek() == Some(b'.');
        if is_real {
            self.at += 1;
            self.run(|byte| byte.is_ascii_digit());
            if self.peek() == Some(b'E') {
                self.at += 1;
                if matches!(self.peek(), Some(b'+' | b'-')) {
                    self.at += 1;
                }
                self.run(|byte| byte.is_ascii_digit());
            }
        }
        let spelling = std::str::from_utf8(&self.bytes[start..self.at]).ok()?;
        if is_real {
            spelling.parse().ok().map(Token::Real)
        } else {
            spelling.parse().ok().map(Token::Whole)
        }
    }

    /// The bytes of a directive's hex digits, up to the directive that ends them.
    fn extended(&mut self, width: usize, text: &mut String) -> Option<()> {
        let mut units = Vec::new();
        while !self.bytes[self.at..].starts_with(b"\\X0\\") {
            let digits = self.bytes.get(self.at..self.at + width)?;
            units.push(u32::from_str_radix(std::str::from_utf8(digits).ok()?, 16).ok()?);
            self.at += width;
        }
        self.at += 4;
        if width == 4 {
            let units = units.iter().map(|unit| *unit as u16);
            for character in char::decode_utf16(units) {
                text.push(character.ok()?);
            }
        } else {
            for unit in units {
                text.push(char::from_u32(unit)?);
            }
        }
        Some(())
    }

    fn directive(&mut self, text: &mut String) -> Option<()> {
        let rest = &self.bytes[self.at..];
        if rest.starts_with(b"\\\\") {
            self.at += 2;
            text.push('\\');
        } else if rest.starts_with(b"\\S\\") {
            text.push(char::from(rest.get(3)? + 0x80));
            self.at += 4;
        } else if rest.starts_with(b"\\P") {
            self.at += 4;
        } else if rest.starts_with(b"\\X2\\") {
            self.at += 4;
            self.extended(4, text)?;
        } else if rest.starts_with(b"\\X4\\") {
            self.at += 4;
            self.extended(8, text)?;
        } else if rest.starts_with(b"\\X\\") {
            let digits = std::str::from_utf8(rest.get(3..5)?).ok()?;
            text.push(char::from(u8::from_str_radix(digits, 16).ok()?));
            self.at += 5;
        } else {
            return None;
        }
        Some(())
    }

    fn text(&mut self) -> Option<Token> {
        let mut text = String::new();
        self.at += 1;
        loop {
            let plain = self.run(|byte| !matches!(byte, b'\'' | b'\\' | b'\n' | b'\r'));
            text.push_str(std::str::from_utf8(plain).ok()?);
            match self.peek()? {
                b'\'' if self.bytes.get(self.at + 1) == Some(&b'\'') => {
                    text.push('\'');
                    self.at += 2;
                }
                b'\'' => {
                    self.at += 1;
                    return Some(Token::Text(text));
                }
                b'\\' => self.directive(&mut text)?,
                _ => self.at += 1,
            }
        }
    }

    fn delimited(&mut self, end: u8) -> Option<&'a [u8]> {
        self.at += 1;
        let inside = self.run(|byte| byte != end);
        self.peek()?;
        self.at += 1;
        Some(inside)
    }

    fn token(&mut self) -> Option<Token> {
        let first = self.peek()?;
        match first {
            b'A'..=b'Z' | b'_' => {
                let rest = &self.bytes[self.at..];
                for marker in [&b"ISO-10303-21"[..], &b"END-ISO-10303-21"[..]] {
                    if rest.starts_with(marker) {
                        self.at += marker.len();
                        return Some(Token::Marker);
                    }
                }
                self.word().map(Token::Keyword)
            }
            b'!' => {
                self.at += 1;
                self.word().map(Token::UserKeyword)
            }
            b'#' => {
                self.at += 1;
                let digits = self.run(|byte| byte.is_ascii_digit());
                std::str::from_utf8(digits).ok()?.parse().ok().map(Token::Name)
            }
            b'0'..=b'9' | b'+' | b'-' => self.number(),
            b'\'' => self.text(),
            b'.' => {
                let word = self.delimited(b'.')?;
                String::from_utf8(word.to_vec()).ok().map(Token::Item)
            }
            b'"' => Some(Token::Bits(self.delimited(b'"')?.to_vec())),
            b'(' | b')' | b',' | b';' | b'=' | b'$' | b'*' => {
                self.at += 1;
                Some(Token::Sign(first))
            }
            _ => None,
        }
    }
}

fn main() {
    let path = env::args().nth(1).expect("needs a file");
    let bytes = fs::read(path).expect("a file that can be read");
    let mut lexer = Lexer { bytes: &bytes, at: 0 };
    let mut count = 0u64;
    while lexer.skip_blanks().is_some() && lexer.at < bytes.len() {
        if lexer.token().is_none() {
            eprintln!("no token at byte {}", lexer.at);
            process::exit(1);
        }
        count += 1;
    }
    println!("{count}");
}
