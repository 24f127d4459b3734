//! Reads one value from each line of a file, keeps all, and writes their spellings: reals as `f64`, names as `u64` and
//! labels as `String`.

use std::io::Write;
use std::{env, fs, io};

fn main() -> io::Result<()> {
    let words: Vec<String> = env::args().collect();
    let file = fs::read(&words[2])?;
    let lines = file.split_inclusive(|byte| *byte == b'\n');
    let lines = lines.map(|line| &line[..line.len() - 1]);
    let spellings = match words[1].as_str() {
        "reals" => reals(lines),
        "names" => names(lines),
        "labels" => labels(lines),
        kind => panic!("no kind {kind}"),
    };
    io::stdout().write_all(&spellings)
}

fn reals<'a>(lines: impl Iterator<Item = &'a [u8]>) -> Vec<u8> {
    let mut values: Vec<f64> = Vec::new();
    for line in lines {
        values.push(std::str::from_utf8(line).unwrap().parse().unwrap());
    }
    let mut out = Vec::new();
    let mut digits = Vec::new();
    for value in &values {
        digits.clear();
        write!(digits, "{value:E}").unwrap();
        let exponent = digits.iter().position(|byte| *byte == b'E').unwrap();
        out.extend_from_slice(&digits[..exponent]);
        if !digits[..exponent].contains(&b'.') {
            out.push(b'.');
        }
        if &digits[exponent..] != b"E0" {
            out.extend_from_slice(&digits[exponent..]);
        }
        out.push(b'\n');
    }
    out
}

fn names<'a>(lines: impl Iterator<Item = &'a [u8]>) -> Vec<u8> {
    let mut values: Vec<u64> = Vec::new();
    for line in lines {
        values.push(std::str::from_utf8(&line[1..]).unwrap().parse().unwrap());
    }
    let mut out = Vec::new();
    for value in &values {
        writeln!(out, "#{value}").unwrap();
    }
    out
}

fn labels<'a>(lines: impl Iterator<Item = &'a [u8]>) -> Vec<u8> {
    let mut values: Vec<String> = Vec::new();
    for line in lines {
        let mut text = String::new();
        for byte in line {
            text.push(char::from(*byte));
        }
        values.push(text);
    }
    let mut out = Vec::new();
    for value in &values {
        out.push(b'\'');
        for character in value.chars() {
            match character {
                '\'' | '\\' => out.extend_from_slice(&[character as u8; 2]),
                ' '..='~' => out.push(character as u8),
                '\0'..='\u{FFFF}' => write!(out, "\\X2\\{:04X}\\X0\\", character as u32).unwrap(),
                _ => write!(out, "\\X4\\{:08X}\\X0\\", character as u32).unwrap(),
            }
        }
        out.extend_from_slice(b"'\n");
    }
    out
}
