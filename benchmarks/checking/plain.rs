//! What a good programmer writes in a day: checks a file against a schema and prints its canonical form or its size, with
//! the file as a whole in memory, strings, vectors and a hash map. It takes the parts of the formats that the benchmark's
//! files have, and stops at the first fault.
//! Usage: check_plain check|canon SCHEMA FILE

use std::collections::HashMap;
use std::io::Write;

type Fault = String;

// The schema

#[derive(Clone, Debug)]
enum Type {
    Integer,
    Real,
    Number,
    Boolean,
    Logical,
    Text(usize),
    Binary,
    Named(String),
    Aggregate(Kind, usize, usize, bool, Box<Type>),
}

#[derive(Clone, Copy, Debug, PartialEq)]
enum Kind {
    Array,
    List,
    Set,
    Bag,
}

#[derive(Debug)]
enum Defined {
    Alias(Type),
    Items(Vec<String>),
    Select(Vec<String>),
}

#[derive(Debug, Default)]
struct Entity {
    name: String,
    is_abstract: bool,
    supertypes: Vec<String>,
    attributes: Vec<(String, bool, Type)>,
    derived: Vec<(String, String)>,
    one_of: Vec<String>,
    order: Vec<usize>,
}

#[derive(Default)]
struct Schema {
    name: String,
    entities: Vec<Entity>,
    by_name: HashMap<String, usize>,
    types: HashMap<String, Defined>,
}

struct Words {
    words: Vec<String>,
    at: usize,
}

impl Words {
    fn new(text: &str) -> Words {
        let bytes = text.as_bytes();
        let mut words = Vec::new();
        let mut i = 0;
        while i < bytes.len() {
            if bytes[i].is_ascii_whitespace() {
                i += 1;
            } else if bytes[i..].starts_with(b"--") {
                while i < bytes.len() && bytes[i] != b'\n' {
                    i += 1;
                }
            } else if bytes[i..].starts_with(b"(*") {
                i += text[i..].find("*)").map_or(bytes.len() - i, |end| end + 2);
            } else if bytes[i] == b'\'' {
                let end = text[i + 1..].find('\'').map_or(bytes.len(), |end| i + end + 2);
                words.push(text[i..end].to_string());
                i = end;
            } else if bytes[i].is_ascii_alphanumeric() {
                let start = i;
                while i < bytes.len() && (bytes[i].is_ascii_alphanumeric() || bytes[i] == b'_') {
                    i += 1;
                }
                words.push(text[start..i].to_ascii_uppercase());
            } else {
                words.push((bytes[i] as char).to_string());
                i += 1;
            }
        }
        Words { words, at: 0 }
    }

    fn peek(&self) -> &str {
        self.words.get(self.at).map_or("", |word| word)
    }

    fn next(&mut self) -> String {
        let word = self.peek().to_string();
        self.at += 1;
        word
    }

    fn accept(&mut self, word: &str) -> bool {
        let found = self.peek() == word;
        self.at += usize::from(found);
        found
    }

    fn expect(&mut self, word: &str) -> Result<(), Fault> {
        if self.accept(word) {
            return Ok(());
        }
        Err(format!("schema: {word} expected at {}", self.peek()))
    }

    fn skip_behind(&mut self, word: &str) {
        while !self.peek().is_empty() && self.next() != word {}
    }

    fn names(&mut self) -> Result<Vec<String>, Fault> {
        self.expect("(")?;
        let mut names = vec![self.next()];
        while self.accept(",") {
            names.push(self.next());
        }
        self.expect(")")?;
        Ok(names)
    }

    fn bounds(&mut self) -> Result<(usize, usize), Fault> {
        if !self.accept("[") {
            return Ok((0, usize::MAX));
        }
        let low = self.next().parse().map_err(|_| "schema: bound".to_string())?;
        self.expect(":")?;
        let high = match self.next().as_str() {
            "?" => usize::MAX,
            digits => digits.parse().map_err(|_| "schema: bound".to_string())?,
        };
        self.expect("]")?;
        Ok((low, high))
    }

    fn aggregate(&mut self, kind: Kind) -> Result<Type, Fault> {
        let (low, high) = self.bounds()?;
        self.expect("OF")?;
        let unique = self.accept("UNIQUE") || kind == Kind::Set;
        Ok(Type::Aggregate(kind, low, high, unique, Box::new(self.data_type()?)))
    }

    fn data_type(&mut self) -> Result<Type, Fault> {
        Ok(match self.next().as_str() {
            "INTEGER" => Type::Integer,
            "REAL" => Type::Real,
            "NUMBER" => Type::Number,
            "BOOLEAN" => Type::Boolean,
            "LOGICAL" => Type::Logical,
            "BINARY" => Type::Binary,
            "STRING" => {
                let mut width = usize::MAX;
                if self.accept("(") {
                    width = self.next().parse().map_err(|_| "schema: width".to_string())?;
                    self.expect(")")?;
                }
                Type::Text(width)
            }
            "ARRAY" => self.aggregate(Kind::Array)?,
            "LIST" => self.aggregate(Kind::List)?,
            "SET" => self.aggregate(Kind::Set)?,
            "BAG" => self.aggregate(Kind::Bag)?,
            name => Type::Named(name.to_string()),
        })
    }

    fn entity(&mut self) -> Result<Entity, Fault> {
        let mut entity = Entity { name: self.next(), ..Entity::default() };
        entity.is_abstract = self.accept("ABSTRACT");
        if self.accept("SUPERTYPE") && self.accept("OF") {
            self.expect("(")?;
            self.expect("ONEOF")?;
            entity.one_of = self.names()?;
            self.expect(")")?;
        }
        if self.accept("SUBTYPE") {
            self.expect("OF")?;
            entity.supertypes = self.names()?;
        }
        self.expect(";")?;
        while !matches!(self.peek(), "DERIVE" | "INVERSE" | "UNIQUE" | "WHERE" | "END_ENTITY") {
            let mut names = vec![self.next()];
            while self.accept(",") {
                names.push(self.next());
            }
            self.expect(":")?;
            let optional = self.accept("OPTIONAL");
            let of = self.data_type()?;
            self.expect(";")?;
            entity.attributes.extend(names.into_iter().map(|name| (name, optional, of.clone())));
        }
        if self.accept("DERIVE") {
            while self.accept("SELF") {
                self.expect("\\")?;
                let owner = self.next();
                self.expect(".")?;
                entity.derived.push((owner, self.next()));
                self.skip_behind(";");
            }
        }
        self.skip_behind("END_ENTITY");
        self.expect(";")?;
        Ok(entity)
    }
}

impl Schema {
    fn read(text: &str) -> Result<Schema, Fault> {
        let mut words = Words::new(text);
        let mut schema = Schema::default();
        words.expect("SCHEMA")?;
        schema.name = words.next();
        words.skip_behind(";");
        loop {
            match words.next().as_str() {
                "ENTITY" => {
                    let entity = words.entity()?;
                    schema.by_name.insert(entity.name.clone(), schema.entities.len());
                    schema.entities.push(entity);
                }
                "TYPE" => {
                    let name = words.next();
                    words.expect("=")?;
                    let defined = if words.accept("ENUMERATION") {
                        words.expect("OF")?;
                        Defined::Items(words.names()?)
                    } else if words.accept("SELECT") {
                        Defined::Select(words.names()?)
                    } else {
                        Defined::Alias(words.data_type()?)
                    };
                    schema.types.insert(name, defined);
                    words.skip_behind("END_TYPE");
                    words.expect(";")?;
                }
                "FUNCTION" => {
                    words.skip_behind("END_FUNCTION");
                    words.expect(";")?;
                }
                "END_SCHEMA" => break,
                other => return Err(format!("schema: {other}")),
            }
        }
        for i in 0..schema.entities.len() {
            let mut order = Vec::new();
            schema.walk(i, &mut order)?;
            schema.entities[i].order = order;
        }
        Ok(schema)
    }

    fn walk(&self, entity: usize, order: &mut Vec<usize>) -> Result<(), Fault> {
        for name in &self.entities[entity].supertypes {
            let above = *self.by_name.get(name).ok_or_else(|| format!("schema: {name}"))?;
            self.walk(above, order)?;
        }
        if !order.contains(&entity) {
            order.push(entity);
        }
        Ok(())
    }

    fn is_derived(&self, set: &[usize], owner: usize, attribute: &str) -> bool {
        let of = &self.entities[owner].name;
        set.iter().any(|e| self.entities[*e].derived.iter().any(|(o, a)| o == of && a == attribute))
    }

    fn is_a(&self, entity: usize, other: usize) -> bool {
        self.entities[entity].order.contains(&other)
    }

    fn offers(&self, select: &str, member: &str) -> bool {
        match self.types.get(select) {
            Some(Defined::Select(names)) => names.iter().any(|name| name == member || self.offers(name, member)),
            _ => false,
        }
    }
}

// The file

#[derive(Debug)]
enum Param {
    Missing,
    Derived,
    Integer(String),
    Real(String),
    Text(Vec<char>),
    Name(u64),
    Item(String),
    Binary(String),
    List(Vec<Param>),
    Typed(String, Box<Param>),
}

struct Reader<'a> {
    bytes: &'a [u8],
    at: usize,
}

impl Reader<'_> {
    fn blanks(&mut self) {
        loop {
            while self.at < self.bytes.len() && self.bytes[self.at] <= b' ' {
                self.at += 1;
            }
            if !self.bytes[self.at..].starts_with(b"/*") {
                return;
            }
            let rest = &self.bytes[self.at + 2..];
            let end = rest.windows(2).position(|pair| pair == b"*/").unwrap_or(rest.len());
            self.at = (self.at + end + 4).min(self.bytes.len());
        }
    }

    fn peek(&mut self) -> u8 {
        self.blanks();
        self.bytes.get(self.at).copied().unwrap_or(0)
    }

    fn accept(&mut self, byte: u8) -> bool {
        let found = self.peek() == byte;
        self.at += usize::from(found);
        found
    }

    fn expect(&mut self, byte: u8) -> Result<(), Fault> {
        if self.accept(byte) {
            return Ok(());
        }
        Err(format!("{} expected at byte {}", byte as char, self.at))
    }

    fn taken(&mut self, belongs: impl Fn(u8) -> bool) -> String {
        let start = self.at;
        while self.at < self.bytes.len() && belongs(self.bytes[self.at]) {
            self.at += 1;
        }
        String::from_utf8_lossy(&self.bytes[start..self.at]).into_owned()
    }

    fn keyword(&mut self) -> Result<String, Fault> {
        self.blanks();
        let word = self.taken(|b| b.is_ascii_uppercase() || b.is_ascii_digit() || b == b'_' || b == b'-');
        if word.is_empty() {
            return Err(format!("keyword expected at byte {}", self.at));
        }
        Ok(word)
    }

    fn name(&mut self) -> Result<u64, Fault> {
        self.expect(b'#')?;
        self.taken(|b| b.is_ascii_digit()).parse().map_err(|_| format!("name at byte {}", self.at))
    }

    fn hex(&mut self, digits: usize) -> Result<u32, Fault> {
        let fault = || "directive".to_string();
        let text = self.bytes.get(self.at..self.at + digits).ok_or_else(fault)?;
        self.at += digits;
        u32::from_str_radix(std::str::from_utf8(text).map_err(|_| fault())?, 16).map_err(|_| fault())
    }

    fn text(&mut self) -> Result<Vec<char>, Fault> {
        self.expect(b'\'')?;
        let mut characters = Vec::new();
        loop {
            match self.bytes.get(self.at).copied() {
                None => return Err("open string".to_string()),
                Some(b'\'') => {
                    self.at += 1;
                    if self.bytes.get(self.at) != Some(&b'\'') {
                        return Ok(characters);
                    }
                    characters.push('\'');
                    self.at += 1;
                }
                Some(b'\\') => {
                    let rest = &self.bytes[self.at..];
                    if rest.starts_with(b"\\\\") {
                        characters.push('\\');
                        self.at += 2;
                    } else if rest.starts_with(b"\\S\\") {
                        characters.push((*rest.get(3).ok_or("open string")? + 128) as char);
                        self.at += 4;
                    } else if rest.starts_with(b"\\X\\") {
                        self.at += 3;
                        characters.extend(char::from_u32(self.hex(2)?));
                    } else if rest.starts_with(b"\\X2\\") || rest.starts_with(b"\\X4\\") {
                        let digits = if rest[2] == b'2' { 4 } else { 8 };
                        self.at += 4;
                        let mut units = Vec::new();
                        while !self.bytes[self.at..].starts_with(b"\\X0\\") {
                            units.push(self.hex(digits)?);
                        }
                        self.at += 4;
                        if digits == 8 {
                            for unit in units {
                                characters.push(char::from_u32(unit).ok_or("character")?);
                            }
                        } else {
                            let units: Vec<u16> = units.into_iter().map(|unit| unit as u16).collect();
                            for character in char::decode_utf16(units) {
                                characters.push(character.map_err(|_| "character".to_string())?);
                            }
                        }
                    } else {
                        return Err("directive".to_string());
                    }
                }
                Some(byte) if byte < 0x20 => self.at += 1,
                Some(byte) if byte < 0x80 => {
                    characters.push(byte as char);
                    self.at += 1;
                }
                Some(byte) => {
                    let width = if byte >= 0xF0 { 4 } else if byte >= 0xE0 { 3 } else { 2 };
                    let text = self.bytes.get(self.at..self.at + width).ok_or("open string")?;
                    let text = std::str::from_utf8(text).map_err(|_| "UTF-8".to_string())?;
                    characters.extend(text.chars());
                    self.at += width;
                }
            }
        }
    }

    fn number(&mut self) -> Result<Param, Fault> {
        let text = self.taken(|b| b.is_ascii_digit() || matches!(b, b'+' | b'-' | b'.' | b'E'));
        let negative = text.starts_with('-');
        let digits = text.trim_start_matches(['+', '-']);
        let Some((whole, rest)) = digits.split_once('.') else {
            let significant = digits.trim_start_matches('0');
            return Ok(Param::Integer(match (significant, negative) {
                ("", _) => "0".to_string(),
                (significant, true) => format!("-{significant}"),
                (significant, false) => significant.to_string(),
            }));
        };
        let (fraction, exponent) = rest.split_once('E').unwrap_or((rest, "0"));
        let exponent: i64 = exponent.parse().map_err(|_| format!("number {text}"))?;
        Ok(Param::Real(real(negative, whole, fraction, exponent)))
    }

    fn params(&mut self) -> Result<Vec<Param>, Fault> {
        self.expect(b'(')?;
        let mut params = Vec::new();
        if self.accept(b')') {
            return Ok(params);
        }
        params.push(self.param()?);
        while self.accept(b',') {
            params.push(self.param()?);
        }
        self.expect(b')')?;
        Ok(params)
    }

    fn param(&mut self) -> Result<Param, Fault> {
        Ok(match self.peek() {
            b'$' => {
                self.at += 1;
                Param::Missing
            }
            b'*' => {
                self.at += 1;
                Param::Derived
            }
            b'\'' => Param::Text(self.text()?),
            b'#' => Param::Name(self.name()?),
            b'(' => Param::List(self.params()?),
            b'.' => {
                self.at += 1;
                let word = self.keyword()?;
                self.expect(b'.')?;
                Param::Item(word)
            }
            b'"' => {
                self.at += 1;
                let digits = self.taken(|b| b.is_ascii_hexdigit());
                self.expect(b'"')?;
                Param::Binary(digits)
            }
            byte if byte.is_ascii_digit() || byte == b'+' || byte == b'-' => self.number()?,
            _ => {
                let word = self.keyword()?;
                self.expect(b'(')?;
                let inner = self.param()?;
                self.expect(b')')?;
                Param::Typed(word, Box::new(inner))
            }
        })
    }
}

/// One digit before the point, no zeros at either end.
fn real(negative: bool, whole: &str, fraction: &str, exponent: i64) -> String {
    let all = format!("{whole}{fraction}");
    let significant = all.trim_start_matches('0');
    let exponent = exponent + whole.len() as i64 - 1 - (all.len() - significant.len()) as i64;
    let significant = significant.trim_end_matches('0');
    if significant.is_empty() {
        return "0.".to_string();
    }
    let sign = if negative { "-" } else { "" };
    let (first, rest) = significant.split_at(1);
    match exponent {
        0 => format!("{sign}{first}.{rest}"),
        _ => format!("{sign}{first}.{rest}E{exponent}"),
    }
}

fn push_text(characters: &[char], out: &mut String) {
    out.push('\'');
    for character in characters {
        match *character {
            '\'' => out.push_str("''"),
            '\\' => out.push_str("\\\\"),
            ' '..='~' => out.push(*character),
            '\0'..='\u{FFFF}' => out.push_str(&format!("\\X2\\{:04X}\\X0\\", *character as u32)),
            _ => out.push_str(&format!("\\X4\\{:08X}\\X0\\", *character as u32)),
        }
    }
    out.push('\'');
}

fn push_untyped(param: &Param, out: &mut String) {
    match param {
        Param::Missing => out.push('$'),
        Param::Derived => out.push('*'),
        Param::Integer(text) | Param::Real(text) => out.push_str(text),
        Param::Text(characters) => push_text(characters, out),
        Param::Name(name) => out.push_str(&format!("#{name}")),
        Param::Item(word) => out.push_str(&format!(".{word}.")),
        Param::Binary(digits) => out.push_str(&format!("\"{digits}\"")),
        Param::List(params) => {
            out.push('(');
            push_row(params, out);
            out.push(')');
        }
        Param::Typed(word, inner) => {
            out.push_str(word);
            out.push('(');
            push_untyped(inner, out);
            out.push(')');
        }
    }
}

fn push_row(params: &[Param], out: &mut String) {
    for (i, param) in params.iter().enumerate() {
        if i > 0 {
            out.push(',');
        }
        push_untyped(param, out);
    }
}

// The check

struct Instance {
    set: Vec<usize>,
    line: String,
}

struct Checker<'a> {
    schema: &'a Schema,
    instances: HashMap<u64, Instance>,
    needs: Vec<(u64, u64, &'a str)>,
}

impl<'a> Checker<'a> {
    fn value(&mut self, holder: u64, of: &'a Type, param: &Param, out: &mut String) -> Result<(), Fault> {
        let fault = |what: &str| Err(format!("{what} in #{holder}"));
        match (of, param) {
            (_, Param::Missing) => return fault("Missing"),
            (_, Param::Derived) => return fault("StarNotDerived"),
            (Type::Integer, Param::Integer(text)) => out.push_str(text),
            (Type::Real | Type::Number, Param::Real(text)) => out.push_str(text),
            (Type::Number, Param::Integer(text)) => {
                let digits = text.trim_start_matches('-');
                out.push_str(&real(text.starts_with('-'), digits, "", 0));
            }
            (Type::Boolean, Param::Item(word)) if word == "T" || word == "F" => push_untyped(param, out),
            (Type::Logical, Param::Item(word)) if word == "T" || word == "F" || word == "U" => push_untyped(param, out),
            (Type::Text(width), Param::Text(characters)) => {
                if characters.len() > *width {
                    return fault("Width");
                }
                push_text(characters, out);
            }
            (Type::Binary, Param::Binary(_)) => push_untyped(param, out),
            (Type::Named(name), _) => return self.named(holder, name, param, out),
            (Type::Aggregate(kind, low, high, unique, element), Param::List(params)) => {
                let allowed = match kind {
                    Kind::Array => params.len() == high - low + 1,
                    _ => params.len() >= *low && params.len() <= *high,
                };
                if !allowed {
                    return fault("Bounds");
                }
                if *kind == Kind::List && !unique {
                    out.push('(');
                    for (i, param) in params.iter().enumerate() {
                        if i > 0 {
                            out.push(',');
                        }
                        self.value(holder, element, param, out)?;
                    }
                    out.push(')');
                    return Ok(());
                }
                let mut texts = Vec::with_capacity(params.len());
                for param in params {
                    let mut text = String::new();
                    self.value(holder, element, param, &mut text)?;
                    texts.push(text);
                }
                let mut sorted = texts.clone();
                sorted.sort();
                if *unique && sorted.windows(2).any(|pair| pair[0] == pair[1]) {
                    return fault("NotDistinct");
                }
                out.push('(');
                out.push_str(&if matches!(kind, Kind::Set | Kind::Bag) { sorted } else { texts }.join(","));
                out.push(')');
            }
            _ => return fault("WrongKind"),
        }
        Ok(())
    }

    fn named(&mut self, holder: u64, name: &'a str, param: &Param, out: &mut String) -> Result<(), Fault> {
        let fault = |what: &str| Err(format!("{what} in #{holder}"));
        if self.schema.by_name.contains_key(name) {
            let Param::Name(target) = param else {
                return fault("WrongKind");
            };
            self.needs.push((holder, *target, name));
            out.push_str(&format!("#{target}"));
            return Ok(());
        }
        match (&self.schema.types[name], param) {
            (Defined::Alias(of), _) => self.value(holder, of, param, out),
            (Defined::Items(items), Param::Item(word)) => {
                if !items.contains(word) {
                    return fault("UnknownItem");
                }
                push_untyped(param, out);
                Ok(())
            }
            (Defined::Items(_), _) => fault("WrongKind"),
            (Defined::Select(_), Param::Name(target)) => {
                self.needs.push((holder, *target, name));
                out.push_str(&format!("#{target}"));
                Ok(())
            }
            (Defined::Select(_), Param::Typed(word, inner)) => {
                let Some((key, defined)) = self.schema.types.get_key_value(word) else {
                    return fault("SelectType");
                };
                if matches!(defined, Defined::Select(_)) || !self.schema.offers(name, key) {
                    return fault("SelectType");
                }
                out.push_str(word);
                out.push('(');
                self.named(holder, key, inner, out)?;
                out.push(')');
                Ok(())
            }
            (Defined::Select(_), _) => fault("SelectType"),
        }
    }

    fn instance(&mut self, name: u64, parts: &[(String, Vec<Param>)], complex: bool) -> Result<(), Fault> {
        let fault = |what: &str| Err(format!("{what} in #{name}"));
        let schema = self.schema;
        if self.instances.contains_key(&name) {
            return fault("DuplicateName");
        }
        let mut listed = Vec::new();
        for (keyword, _) in parts {
            match schema.by_name.get(keyword) {
                Some(entity) => listed.push(*entity),
                None => return fault("UnknownEntity"),
            }
        }
        let mut set: Vec<usize> = Vec::new();
        for entity in &listed {
            for above in &schema.entities[*entity].order {
                if !set.contains(above) {
                    set.push(*above);
                }
            }
        }
        if complex && set.len() != listed.len() {
            return fault("PartMissing");
        }
        let leaves: Vec<usize> = set.iter().copied().filter(|e| set.iter().all(|f| f == e || !schema.is_a(*f, *e))).collect();
        if leaves.iter().any(|leaf| schema.entities[*leaf].is_abstract) {
            return fault("Abstract");
        }
        for entity in &schema.entities {
            let held = entity.one_of.iter().filter(|one| set.contains(&schema.by_name[*one])).count();
            if held > 1 {
                return fault("OneOf");
            }
        }
        let mut rows: HashMap<usize, String> = HashMap::new();
        let rows_of: Vec<(usize, &[Param])> = if complex {
            listed.iter().zip(parts).map(|(entity, (_, params))| (*entity, params.as_slice())).collect()
        } else {
            let mut rest = parts[0].1.as_slice();
            let mut rows_of = Vec::new();
            for owner in &schema.entities[listed[0]].order {
                let count = schema.entities[*owner].attributes.len();
                if rest.len() < count {
                    return fault("Count");
                }
                let (own, more) = rest.split_at(count);
                rows_of.push((*owner, own));
                rest = more;
            }
            if !rest.is_empty() {
                return fault("Count");
            }
            rows_of
        };
        for (owner, params) in rows_of {
            let attributes = &schema.entities[owner].attributes;
            if attributes.len() != params.len() {
                return fault("Count");
            }
            let mut row = String::new();
            for (i, ((attribute, optional, of), param)) in attributes.iter().zip(params).enumerate() {
                if i > 0 {
                    row.push(',');
                }
                if schema.is_derived(&set, owner, attribute) {
                    if !matches!(param, Param::Derived) {
                        return fault("DerivedNotStar");
                    }
                    row.push('*');
                } else if *optional && matches!(param, Param::Missing) {
                    row.push('$');
                } else {
                    self.value(name, of, param, &mut row)?;
                }
            }
            rows.insert(owner, row);
        }
        let line = if let [leaf] = leaves[..] {
            let values: Vec<&str> =
                schema.entities[leaf].order.iter().map(|e| rows[e].as_str()).filter(|row| !row.is_empty()).collect();
            format!("#{name}={}({});", schema.entities[leaf].name, values.join(","))
        } else {
            set.sort_by_key(|e| &schema.entities[*e].name);
            let parts: String = set.iter().map(|e| format!("{}({})", schema.entities[*e].name, rows[e])).collect();
            format!("#{name}=({parts});")
        };
        self.instances.insert(name, Instance { set, line });
        Ok(())
    }

    fn references(&self) -> Result<(), Fault> {
        for (holder, target, wanted) in &self.needs {
            let Some(instance) = self.instances.get(target) else {
                return Err(format!("Dangling in #{holder}"));
            };
            let served = instance.set.iter().any(|e| {
                let name = &self.schema.entities[*e].name;
                name == wanted || self.schema.offers(wanted, name)
            });
            if !served {
                return Err(format!("WrongTarget in #{holder}"));
            }
        }
        Ok(())
    }
}

fn read(schema: &Schema, bytes: &[u8]) -> Result<(usize, String), Fault> {
    let mut reader = Reader { bytes, at: 0 };
    let mut out = String::new();
    for word in ["ISO-10303-21", "HEADER"] {
        if reader.keyword()? != word {
            return Err(format!("{word} expected"));
        }
        reader.expect(b';')?;
        out.push_str(&format!("{word};\n"));
    }
    loop {
        let word = reader.keyword()?;
        if word == "ENDSEC" {
            break;
        }
        let params = reader.params()?;
        reader.expect(b';')?;
        if word == "FILE_SCHEMA" {
            let [Param::List(names)] = params.as_slice() else {
                return Err("HeaderShape".to_string());
            };
            let [Param::Text(name)] = names.as_slice() else {
                return Err("HeaderShape".to_string());
            };
            let name: String = name.iter().take_while(|c| c.is_ascii_alphanumeric() || **c == '_').collect();
            if !name.eq_ignore_ascii_case(&schema.name) {
                return Err("SchemaName".to_string());
            }
        }
        out.push_str(&word);
        out.push('(');
        push_row(&params, &mut out);
        out.push_str(");\n");
    }
    reader.expect(b';')?;
    if reader.keyword()? != "DATA" {
        return Err("DATA expected".to_string());
    }
    reader.expect(b';')?;
    out.push_str("ENDSEC;\nDATA;\n");
    let mut checker = Checker { schema, instances: HashMap::new(), needs: Vec::new() };
    while reader.peek() == b'#' {
        let name = reader.name()?;
        reader.expect(b'=')?;
        let complex = reader.accept(b'(');
        let mut parts = vec![(reader.keyword()?, reader.params()?)];
        if complex {
            while !reader.accept(b')') {
                parts.push((reader.keyword()?, reader.params()?));
            }
        }
        reader.expect(b';')?;
        checker.instance(name, &parts, complex)?;
    }
    for word in ["ENDSEC", "END-ISO-10303-21"] {
        if reader.keyword()? != word {
            return Err(format!("{word} expected"));
        }
        reader.expect(b';')?;
    }
    if reader.peek() != 0 {
        return Err("AfterEnd".to_string());
    }
    checker.references()?;
    let mut names: Vec<u64> = checker.instances.keys().copied().collect();
    names.sort_unstable();
    for name in &names {
        out.push_str(&checker.instances[name].line);
        out.push('\n');
    }
    out.push_str("ENDSEC;\nEND-ISO-10303-21;\n");
    Ok((names.len(), out))
}

fn main() {
    let words: Vec<String> = std::env::args().collect();
    let text = std::fs::read_to_string(&words[2]).expect("a schema");
    let bytes = std::fs::read(&words[3]).expect("a file");
    match Schema::read(&text).and_then(|schema| read(&schema, &bytes)) {
        Ok((count, text)) if words[1] == "check" => {
            println!("accepted, instances {count}, canonical bytes {}", text.len());
        }
        Ok((_, text)) => std::io::stdout().write_all(text.as_bytes()).expect("room"),
        Err(fault) => {
            eprintln!("refused {fault}");
            std::process::exit(1);
        }
    }
}
