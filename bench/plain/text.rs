//! Native problems and printed answers: docs/FORMATS.md. Printed forms have their constant last.

use crate::numbers::*;
use crate::run::{Problem, Tree};

pub enum ReadRefusal {
    Syntax(usize),
    Wide(usize),
    Limit(&'static str, i128),
    BigParameter(i128),
}

#[derive(PartialEq)]
enum Token {
    Open,
    Close,
    OpenForm,
    CloseForm,
    Number(i128),
    WideNumber,
    Other,
}

pub struct Reader<'b> {
    pub bytes: &'b [u8],
    pub at: usize,
}

impl<'b> Reader<'b> {
    /// The next problem, none at the end.
    pub fn problem(&mut self) -> Result<Option<Problem<'b>>, ReadRefusal> {
        let Some(skipped) = self.bytes[self.at..].iter().position(|byte| *byte == b'(') else {
            return Ok(None);
        };
        self.at += skipped;
        self.expect(Token::Open)?;
        let comment = self.group()?;
        let unknowns = self.size("unknowns", 1, 128)?;
        let parameters = self.size("parameters", 0, 48)?;
        let row_count = self.size("rows", 0, 4096)?;
        let context_count = self.size("context rows", 0, 256)?;
        let big_parameter = self.number()?;
        if big_parameter != -1 {
            return Err(ReadRefusal::BigParameter(big_parameter));
        }
        let is_integer = self.number()? != 0;
        let rows = self.rows(row_count, unknowns + 1 + parameters, unknowns)?;
        let context = self.rows(context_count, parameters + 1, parameters)?;
        self.expect(Token::Close)?;
        Ok(Some(Problem { comment, unknowns, parameters, is_integer, rows, context }))
    }

    /// Bracketed rows, each turned so that the entry at a place comes first.
    fn rows(&mut self, count: usize, entries: usize, first: usize) -> Result<Vec<i128>, ReadRefusal> {
        self.expect(Token::Open)?;
        let mut numbers = Vec::with_capacity(count * entries);
        for _ in 0..count {
            self.expect(Token::OpenForm)?;
            for _ in 0..entries {
                numbers.push(self.number()?);
            }
            self.expect(Token::CloseForm)?;
            let row = numbers.len() - entries;
            numbers[row..].rotate_left(first);
        }
        self.expect(Token::Close)?;
        Ok(numbers)
    }

    fn size(&mut self, name: &'static str, least: i128, most: i128) -> Result<usize, ReadRefusal> {
        let size = self.number()?;
        if size < least || size > most {
            return Err(ReadRefusal::Limit(name, size));
        }
        Ok(size as usize)
    }

    fn number(&mut self) -> Result<i128, ReadRefusal> {
        match self.token() {
            (_, Token::Number(z)) => Ok(z),
            (first, Token::WideNumber) => Err(ReadRefusal::Wide(first)),
            (first, _) => Err(ReadRefusal::Syntax(first)),
        }
    }

    fn expect(&mut self, expected: Token) -> Result<(), ReadRefusal> {
        match self.token() {
            (_, token) if token == expected => Ok(()),
            (first, _) => Err(ReadRefusal::Syntax(first)),
        }
    }

    /// A bracketed text, in which only the brackets count.
    fn group(&mut self) -> Result<&'b [u8], ReadRefusal> {
        self.expect(Token::Open)?;
        let first = self.at - 1;
        let mut depth = 1;
        while depth > 0 {
            match self.bytes.get(self.at) {
                None => return Err(ReadRefusal::Syntax(self.at)),
                Some(b'(') => depth += 1,
                Some(b')') => depth -= 1,
                Some(_) => {}
            }
            self.at += 1;
        }
        Ok(&self.bytes[first..self.at])
    }

    /// The next token with the place of its first byte.
    fn token(&mut self) -> (usize, Token) {
        while matches!(self.bytes.get(self.at), Some(9 | 10 | 12 | 13 | 32)) {
            self.at += 1;
        }
        let first = self.at;
        self.at += 1;
        let token = match self.bytes.get(first) {
            Some(b'(') => Token::Open,
            Some(b')') => Token::Close,
            Some(b']') => Token::CloseForm,
            Some(b'#') if self.bytes.get(self.at) == Some(&b'[') => {
                self.at += 1;
                Token::OpenForm
            }
            Some(b'0'..=b'9') => self.digits(first, false),
            Some(sign @ (b'+' | b'-')) => self.digits(self.at, *sign == b'-'),
            _ => Token::Other,
        };
        (first, token)
    }

    /// The number whose digits begin at a place; a fraction or a sign alone is another token.
    fn digits(&mut self, first: usize, is_negative: bool) -> Token {
        let is_digit = |byte: &&u8| byte.is_ascii_digit();
        let length = self.bytes[first..].iter().take_while(is_digit).count();
        self.at = first + length;
        let is_fraction = matches!(self.bytes[self.at..], [b'/', b'0'..=b'9', ..]);
        match value(&self.bytes[first..self.at]) {
            _ if length == 0 || is_fraction => Token::Other,
            Some(z) => Token::Number(if is_negative { -z } else { z }),
            None => Token::WideNumber,
        }
    }
}

/// The value of digits, if it fits.
fn value(digits: &[u8]) -> Option<i128> {
    let mut values = digits.iter().map(|byte| byte - b'0');
    if digits.len() <= 18 {
        return Some(values.fold(0, |front: u64, digit| front * 10 + u64::from(digit)).into());
    }
    values.try_fold(0, |front: i128, digit| front.checked_mul(10)?.checked_add(digit.into()))
}

pub fn print_answer(comment: &[u8], tree: &Tree, out: &mut Vec<u8>) {
    out.push(b'(');
    out.extend_from_slice(comment);
    out.push(b'\n');
    print_tree(tree, out);
    out.extend_from_slice(b")\n");
}

fn print_tree(tree: &Tree, out: &mut Vec<u8>) {
    match tree {
        Tree::Void => out.extend_from_slice(b"void\n"),
        Tree::Bottom => out.extend_from_slice(b"()\n"),
        Tree::List(components) => {
            out.extend_from_slice(b"(list\n");
            for component in components {
                print_form(&component.form, component.denominator, out);
                out.push(b'\n');
            }
            out.extend_from_slice(b")\n");
        }
        Tree::If(condition, first, second) => {
            out.extend_from_slice(b"(if ");
            print_form(condition, 1, out);
            out.push(b'\n');
            print_tree(first, out);
            print_tree(second, out);
            out.extend_from_slice(b")\n");
        }
        Tree::NewParameter(quotient, below) => {
            out.extend_from_slice(b"(newparm ");
            print_number(quotient.form.len() as i128 - 1, out);
            out.extend_from_slice(b" (div ");
            print_form(&quotient.form, 1, out);
            out.push(b' ');
            print_number(quotient.divisor, out);
            out.extend_from_slice(b"))\n");
            print_tree(below, out);
        }
    }
}

fn print_form(form: &[i128], denominator: i128, out: &mut Vec<u8>) {
    out.extend_from_slice(b"#[");
    for entry in form[1..].iter().chain(&form[..1]) {
        out.push(b' ');
        print_fraction(*entry, denominator, out);
    }
    out.push(b']');
}

fn print_fraction(entry: i128, denominator: i128, out: &mut Vec<u8>) {
    if divides(denominator, entry) {
        return print_number(entry / denominator, out);
    }
    let common = gcd_with(entry, &[denominator]);
    print_number(entry / common, out);
    out.push(b'/');
    print_number(denominator / common, out);
}

fn print_number(z: i128, out: &mut Vec<u8>) {
    if !is_short(z) {
        return out.extend_from_slice(z.to_string().as_bytes());
    }
    if z < 0 {
        out.push(b'-');
    }
    let mut digits = [0; 20];
    let (mut first, mut rest) = (digits.len(), z.unsigned_abs() as u64);
    loop {
        first -= 1;
        digits[first] = b'0' + (rest % 10) as u8;
        rest /= 10;
        if rest == 0 {
            return out.extend_from_slice(&digits[first..]);
        }
    }
}
