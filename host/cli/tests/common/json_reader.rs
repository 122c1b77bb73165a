//! A reader of JSON for tests: strict, one value to a line, nothing around it.

use std::iter::Peekable;
use std::str::Chars;

/// A value; there is no null.
#[derive(Clone, Debug, PartialEq)]
pub enum Value {
    Yes(bool),
    Number(u64),
    Text(String),
    List(Vec<Value>),
    Object(Vec<(String, Value)>),
}

/// The value of a line, which holds nothing else.
pub fn parse(line: &str) -> Value {
    assert!(line.chars().all(|sign| (' '..='~').contains(&sign)), "{line}");
    let mut signs = line.chars().peekable();
    let value = value(&mut signs);
    assert_eq!(signs.next(), None, "{line}");
    value
}

fn value(signs: &mut Peekable<Chars>) -> Value {
    match signs.peek().copied().unwrap() {
        '"' => Value::Text(text(signs)),
        '[' => Value::List(sequence(signs, ['[', ']'], value)),
        '{' => Value::Object(sequence(signs, ['{', '}'], |signs| {
            let name = text(signs);
            assert_eq!(signs.next(), Some(':'));
            (name, value(signs))
        })),
        't' | 'f' => {
            let word: String =
                std::iter::from_fn(|| signs.next_if(char::is_ascii_lowercase)).collect();
            Value::Yes(word.parse().unwrap())
        }
        _ => {
            let digits: String =
                std::iter::from_fn(|| signs.next_if(char::is_ascii_digit)).collect();
            assert!(digits == "0" || !digits.starts_with('0'), "{digits}");
            Value::Number(digits.parse().unwrap())
        }
    }
}

/// Values with commas between them, in brackets.
fn sequence<V>(
    signs: &mut Peekable<Chars>,
    [open, close]: [char; 2],
    mut one: impl FnMut(&mut Peekable<Chars>) -> V,
) -> Vec<V> {
    assert_eq!(signs.next(), Some(open));
    let mut all = Vec::new();
    if signs.next_if_eq(&close).is_some() {
        return all;
    }
    loop {
        all.push(one(signs));
        match signs.next() {
            Some(',') => {}
            end => {
                assert_eq!(end, Some(close));
                return all;
            }
        }
    }
}

/// A text in quotes, with the escapes that the command writes.
fn text(signs: &mut Peekable<Chars>) -> String {
    assert_eq!(signs.next(), Some('"'));
    let mut units: Vec<u16> = Vec::new();
    loop {
        match signs.next().unwrap() {
            '"' => return String::from_utf16(&units).unwrap(),
            '\\' => match signs.next().unwrap() {
                'u' => {
                    let digits: String = signs.by_ref().take(4).collect();
                    units.push(u16::from_str_radix(&digits, 16).unwrap());
                }
                sign => {
                    assert!("\"\\".contains(sign), "{sign}");
                    units.push(sign as u16);
                }
            },
            sign => units.push(sign as u16),
        }
    }
}
