//! A strict reader of JSON (RFC 8259), for what the command prints.

#[derive(Clone, Debug, PartialEq)]
pub enum Value {
    Null,
    Number(u64),
    Text(String),
    List(Vec<Value>),
    Object(Vec<(String, Value)>),
}

impl Value {
    /// The member of this name.
    pub fn get(&self, name: &str) -> &Value {
        let Value::Object(members) = self else { panic!("no object: {self:?}") };
        let found = members.iter().find(|(member, _)| member == name);
        &found.unwrap_or_else(|| panic!("no {name} in {self:?}")).1
    }

    pub fn number(&self) -> u64 {
        let Value::Number(number) = self else { panic!("no number: {self:?}") };
        *number
    }

    pub fn text(&self) -> &str {
        let Value::Text(text) = self else { panic!("no text: {self:?}") };
        text
    }

    pub fn list(&self) -> &[Value] {
        let Value::List(list) = self else { panic!("no list: {self:?}") };
        list
    }

    pub fn names(&self) -> Vec<&str> {
        let Value::Object(members) = self else { panic!("no object: {self:?}") };
        members.iter().map(|(name, _)| name.as_str()).collect()
    }
}

/// The one object of an output of one line.
pub fn read(output: &str) -> Value {
    let line = output.strip_suffix('\n').expect("a line");
    assert!(!line.contains('\n'), "one line: {output}");
    let mut rest = line;
    let value = value(&mut rest);
    assert_eq!(rest, "", "nothing after the object");
    assert!(matches!(value, Value::Object(_)), "an object: {output}");
    value
}

fn value(rest: &mut &str) -> Value {
    match rest.chars().next().expect("a value") {
        '{' => Value::Object(sequence(rest, '{', '}', |rest| {
            let name = string(rest);
            take(rest, ':');
            (name, value(rest))
        })),
        '[' => Value::List(sequence(rest, '[', ']', value)),
        '"' => Value::Text(string(rest)),
        'n' => {
            *rest = rest.strip_prefix("null").expect("null");
            Value::Null
        }
        _ => number(rest),
    }
}

/// What stands between two brackets, with commas between.
fn sequence<T>(rest: &mut &str, open: char, close: char, item: impl Fn(&mut &str) -> T) -> Vec<T> {
    take(rest, open);
    let mut items = Vec::new();
    while !rest.starts_with(close) {
        if !items.is_empty() {
            take(rest, ',');
        }
        items.push(item(rest));
    }
    take(rest, close);
    items
}

fn take(rest: &mut &str, character: char) {
    *rest = rest.strip_prefix(character).unwrap_or_else(|| panic!("no {character} before {rest}"));
}

fn number(rest: &mut &str) -> Value {
    let end = rest.find(|c: char| !c.is_ascii_digit()).unwrap_or(rest.len());
    let (digits, after) = rest.split_at(end);
    assert!(digits == "0" || !digits.starts_with('0'), "no zero in front: {digits}");
    *rest = after;
    Value::Number(digits.parse().expect("a number"))
}

fn string(rest: &mut &str) -> String {
    take(rest, '"');
    let mut text = String::new();
    loop {
        let character = rest.chars().next().expect("a string that ends");
        *rest = &rest[character.len_utf8()..];
        match character {
            '"' => return text,
            '\\' => text.push(escaped(rest)),
            _ => {
                assert!(character >= ' ', "a control character in a string");
                text.push(character);
            }
        }
    }
}

fn escaped(rest: &mut &str) -> char {
    let kind = rest.chars().next().expect("an escape");
    *rest = &rest[kind.len_utf8()..];
    match kind {
        '"' | '\\' | '/' => kind,
        'n' => '\n',
        'r' => '\r',
        't' => '\t',
        'u' => {
            let (digits, after) = rest.split_at(4);
            *rest = after;
            let code = u32::from_str_radix(digits, 16).expect("four digits");
            char::from_u32(code).expect("a character")
        }
        _ => panic!("no escape: {kind}"),
    }
}

/// The reader takes what it should, and nothing else.
#[test]
fn reader() {
    let read_value = read("{\"a\":[1,0,null],\"b\\n\\u0041\":\"\\\"\\\\é\",\"c\":{}}\n");
    assert_eq!(read_value.names(), ["a", "b\nA", "c"]);
    let list = [Value::Number(1), Value::Number(0), Value::Null];
    assert_eq!(read_value.get("a").list(), list);
    assert_eq!(read_value.get("b\nA").text(), "\"\\é");
    let wrong =
        ["{}", "[]\n", "{}\n\n", "{} \n", "{\"a\":01}\n", "{\"a\":1,}\n", "{\"a\":\"\u{1}\"}\n"];
    for text in
        wrong.into_iter().chain(["{\"a\":\"\\x\"}\n", "{\"a\" 1}\n", "{a:1}\n", "{\"a\":}\n"])
    {
        assert!(std::panic::catch_unwind(|| read(text)).is_err(), "{text:?}");
    }
}
