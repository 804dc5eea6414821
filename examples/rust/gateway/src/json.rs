//! As much of JSON as the gateway's lines have: an object of texts and lists, and a text. A program with serde_json
//! has no use for it.
use std::collections::HashMap;

/// The value of a member.
#[derive(Clone, Copy, Debug, PartialEq, Eq)]
pub enum Member<'a> {
    /// A text without escapes, without its quotes.
    Text(&'a str),
    /// A list, as it stands.
    List(&'a str),
}

/// The members of an object whose values are texts without escapes and lists; `None` of anything else. What stands
/// in a list isn't judged.
pub fn object(line: &str) -> Option<HashMap<&str, Member<'_>>> {
    let inside = line.trim().strip_prefix('{')?.strip_suffix('}')?;
    if inside.trim().is_empty() {
        return Some(HashMap::new());
    }
    let mut members = HashMap::new();
    let mut rest = inside;
    loop {
        let (name, behind) = quoted(rest)?;
        let (value, behind) = member(behind.trim_start().strip_prefix(':')?.trim_start())?;
        members.insert(name, value);
        match behind.trim_start().strip_prefix(',') {
            Some(behind) => rest = behind,
            None => return behind.trim().is_empty().then_some(members),
        }
    }
}

// A text or a list at the front, and what stands behind it.
fn member(from: &str) -> Option<(Member<'_>, &str)> {
    if from.starts_with('[') {
        let (list, behind) = from.split_at(end_of_list(from)?);
        return Some((Member::List(list), behind));
    }
    let (text, behind) = quoted(from)?;
    Some((Member::Text(text), behind))
}

// Where the list ends that stands at the front: behind the bracket that closes it.
fn end_of_list(from: &str) -> Option<usize> {
    let (mut depth, mut in_text, mut escaped) = (0, false, false);
    for (at, letter) in from.char_indices() {
        match letter {
            _ if escaped => escaped = false,
            '\\' => escaped = in_text,
            '"' => in_text = !in_text,
            '[' if !in_text => depth += 1,
            ']' if !in_text => depth -= 1,
            _ => {}
        }
        if depth == 0 {
            return Some(at + 1);
        }
    }
    None
}

// A text in quotes at the front, and what stands behind it.
fn quoted(from: &str) -> Option<(&str, &str)> {
    let (text, behind) = from.trim_start().strip_prefix('"')?.split_once('"')?;
    let is_plain = !text.contains('\\') && !text.chars().any(char::is_control);
    is_plain.then_some((text, behind))
}

/// A text in quotes.
pub fn text(it: &str) -> String {
    let mut quoted = String::from('"');
    for letter in it.chars() {
        match letter {
            '"' | '\\' => quoted.extend(['\\', letter]),
            letter if letter.is_control() => quoted += &format!("\\u{:04x}", u32::from(letter)),
            letter => quoted.push(letter),
        }
    }
    quoted + "\""
}

#[cfg(test)]
mod tests {
    use super::{object, text, Member};

    #[test]
    fn objects_of_texts_and_lists() {
        let read = object(r#" {"operation" : "add", "ins": [2,["]\""],[]] } "#).expect("an object");
        assert_eq!((read["operation"], read.len()), (Member::Text("add"), 2));
        assert_eq!(read["ins"], Member::List(r#"[2,["]\""],[]]"#));
        assert_eq!(object("{ }").map(|it| it.len()), Some(0));
        for wrong in ["", "[]", "{", r#"{"a":1}"#, r#"{"a":"b",}"#, r#"{"a":"\n"}"#, r#"{"a":"b"} {"#, r#"{"a" "b"}"#] {
            assert_eq!(object(wrong), None, "{wrong}");
        }
        for wrong in [r#"{"a":[}"#, r#"{"a":["]}"#, r#"{"a":[]]}"#] {
            assert_eq!(object(wrong), None, "{wrong}");
        }
    }

    #[test]
    fn texts() {
        assert_eq!(text("a\"\\\n"), r#""a\"\\\u000a""#);
    }
}
