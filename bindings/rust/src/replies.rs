//! What the replies to queries say, as values.

use std::fmt;

/// The name of an object: 40 hexadecimal digits.
#[derive(Clone, Copy, Debug, PartialEq, Eq, PartialOrd, Ord, Hash)]
pub struct ObjectName([u8; 40]);

impl ObjectName {
    /// The name that these bytes are: 40 hexadecimal digits in lower case, or else `None`.
    pub fn read(text: &[u8]) -> Option<ObjectName> {
        let digits: [u8; 40] = text.try_into().ok()?;
        let is_digit = |it: &u8| matches!(it, b'0'..=b'9' | b'a'..=b'f');
        digits.iter().all(is_digit).then_some(ObjectName(digits))
    }

    /// The digits.
    pub fn as_bytes(&self) -> &[u8] {
        &self.0
    }
}

impl fmt::Display for ObjectName {
    fn fmt(&self, to: &mut fmt::Formatter<'_>) -> fmt::Result {
        self.0.iter().try_for_each(|it| write!(to, "{}", char::from(*it)))
    }
}

/// A ref, and the object that it names.
#[derive(Clone, Debug, PartialEq, Eq)]
pub struct Ref {
    /// The full name, such as `refs/heads/main`.
    pub name: Vec<u8>,
    /// The name of its object.
    pub target: ObjectName,
}

/// A commit of a log.
#[derive(Clone, Debug, PartialEq, Eq)]
pub struct LogEntry {
    /// The name of the commit.
    pub commit: ObjectName,
    /// The first line of its message.
    pub subject: Vec<u8>,
}

/// The kind of an object.
#[derive(Clone, Copy, Debug, PartialEq, Eq, Hash)]
pub enum Kind {
    /// The contents of a file.
    Blob,
    /// A directory.
    Tree,
    /// A commit; in a tree, one of another repository.
    Commit,
    /// An annotated tag.
    Tag,
}

impl Kind {
    fn read(text: &[u8]) -> Option<Kind> {
        match text {
            b"blob" => Some(Kind::Blob),
            b"tree" => Some(Kind::Tree),
            b"commit" => Some(Kind::Commit),
            b"tag" => Some(Kind::Tag),
            _ => None,
        }
    }
}

/// An entry of a tree.
#[derive(Clone, Debug, PartialEq, Eq)]
pub struct TreeEntry {
    /// 0o100644, 0o100755, 0o120000, 0o160000 or 0o040000.
    pub mode: u32,
    /// The kind of its object.
    pub kind: Kind,
    /// The name of its object.
    pub object: ObjectName,
    /// Its name, without Git's quotes.
    pub name: Vec<u8>,
}

/// An object with its contents.
#[derive(Clone, Debug, PartialEq, Eq)]
pub struct Object {
    /// Its name.
    pub name: ObjectName,
    /// Its kind.
    pub kind: Kind,
    /// Its contents, without Git's header.
    pub contents: Vec<u8>,
}

// The lines of a reply, of which each call of `next` takes one.
#[derive(Clone, Debug)]
struct Lines {
    reply: Vec<u8>,
    at: usize,
}

impl Lines {
    fn of(reply: Vec<u8>) -> Lines {
        Lines { reply, at: 0 }
    }

    fn next(&mut self) -> Option<&[u8]> {
        let left = &self.reply[self.at..];
        let length = left.iter().position(|it| *it == b'\n')?;
        self.at += length + 1;
        Some(&left[..length])
    }
}

// A name of 40 digits, a separator, and the rest of a line.
fn name_and_rest(line: &[u8]) -> Option<(ObjectName, &[u8])> {
    Some((ObjectName::read(line.get(..40)?)?, line.get(41..)?))
}

/// The refs of a tenant, in the order of their bytes.
#[derive(Clone, Debug)]
pub struct Refs(Lines);

impl Refs {
    pub(crate) fn of(reply: Vec<u8>) -> Refs {
        Refs(Lines::of(reply))
    }
}

impl Iterator for Refs {
    type Item = Ref;

    fn next(&mut self) -> Option<Ref> {
        let (target, name) = name_and_rest(self.0.next()?)?;
        Some(Ref { name: name.to_vec(), target })
    }
}

/// The commits of a range, from new to old.
#[derive(Clone, Debug)]
pub struct Log(Lines);

impl Log {
    pub(crate) fn of(reply: Vec<u8>) -> Log {
        Log(Lines::of(reply))
    }
}

impl Iterator for Log {
    type Item = LogEntry;

    fn next(&mut self) -> Option<LogEntry> {
        let (commit, subject) = name_and_rest(self.0.next()?)?;
        Some(LogEntry { commit, subject: subject.to_vec() })
    }
}

/// The entries of a tree, in the order of the tree.
#[derive(Clone, Debug)]
pub struct Tree(Lines);

impl Tree {
    pub(crate) fn of(reply: Vec<u8>) -> Tree {
        Tree(Lines::of(reply))
    }
}

impl Iterator for Tree {
    type Item = TreeEntry;

    fn next(&mut self) -> Option<TreeEntry> {
        let line = self.0.next()?;
        let end = line.iter().position(|it| *it == b'\t')?;
        let mut words = line[..end].split(|it| *it == b' ');
        let mode = std::str::from_utf8(words.next()?).ok()?;
        Some(TreeEntry {
            mode: u32::from_str_radix(mode, 8).ok()?,
            kind: Kind::read(words.next()?)?,
            object: ObjectName::read(words.next()?)?,
            name: unquoted(&line[end + 1..])?,
        })
    }
}

// The answer to `cat`: a line with name, kind and size, then the contents and a line end.
pub(crate) fn object_of(reply: &[u8]) -> Option<Object> {
    let end = reply.iter().position(|it| *it == b'\n')?;
    let mut words = reply[..end].split(|it| *it == b' ');
    let name = ObjectName::read(words.next()?)?;
    let kind = Kind::read(words.next()?)?;
    let contents = reply.get(end + 1..reply.len() - 1)?.to_vec();
    Some(Object { name, kind, contents })
}

// A path without Git's quotes.
fn unquoted(path: &[u8]) -> Option<Vec<u8>> {
    let mut left = match path.strip_prefix(b"\"") {
        None => return Some(path.to_vec()),
        Some(quoted) => quoted.strip_suffix(b"\"")?,
    };
    let mut name = Vec::with_capacity(left.len());
    while let Some((first, rest)) = left.split_first() {
        let (byte, rest) = if *first == b'\\' { escaped(rest)? } else { (*first, rest) };
        name.push(byte);
        left = rest;
    }
    Some(name)
}

// The byte that follows a backslash stands for, and what is after it.
fn escaped(text: &[u8]) -> Option<(u8, &[u8])> {
    let (letter, rest) = text.split_first()?;
    let byte = match letter {
        b'a' => 7,
        b'b' => 8,
        b'f' => 12,
        b'n' => b'\n',
        b'r' => b'\r',
        b't' => b'\t',
        b'v' => 11,
        b'"' | b'\\' => *letter,
        _ => return octal(text),
    };
    Some((byte, rest))
}

fn octal(text: &[u8]) -> Option<(u8, &[u8])> {
    let digits = std::str::from_utf8(text.get(..3)?).ok()?;
    Some((u8::from_str_radix(digits, 8).ok()?, &text[3..]))
}

#[cfg(test)]
mod tests {
    use super::*;

    #[test]
    fn reads_a_quoted_name() {
        assert_eq!(unquoted(b"plain").unwrap(), b"plain");
        assert_eq!(unquoted(br#""a\tb\"\\\303\244\n""#).unwrap(), "a\tb\"\\\u{e4}\n".as_bytes());
        assert_eq!(unquoted(br#""cut\"#), None);
        assert_eq!(unquoted(br#""\9""#), None);
    }

    #[test]
    fn reads_no_name_of_other_digits() {
        let name = b"ce013625030ba8dba906f756967f9e9ca394464a";
        assert_eq!(ObjectName::read(name).unwrap().to_string().as_bytes(), name);
        assert_eq!(ObjectName::read(&name[1..]), None);
        assert_eq!(ObjectName::read(&name.to_ascii_uppercase()), None);
    }

    #[test]
    fn takes_a_reply_apart_line_by_line() {
        let text = b"ce013625030ba8dba906f756967f9e9ca394464a one\nce013625030ba8dba906f756967f9e9ca394464a \n".to_vec();
        let subjects: Vec<Vec<u8>> = Log::of(text).map(|it| it.subject).collect();
        assert_eq!(subjects, [b"one".to_vec(), b"".to_vec()]);
        assert_eq!(Refs::of(Vec::new()).next(), None);
    }
}
