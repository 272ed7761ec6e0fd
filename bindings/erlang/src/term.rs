//! Erlang's terms.

use std::fmt;
use std::sync::Arc;

/// A term of Erlang.
///
/// Two terms are equal if Erlang's `=:=` says so, but for maps, whose pairs are compared in order.
///
/// ```
/// use pundewo_erlang::Term;
///
/// let term = Term::tuple([Term::atom("add"), Term::from(3), Term::from("three")]);
/// assert_eq!(term.to_string(), "{add,3,<<\"three\">>}");
/// let [number, text] = term.tagged("add").unwrap() else { panic!("a pair") };
/// assert_eq!((number.as_integer(), text.as_text().as_deref()), (Some(3), Some("three")));
/// ```
#[derive(Clone, Debug, PartialEq)]
#[non_exhaustive]
pub enum Term {
    /// An integer of 64 bits.
    Integer(i64),
    /// A greater one: its sign, and its bytes, the lowest one first.
    Big(bool, Vec<u8>),
    /// A float.
    Float(f64),
    /// An atom.
    Atom(Arc<str>),
    /// A binary.
    Binary(Vec<u8>),
    /// A bit string: how many bits of the last byte are used, and the bytes.
    Bits(u8, Vec<u8>),
    /// A tuple.
    Tuple(Vec<Term>),
    /// A list.
    List(Vec<Term>),
    /// A list that ends in another term than `[]`.
    Improper(Vec<Term>, Box<Term>),
    /// A map.
    Map(Vec<(Term, Term)>),
    /// A pid.
    Pid(ErlangPid),
    /// A reference.
    Reference(Box<ErlangRef>),
    /// A port or a fun, which may be sent back as it came.
    Other(Opaque),
}

/// A pid of Erlang's, of whatever node.
#[derive(Clone, PartialEq, Eq, Hash)]
pub struct ErlangPid {
    pub(crate) node: Arc<str>,
    pub(crate) number: u32,
    pub(crate) serial: u32,
    pub(crate) creation: u32,
}

/// A reference of Erlang's.
#[derive(Clone, PartialEq, Eq, Hash)]
pub struct ErlangRef {
    pub(crate) node: Arc<str>,
    pub(crate) creation: u32,
    pub(crate) words: Vec<u32>,
}

/// A term that this crate does not look into: a port or a fun.
#[derive(Clone, PartialEq, Eq)]
pub struct Opaque(pub(crate) Vec<u8>);

impl ErlangPid {
    /// The name of its node.
    #[must_use]
    pub fn node(&self) -> &str {
        &self.node
    }
}

impl Term {
    /// The atom with this text, which has 255 characters at most: the rest is cut off.
    #[must_use]
    pub fn atom(text: &str) -> Term {
        Term::Atom(atom(text))
    }

    /// A tuple.
    #[must_use]
    pub fn tuple(parts: impl Into<Vec<Term>>) -> Term {
        Term::Tuple(parts.into())
    }

    /// A list.
    #[must_use]
    pub fn list(parts: impl IntoIterator<Item = Term>) -> Term {
        Term::List(parts.into_iter().collect())
    }

    /// The text of an atom.
    #[must_use]
    pub fn as_atom(&self) -> Option<&str> {
        match self {
            Term::Atom(text) => Some(text),
            _ => None,
        }
    }

    /// Whether it is this atom.
    #[must_use]
    pub fn is_atom(&self, text: &str) -> bool {
        self.as_atom() == Some(text)
    }

    /// The integer, if it has 64 bits.
    #[must_use]
    pub fn as_integer(&self) -> Option<i64> {
        match self {
            Term::Integer(number) => Some(*number),
            _ => None,
        }
    }

    /// The parts of a tuple.
    #[must_use]
    pub fn as_tuple(&self) -> Option<&[Term]> {
        match self {
            Term::Tuple(parts) => Some(parts),
            _ => None,
        }
    }

    /// The parts of a list that ends in `[]`.
    #[must_use]
    pub fn as_list(&self) -> Option<&[Term]> {
        match self {
            Term::List(parts) => Some(parts),
            _ => None,
        }
    }

    /// What is behind the first part of a tuple, if that is this atom.
    #[must_use]
    pub fn tagged(&self, tag: &str) -> Option<&[Term]> {
        let (first, rest) = self.as_tuple()?.split_first()?;
        first.is_atom(tag).then_some(rest)
    }

    /// The bytes of a binary.
    #[must_use]
    pub fn as_bytes(&self) -> Option<&[u8]> {
        match self {
            Term::Binary(bytes) => Some(bytes),
            _ => None,
        }
    }

    /// The text of a binary in UTF-8, or of a list of characters.
    #[must_use]
    pub fn as_text(&self) -> Option<String> {
        match self {
            Term::Binary(bytes) => String::from_utf8(bytes.clone()).ok(),
            Term::List(parts) => parts.iter().map(character).collect(),
            _ => None,
        }
    }

    /// The pid.
    #[must_use]
    pub fn as_pid(&self) -> Option<&ErlangPid> {
        match self {
            Term::Pid(pid) => Some(pid),
            _ => None,
        }
    }
}

/// The text of an atom, which Erlang allows 255 characters.
pub(crate) fn atom(text: &str) -> Arc<str> {
    let end = text.char_indices().nth(255).map_or(text.len(), |(at, _)| at);
    text[..end].into()
}

fn character(term: &Term) -> Option<char> {
    char::from_u32(u32::try_from(term.as_integer()?).ok()?)
}

impl From<i64> for Term {
    fn from(number: i64) -> Term {
        Term::Integer(number)
    }
}

impl From<i32> for Term {
    fn from(number: i32) -> Term {
        Term::Integer(i64::from(number))
    }
}

impl From<u64> for Term {
    fn from(number: u64) -> Term {
        i64::try_from(number).map_or_else(|_| Term::Big(false, number.to_le_bytes().into()), Term::Integer)
    }
}

impl From<f64> for Term {
    fn from(number: f64) -> Term {
        Term::Float(number)
    }
}

impl From<bool> for Term {
    fn from(is_true: bool) -> Term {
        Term::atom(if is_true { "true" } else { "false" })
    }
}

/// A binary.
impl From<&str> for Term {
    fn from(text: &str) -> Term {
        Term::Binary(text.into())
    }
}

impl From<Vec<u8>> for Term {
    fn from(bytes: Vec<u8>) -> Term {
        Term::Binary(bytes)
    }
}

impl From<ErlangPid> for Term {
    fn from(pid: ErlangPid) -> Term {
        Term::Pid(pid)
    }
}

impl From<ErlangRef> for Term {
    fn from(reference: ErlangRef) -> Term {
        Term::Reference(Box::new(reference))
    }
}

impl fmt::Display for ErlangPid {
    fn fmt(&self, f: &mut fmt::Formatter<'_>) -> fmt::Result {
        write!(f, "<{}.{}.{}>", self.node, self.number, self.serial)
    }
}

impl fmt::Debug for ErlangPid {
    fn fmt(&self, f: &mut fmt::Formatter<'_>) -> fmt::Result {
        fmt::Display::fmt(self, f)
    }
}

impl fmt::Debug for ErlangRef {
    fn fmt(&self, f: &mut fmt::Formatter<'_>) -> fmt::Result {
        write!(f, "#Ref<{}", self.node)?;
        self.words.iter().rev().try_for_each(|word| write!(f, ".{word}"))?;
        f.write_str(">")
    }
}

impl fmt::Debug for Opaque {
    fn fmt(&self, f: &mut fmt::Formatter<'_>) -> fmt::Result {
        write!(f, "#Term<{}>", self.0.len())
    }
}

/// As Erlang prints it.
impl fmt::Display for Term {
    fn fmt(&self, f: &mut fmt::Formatter<'_>) -> fmt::Result {
        match self {
            Term::Integer(number) => write!(f, "{number}"),
            Term::Big(negative, bytes) => write_big(f, *negative, bytes),
            Term::Float(number) => write!(f, "{number:?}"),
            Term::Atom(text) if is_plain(text) => f.write_str(text),
            Term::Atom(text) => write!(f, "'{}'", text.replace('\\', "\\\\").replace('\'', "\\'")),
            Term::Binary(bytes) => write_binary(f, bytes),
            Term::Bits(bits, bytes) => write_bits(f, *bits, bytes),
            Term::Tuple(parts) => write_all(f, "{", parts, "}"),
            Term::List(parts) => write_all(f, "[", parts, "]"),
            Term::Improper(parts, rest) => {
                write_all(f, "[", parts, "|")?;
                write!(f, "{rest}]")
            }
            Term::Map(pairs) => write_map(f, pairs),
            Term::Pid(pid) => pid.fmt(f),
            Term::Reference(reference) => write!(f, "{reference:?}"),
            Term::Other(opaque) => write!(f, "{opaque:?}"),
        }
    }
}

fn write_big(f: &mut fmt::Formatter<'_>, negative: bool, bytes: &[u8]) -> fmt::Result {
    f.write_str(if negative { "-16#" } else { "16#" })?;
    bytes.iter().rev().try_for_each(|byte| write!(f, "{byte:02X}"))
}

/// A text, if it can be printed, or the bytes.
fn write_binary(f: &mut fmt::Formatter<'_>, bytes: &[u8]) -> fmt::Result {
    match std::str::from_utf8(bytes) {
        Ok(text) if !text.chars().any(char::is_control) => write!(f, "<<{text:?}>>"),
        _ => write_all(f, "<<", bytes, ">>"),
    }
}

fn write_bits(f: &mut fmt::Formatter<'_>, bits: u8, bytes: &[u8]) -> fmt::Result {
    let (last, rest) = bytes.split_last().unwrap_or((&0, &[]));
    f.write_str("<<")?;
    rest.iter().try_for_each(|byte| write!(f, "{byte},"))?;
    write!(f, "{}:{bits}>>", last >> (8 - bits.clamp(1, 8)))
}

fn write_map(f: &mut fmt::Formatter<'_>, pairs: &[(Term, Term)]) -> fmt::Result {
    f.write_str("#{")?;
    for (at, (key, value)) in pairs.iter().enumerate() {
        write!(f, "{}{key} => {value}", if at == 0 { "" } else { "," })?;
    }
    f.write_str("}")
}

fn write_all<T: fmt::Display>(f: &mut fmt::Formatter<'_>, begin: &str, parts: &[T], end: &str) -> fmt::Result {
    f.write_str(begin)?;
    for (at, part) in parts.iter().enumerate() {
        write!(f, "{}{part}", if at == 0 { "" } else { "," })?;
    }
    f.write_str(end)
}

/// Whether an atom is written without quotes.
fn is_plain(text: &str) -> bool {
    let is_inner = |letter: char| letter.is_ascii_alphanumeric() || letter == '_' || letter == '@';
    text.starts_with(|first: char| first.is_ascii_lowercase()) && text.chars().all(is_inner)
}
