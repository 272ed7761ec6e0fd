//! Terms as bytes: the external term format of Erlang, as nodes send it each other. What another node sends is not trusted:
//! each length is compared with what is there, and a term has a bound for its depth and for its parts.

use crate::term::{ErlangPid, ErlangRef, Opaque, Term};
use std::fmt;
use std::sync::Arc;

/// The first byte of a term.
pub(crate) const VERSION: u8 = 131;

const SMALL_INTEGER: u8 = b'a';
const INTEGER: u8 = b'b';
const NEW_FLOAT: u8 = b'F';
const ATOM: u8 = b'd';
const SMALL_ATOM: u8 = b's';
const ATOM_UTF8: u8 = b'v';
const SMALL_ATOM_UTF8: u8 = b'w';
const NEWER_REFERENCE: u8 = b'Z';
const NEW_REFERENCE: u8 = b'r';
const NEW_PORT: u8 = b'Y';
const V4_PORT: u8 = b'x';
const PORT: u8 = b'f';
const NEW_PID: u8 = b'X';
const PID: u8 = b'g';
const SMALL_TUPLE: u8 = b'h';
const LARGE_TUPLE: u8 = b'i';
const NIL: u8 = b'j';
const STRING: u8 = b'k';
const LIST: u8 = b'l';
const BINARY: u8 = b'm';
const BIT_BINARY: u8 = b'M';
const SMALL_BIG: u8 = b'n';
const LARGE_BIG: u8 = b'o';
const NEW_FUN: u8 = b'p';
const EXPORT: u8 = b'q';
const MAP: u8 = b't';

/// How much stack a thread has that reads terms.
pub(crate) const STACK: usize = 16 << 20;

/// How deep a term may be, and how many parts it may have.
const DEEPEST: u32 = 256;
const PARTS: usize = 4 << 20;

/// Why bytes are no term.
#[derive(Clone, Copy, Debug, PartialEq, Eq)]
#[non_exhaustive]
pub enum TermFault {
    /// They end before the term does, or a length is none.
    Short,
    /// A byte says nothing of what a term begins with, or a part is of another kind than belongs there.
    Unknown(u8),
    /// The text of an atom is none.
    Text,
    /// The term is too deep, or has too many parts.
    TooLarge,
}

impl fmt::Display for TermFault {
    fn fmt(&self, f: &mut fmt::Formatter<'_>) -> fmt::Result {
        match self {
            TermFault::Short => f.write_str("the bytes end before the term"),
            TermFault::Unknown(tag) => write!(f, "no term begins with the byte {tag} there"),
            TermFault::Text => f.write_str("the text of an atom is none"),
            TermFault::TooLarge => f.write_str("the term is too deep, or has too many parts"),
        }
    }
}

impl std::error::Error for TermFault {}

/// Writes a term, with the version before it.
pub(crate) fn write_term(out: &mut Vec<u8>, term: &Term) {
    out.push(VERSION);
    put(out, term);
}

fn put_length(out: &mut Vec<u8>, length: usize) {
    out.extend_from_slice(&u32::try_from(length).unwrap_or(u32::MAX).to_be_bytes());
}

fn put_atom(out: &mut Vec<u8>, text: &str) {
    match u8::try_from(text.len()) {
        Ok(length) => out.extend_from_slice(&[SMALL_ATOM_UTF8, length]),
        Err(_) => {
            out.push(ATOM_UTF8);
            out.extend_from_slice(&u16::try_from(text.len()).unwrap_or(u16::MAX).to_be_bytes());
        }
    }
    out.extend_from_slice(text.as_bytes());
}

fn put_pid(out: &mut Vec<u8>, pid: &ErlangPid) {
    out.push(NEW_PID);
    put_atom(out, &pid.node);
    for word in [pid.number, pid.serial, pid.creation] {
        out.extend_from_slice(&word.to_be_bytes());
    }
}

fn put_reference(out: &mut Vec<u8>, reference: &ErlangRef) {
    out.push(NEWER_REFERENCE);
    out.extend_from_slice(&u16::try_from(reference.words.len()).unwrap_or(u16::MAX).to_be_bytes());
    put_atom(out, &reference.node);
    out.extend_from_slice(&reference.creation.to_be_bytes());
    reference.words.iter().for_each(|word| out.extend_from_slice(&word.to_be_bytes()));
}

fn put_big(out: &mut Vec<u8>, negative: bool, bytes: &[u8]) {
    match u8::try_from(bytes.len()) {
        Ok(length) => out.extend_from_slice(&[SMALL_BIG, length]),
        Err(_) => {
            out.push(LARGE_BIG);
            put_length(out, bytes.len());
        }
    }
    out.push(u8::from(negative));
    out.extend_from_slice(bytes);
}

fn put_integer(out: &mut Vec<u8>, number: i64) {
    if let Ok(byte) = u8::try_from(number) {
        out.extend_from_slice(&[SMALL_INTEGER, byte]);
    } else if let Ok(word) = i32::try_from(number) {
        out.push(INTEGER);
        out.extend_from_slice(&word.to_be_bytes());
    } else {
        let bytes = number.unsigned_abs().to_le_bytes();
        let length = bytes.iter().rposition(|byte| *byte != 0).map_or(1, |last| last + 1);
        put_big(out, number < 0, &bytes[..length]);
    }
}

fn put_tuple(out: &mut Vec<u8>, parts: &[Term]) {
    match u8::try_from(parts.len()) {
        Ok(length) => out.extend_from_slice(&[SMALL_TUPLE, length]),
        Err(_) => {
            out.push(LARGE_TUPLE);
            put_length(out, parts.len());
        }
    }
    parts.iter().for_each(|part| put(out, part));
}

fn put_list(out: &mut Vec<u8>, parts: &[Term]) {
    if !parts.is_empty() {
        out.push(LIST);
        put_length(out, parts.len());
        parts.iter().for_each(|part| put(out, part));
    }
}

/// The bytes of a binary, or of a bit string, whose last byte has so many bits.
fn put_bytes(out: &mut Vec<u8>, bits: Option<u8>, bytes: &[u8]) {
    out.push(if bits.is_none() { BINARY } else { BIT_BINARY });
    put_length(out, bytes.len());
    out.extend(bits);
    out.extend_from_slice(bytes);
}

fn put_map(out: &mut Vec<u8>, pairs: &[(Term, Term)]) {
    out.push(MAP);
    put_length(out, pairs.len());
    for (key, value) in pairs {
        put(out, key);
        put(out, value);
    }
}

fn put(out: &mut Vec<u8>, term: &Term) {
    match term {
        Term::Integer(number) => put_integer(out, *number),
        Term::Big(negative, bytes) => put_big(out, *negative, bytes),
        Term::Float(number) => {
            out.push(NEW_FLOAT);
            out.extend_from_slice(&number.to_be_bytes());
        }
        Term::Atom(text) => put_atom(out, text),
        Term::Binary(bytes) => put_bytes(out, None, bytes),
        Term::Bits(bits, bytes) => put_bytes(out, Some(*bits), bytes),
        Term::Tuple(parts) => put_tuple(out, parts),
        Term::List(parts) => {
            put_list(out, parts);
            out.push(NIL);
        }
        Term::Improper(parts, rest) => {
            put_list(out, parts);
            put(out, rest);
        }
        Term::Map(pairs) => put_map(out, pairs),
        Term::Pid(pid) => put_pid(out, pid),
        Term::Reference(reference) => put_reference(out, reference),
        Term::Other(Opaque(bytes)) => out.extend_from_slice(bytes),
    }
}

/// Reads a term that has its version before it, and returns the rest of the bytes.
pub(crate) fn read_term(bytes: &[u8]) -> Result<(Term, &[u8]), TermFault> {
    let mut reader = Reader { bytes, parts: PARTS };
    match reader.byte()? {
        VERSION => {}
        other => return Err(TermFault::Unknown(other)),
    }
    let term = reader.term(DEEPEST)?;
    Ok((term, reader.bytes))
}

struct Reader<'a> {
    bytes: &'a [u8],
    /// How many parts the term may have still.
    parts: usize,
}

impl<'a> Reader<'a> {
    fn take(&mut self, count: usize) -> Result<&'a [u8], TermFault> {
        let (taken, rest) = self.bytes.split_at_checked(count).ok_or(TermFault::Short)?;
        self.bytes = rest;
        Ok(taken)
    }

    fn byte(&mut self) -> Result<u8, TermFault> {
        Ok(self.take(1)?[0])
    }

    fn half(&mut self) -> Result<u16, TermFault> {
        let bytes = self.take(2)?;
        Ok(u16::from_be_bytes([bytes[0], bytes[1]]))
    }

    fn word(&mut self) -> Result<u32, TermFault> {
        let bytes = self.take(4)?;
        Ok(u32::from_be_bytes([bytes[0], bytes[1], bytes[2], bytes[3]]))
    }

    /// A length of bytes or of parts, of which each has a byte at least.
    fn length(&mut self) -> Result<usize, TermFault> {
        let length = self.word()? as usize;
        if length > self.bytes.len() { Err(TermFault::Short) } else { Ok(length) }
    }

    fn atom(&mut self) -> Result<Arc<str>, TermFault> {
        let tag = self.byte()?;
        self.atom_of(tag)
    }

    fn atom_of(&mut self, tag: u8) -> Result<Arc<str>, TermFault> {
        let length = match tag {
            ATOM | ATOM_UTF8 => usize::from(self.half()?),
            SMALL_ATOM | SMALL_ATOM_UTF8 => usize::from(self.byte()?),
            other => return Err(TermFault::Unknown(other)),
        };
        let bytes = self.take(length)?;
        if matches!(tag, ATOM | SMALL_ATOM) {
            return Ok(bytes.iter().map(|byte| char::from(*byte)).collect::<String>().into());
        }
        let text = std::str::from_utf8(bytes).map_err(|_| TermFault::Text)?;
        if text.chars().nth(255).is_some() { Err(TermFault::Text) } else { Ok(text.into()) }
    }

    /// The creation of a node, which had one byte before.
    fn creation(&mut self, is_new: bool) -> Result<u32, TermFault> {
        if is_new { self.word() } else { self.byte().map(u32::from) }
    }

    fn pid(&mut self, is_new: bool) -> Result<ErlangPid, TermFault> {
        let (node, number, serial) = (self.atom()?, self.word()?, self.word()?);
        Ok(ErlangPid { node, number, serial, creation: self.creation(is_new)? })
    }

    fn reference(&mut self, is_new: bool) -> Result<ErlangRef, TermFault> {
        let (length, node) = (self.half()?, self.atom()?);
        let creation = self.creation(is_new)?;
        if length > 5 {
            return Err(TermFault::TooLarge);
        }
        let words = (0..length).map(|_| self.word()).collect::<Result<_, _>>()?;
        Ok(ErlangRef { node, creation, words })
    }

    fn big(&mut self, length: usize) -> Result<Term, TermFault> {
        let (sign, bytes) = (self.byte()?, self.take(length)?);
        let used = bytes.iter().rposition(|byte| *byte != 0).map_or(0, |last| last + 1);
        if used <= 8 {
            let mut word = [0; 8];
            word[..used].copy_from_slice(&bytes[..used]);
            let number = i128::from(u64::from_le_bytes(word)) * if sign == 0 { 1 } else { -1 };
            if let Ok(number) = i64::try_from(number) {
                return Ok(Term::Integer(number));
            }
        }
        Ok(Term::Big(sign != 0, bytes[..used].to_vec()))
    }

    fn terms(&mut self, count: usize, depth: u32) -> Result<Vec<Term>, TermFault> {
        if count > self.bytes.len() {
            return Err(TermFault::Short);
        }
        if count > self.parts {
            return Err(TermFault::TooLarge);
        }
        (0..count).map(|_| self.term(depth)).collect()
    }

    fn list(&mut self, depth: u32) -> Result<Term, TermFault> {
        let length = self.length()?;
        let parts = self.terms(length, depth)?;
        match self.term(depth)? {
            Term::List(rest) if rest.is_empty() => Ok(Term::List(parts)),
            Term::List(rest) => Ok(Term::List(parts.into_iter().chain(rest).collect())),
            Term::Improper(more, rest) => Ok(Term::Improper(parts.into_iter().chain(more).collect(), rest)),
            rest if parts.is_empty() => Ok(rest),
            rest => Ok(Term::Improper(parts, Box::new(rest))),
        }
    }

    fn string(&mut self) -> Result<Term, TermFault> {
        let length = usize::from(self.half()?);
        self.parts = self.parts.checked_sub(length).ok_or(TermFault::TooLarge)?;
        Ok(Term::List(self.take(length)?.iter().map(|byte| Term::Integer(i64::from(*byte))).collect()))
    }

    fn map(&mut self, depth: u32) -> Result<Term, TermFault> {
        let length = self.length()?;
        let pairs = (0..length).map(|_| Ok((self.term(depth)?, self.term(depth)?)));
        pairs.collect::<Result<_, _>>().map(Term::Map)
    }

    /// A port or a fun as it is written.
    fn opaque(&mut self, tag: u8, before: &'a [u8], depth: u32) -> Result<Term, TermFault> {
        match tag {
            PORT | NEW_PORT | V4_PORT => {
                self.atom()?;
                let rest = match tag {
                    PORT => 5,
                    NEW_PORT => 8,
                    _ => 12,
                };
                self.take(rest)?;
            }
            EXPORT => {
                self.atom()?;
                self.atom()?;
                self.term(depth)?;
            }
            _ => {
                // (the length includes itself)
                let length = self.length()?;
                self.take(length.checked_sub(4).ok_or(TermFault::Short)?)?;
            }
        }
        Ok(Term::Other(Opaque(before[..before.len() - self.bytes.len()].to_vec())))
    }

    /// A length of one byte, or one of four.
    fn size(&mut self, is_small: bool) -> Result<usize, TermFault> {
        if is_small { self.byte().map(usize::from) } else { self.length() }
    }

    fn number(&mut self, tag: u8) -> Result<Term, TermFault> {
        match tag {
            SMALL_INTEGER => self.byte().map(|byte| Term::Integer(i64::from(byte))),
            INTEGER => self.word().map(|word| Term::Integer(i64::from(word as i32))),
            NEW_FLOAT => {
                let (high, low) = (self.word()?, self.word()?);
                Ok(Term::Float(f64::from_bits(u64::from(high) << 32 | u64::from(low))))
            }
            _ => {
                let length = self.size(tag == SMALL_BIG)?;
                self.big(length)
            }
        }
    }

    /// The bytes of a binary, or of a bit string.
    fn bytes(&mut self, tag: u8) -> Result<Term, TermFault> {
        let length = self.length()?;
        if tag == BINARY {
            return Ok(Term::Binary(self.take(length)?.to_vec()));
        }
        let bits = self.byte()?;
        Ok(Term::Bits(bits, self.take(length)?.to_vec()))
    }

    fn term(&mut self, depth: u32) -> Result<Term, TermFault> {
        let before = self.bytes;
        let depth = depth.checked_sub(1).ok_or(TermFault::TooLarge)?;
        self.parts = self.parts.checked_sub(1).ok_or(TermFault::TooLarge)?;
        let tag = self.byte()?;
        match tag {
            SMALL_INTEGER | INTEGER | NEW_FLOAT | SMALL_BIG | LARGE_BIG => self.number(tag),
            ATOM | SMALL_ATOM | ATOM_UTF8 | SMALL_ATOM_UTF8 => self.atom_of(tag).map(Term::Atom),
            NEWER_REFERENCE | NEW_REFERENCE => self.reference(tag == NEWER_REFERENCE).map(Term::from),
            NEW_PID | PID => self.pid(tag == NEW_PID).map(Term::Pid),
            SMALL_TUPLE | LARGE_TUPLE => {
                let length = self.size(tag == SMALL_TUPLE)?;
                self.terms(length, depth).map(Term::Tuple)
            }
            NIL => Ok(Term::List(Vec::new())),
            STRING => self.string(),
            LIST => self.list(depth),
            BINARY | BIT_BINARY => self.bytes(tag),
            MAP => self.map(depth),
            PORT | NEW_PORT | V4_PORT | EXPORT | NEW_FUN => self.opaque(tag, before, depth),
            other => Err(TermFault::Unknown(other)),
        }
    }
}

#[cfg(test)]
mod tests {
    use super::*;

    fn pid() -> ErlangPid {
        ErlangPid { node: "a@b".into(), number: 77, serial: 5, creation: 9 }
    }

    fn some_term() -> Term {
        let reference = ErlangRef { node: "a@b".into(), creation: 1, words: vec![1, 2, 3] };
        let numbers = [0, 255, 256, -1, i64::from(i32::MIN), i64::from(i32::MAX) + 1, i64::MAX, i64::MIN];
        let parts = vec![
            Term::list(numbers.map(Term::from)),
            Term::from(u64::MAX),
            Term::from(1.5),
            Term::atom("ä b"),
            Term::Bits(3, vec![1, 0xe0]),
            Term::Improper(vec![Term::from(1)], Box::new(Term::from(2))),
            Term::Map(vec![(Term::atom("a"), Term::Tuple(vec![Term::from(7); 300]))]),
            Term::from(pid()),
            Term::Reference(Box::new(reference)),
            Term::from(vec![0; 70_000]),
        ];
        Term::Tuple(parts)
    }

    #[test]
    fn a_term_is_read_as_it_was_written() {
        let (term, mut bytes) = (some_term(), Vec::new());
        write_term(&mut bytes, &term);
        bytes.push(7);
        assert_eq!(read_term(&bytes), Ok((term, &[7][..])));
    }

    #[test]
    fn no_bytes_that_are_cut_off_or_changed_are_read_beyond_their_end() {
        let mut bytes = Vec::new();
        write_term(&mut bytes, &some_term());
        for length in (0..3_000).step_by(7) {
            assert!(read_term(&bytes[..length]).is_err());
        }
        let mut random = 1_u64;
        for _ in 0..2_000 {
            random = random.wrapping_mul(6_364_136_223_846_793_005).wrapping_add(1_442_695_040_888_963_407);
            let mut changed = bytes[..2_000].to_vec();
            changed[(random >> 33) as usize % 2_000] = (random >> 20) as u8;
            let _ = read_term(&changed);
        }
    }

    #[test]
    fn what_is_too_deep_or_too_large_is_refused() {
        let deep = |depth: usize| -> Vec<u8> {
            [VERSION].into_iter().chain([SMALL_TUPLE, 1].repeat(depth)).chain([NIL]).collect()
        };
        let reads = move || (read_term(&deep(255)).is_ok(), read_term(&deep(100_000)).err());
        let thread = std::thread::Builder::new().stack_size(STACK).spawn(reads).expect("a thread");
        assert_eq!(thread.join().expect("no fault"), (true, Some(TermFault::TooLarge)));
        let claims = |tag: u8| read_term(&[VERSION, tag, 0xff, 0xff, 0xff, 0xff]).err();
        for tag in [LIST, LARGE_TUPLE, BINARY, LARGE_BIG, MAP] {
            assert_eq!(claims(tag), Some(TermFault::Short));
        }
        let many: Vec<u8> =
            [VERSION, LIST].into_iter().chain(5_000_000_u32.to_be_bytes()).chain(vec![NIL; 5_000_001]).collect();
        assert_eq!(read_term(&many), Err(TermFault::TooLarge));
    }
}
