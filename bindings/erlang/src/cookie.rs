//! The cookie of a cluster.

use std::env;
use std::fmt;
use std::fs::File;
use std::io::{self, Read};
use std::os::unix::fs::MetadataExt;
use std::path::{Path, PathBuf};

/// The most bytes that `ei` takes.
const MOST: usize = 512;

/// The cookie by which nodes of a cluster know each other. It is in no text that this crate writes, and its `Debug` does not
/// show it. A program that has it in its arguments shows it to all users of the machine: it should read it from a file.
#[derive(Clone)]
pub struct Cookie(String);

/// Why there is no cookie.
#[derive(Debug)]
#[non_exhaustive]
pub enum CookieFault {
    /// The file is not read.
    File(PathBuf, io::Error),
    /// Others than the owner may read or change the file.
    Open(PathBuf),
    /// It is empty, has more than 512 bytes, or has another letter than those that are printed in ASCII.
    Bad,
    /// `HOME` is not set.
    NoHome,
}

impl fmt::Display for CookieFault {
    fn fmt(&self, f: &mut fmt::Formatter<'_>) -> fmt::Result {
        match self {
            CookieFault::File(path, fault) => write!(f, "the cookie is not read: {}: {fault}", path.display()),
            CookieFault::Open(path) => {
                write!(f, "the cookie is not its owner's alone: run `chmod 400 {}`", path.display())
            }
            CookieFault::Bad => f.write_str("the cookie is empty, too long, or has a letter that is not printed"),
            CookieFault::NoHome => f.write_str("there is no cookie: HOME is not set"),
        }
    }
}

impl std::error::Error for CookieFault {}

impl Cookie {
    /// The cookie with this text.
    ///
    /// # Errors
    ///
    /// [`CookieFault::Bad`].
    pub fn new(text: impl Into<String>) -> Result<Cookie, CookieFault> {
        let text = text.into();
        let is_good = !text.is_empty() && text.len() <= MOST && text.bytes().all(|byte| byte.is_ascii_graphic());
        if is_good { Ok(Cookie(text)) } else { Err(CookieFault::Bad) }
    }

    /// That of the user, `.erlang.cookie` in `HOME`, as `erl` takes it.
    ///
    /// # Errors
    ///
    /// As [`from_file`](Cookie::from_file), and [`CookieFault::NoHome`].
    pub fn of_home() -> Result<Cookie, CookieFault> {
        let home = env::var_os("HOME").ok_or(CookieFault::NoHome)?;
        Cookie::from_file(Path::new(&home).join(".erlang.cookie"))
    }

    /// The first line of a file, which only its owner may read and change.
    ///
    /// # Errors
    ///
    /// [`CookieFault::File`], [`CookieFault::Open`] or [`CookieFault::Bad`].
    pub fn from_file(path: impl AsRef<Path>) -> Result<Cookie, CookieFault> {
        let path = path.as_ref();
        let fault = |fault| CookieFault::File(path.to_path_buf(), fault);
        let file = File::open(path).map_err(fault)?;
        if file.metadata().map_err(fault)?.mode() & 0o077 != 0 {
            return Err(CookieFault::Open(path.to_path_buf()));
        }
        let mut text = String::new();
        file.take(4_096).read_to_string(&mut text).map_err(fault)?;
        Cookie::new(text.lines().next().unwrap_or_default())
    }

    pub(crate) fn text(&self) -> &str {
        &self.0
    }
}

impl fmt::Debug for Cookie {
    fn fmt(&self, f: &mut fmt::Formatter<'_>) -> fmt::Result {
        f.write_str("Cookie(..)")
    }
}
