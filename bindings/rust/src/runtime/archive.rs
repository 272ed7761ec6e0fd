//! Where the histories of a run go.

use crate::History;
use std::error::Error;
use std::ffi::{OsStr, OsString};
use std::fs::{self, File, OpenOptions};
use std::io::{self, BufRead, BufReader, BufWriter, Seek, SeekFrom, Write};
use std::path::{Path, PathBuf};

/// Why a sink does not take a history.
pub type Refusal = Box<dyn Error + Send + Sync>;

/// What takes the history of each epoch, one after the other: together they are one legal history. A closure that takes
/// a history is a sink.
pub trait Sink: Send {
    /// Takes the history of the epoch that has ended.
    ///
    /// # Errors
    ///
    /// If it does not take the history, the run halts, and nothing is lost: see [`Halted`](super::Halted).
    fn take(&mut self, history: &History) -> Result<(), Refusal>;
}

impl<F: FnMut(&History) -> Result<(), Refusal> + Send> Sink for F {
    fn take(&mut self, history: &History) -> Result<(), Refusal> {
        self(history)
    }
}

/// How many digits the numbers in the names of files have at least, so that the names sort.
const DIGITS: usize = 6;

/// A file that has the histories of a run as text, a line an event, as `pt_audit` reads it, or one such file after the other.
#[derive(Debug)]
pub struct HistoryFile {
    file: File,
    /// All files so far. The last one is written to.
    paths: Vec<PathBuf>,
    /// Where the next history begins. `None` before the first one that goes on behind what is there.
    end: Option<u64>,
    rotation: Option<Rotation>,
}

/// The names of the files of a run, and when one is full.
#[derive(Debug)]
struct Rotation {
    base: PathBuf,
    run: u64,
    /// The number of the file that is written to.
    place: u64,
    most: u64,
}

impl Rotation {
    fn path(&self) -> PathBuf {
        let mut name = self.base.clone().into_os_string();
        name.push(format!(".{:0DIGITS$}.{:0DIGITS$}", self.run, self.place));
        name.into()
    }

    fn create(&self) -> io::Result<File> {
        OpenOptions::new().read(true).write(true).create_new(true).open(self.path())
    }
}

impl HistoryFile {
    /// Makes the file, or empties it.
    ///
    /// # Errors
    ///
    /// As [`File::create`].
    pub fn create(path: impl AsRef<Path>) -> io::Result<HistoryFile> {
        let paths = vec![path.as_ref().to_path_buf()];
        Ok(HistoryFile { file: File::create(path)?, paths, end: Some(0), rotation: None })
    }

    /// Goes on behind the epochs that the file has of the same run, or makes the file: for a run that halted and goes on
    /// ([`Halted::with_archive`](super::Halted::with_archive)). What was written of an epoch and not finished is overwritten.
    ///
    /// The first history is refused, and so the run halts, if the file has no earlier epoch of its run: another run has another
    /// history, and another file.
    ///
    /// # Errors
    ///
    /// As [`OpenOptions::open`].
    pub fn append(path: impl AsRef<Path>) -> io::Result<HistoryFile> {
        let paths = vec![path.as_ref().to_path_buf()];
        let file = OpenOptions::new().read(true).write(true).create(true).truncate(false).open(path)?;
        Ok(HistoryFile { file, paths, end: None, rotation: None })
    }

    /// Writes files of whole epochs: once one has so many bytes, the next epoch begins the next file.
    ///
    /// Their names sort: `PATH.000001.000001` has the number of the run and that of its file. A run that is started later, also
    /// by another program, has the next number. So no file of an earlier run is written to.
    ///
    /// ```
    /// use pundewo::runtime::{HistoryFile, Runtime};
    ///
    /// let folder = std::env::temp_dir().join(format!("pundewo_histories_{}", std::process::id()));
    /// std::fs::create_dir(&folder)?;
    /// for run in 1..=2 {
    ///     let files = HistoryFile::rotating(folder.join("run"), 1 << 20)?;
    ///     assert_eq!(files.path(), folder.join(format!("run.00000{run}.000001")));
    ///     Runtime::builder().desks(1).archive(files).start()?.stop()?;
    /// }
    /// std::fs::remove_dir_all(&folder)?;
    /// # Ok::<(), Box<dyn std::error::Error>>(())
    /// ```
    ///
    /// # Errors
    ///
    /// As [`fs::read_dir`] of its folder, and as [`OpenOptions::open`].
    pub fn rotating(path: impl AsRef<Path>, most: u64) -> io::Result<HistoryFile> {
        let base = path.as_ref().to_path_buf();
        let mut rotation = Rotation { run: last_run(&base)? + 1, base, place: 1, most: most.max(1) };
        loop {
            match rotation.create() {
                Ok(file) => {
                    let paths = vec![rotation.path()];
                    return Ok(HistoryFile { file, paths, end: Some(0), rotation: Some(rotation) });
                }
                // (another program was faster)
                Err(fault) if fault.kind() == io::ErrorKind::AlreadyExists => rotation.run += 1,
                Err(fault) => return Err(fault),
            }
        }
    }

    /// The file that is written to.
    #[must_use]
    pub fn path(&self) -> &Path {
        self.paths.last().expect("a file")
    }

    /// All files so far, in order.
    #[must_use]
    pub fn paths(&self) -> &[PathBuf] {
        &self.paths
    }

    /// Goes over to the next file, if this one is full.
    fn rotate(&mut self) -> io::Result<()> {
        let Some(rotation) = &mut self.rotation else { return Ok(()) };
        if self.end < Some(rotation.most) {
            return Ok(());
        }
        rotation.place += 1;
        match rotation.create() {
            Ok(file) => {
                self.paths.push(rotation.path());
                (self.file, self.end) = (file, Some(0));
                Ok(())
            }
            Err(fault) => {
                rotation.place -= 1;
                Err(fault)
            }
        }
    }

    /// Writes a history at the end. (what an earlier call left unfinished is overwritten)
    fn write(&mut self, history: &History) -> io::Result<()> {
        self.rotate()?;
        let end = match self.end {
            Some(end) => end,
            None => end_before(&self.file, history)?,
        };
        self.file.set_len(end)?;
        self.file.seek(SeekFrom::Start(end))?;
        let mut out = BufWriter::with_capacity(1 << 16, &self.file);
        for event in history {
            writeln!(out, "{event}")?;
        }
        out.flush()?;
        drop(out);
        self.end = Some(self.file.stream_position()?);
        Ok(())
    }
}

impl Sink for HistoryFile {
    fn take(&mut self, history: &History) -> Result<(), Refusal> {
        Ok(self.write(history)?)
    }
}

/// The greatest number of a run that has files with this name, or 0.
fn last_run(base: &Path) -> io::Result<u64> {
    let folder = base.parent().filter(|folder| !folder.as_os_str().is_empty()).unwrap_or(Path::new("."));
    let name = base.file_name().unwrap_or(OsStr::new(""));
    let names = fs::read_dir(folder)?.map(|entry| entry.map(|entry| entry.file_name()));
    let names: Vec<OsString> = names.collect::<io::Result<_>>()?;
    Ok(names.iter().filter_map(|file| run_of(file, name)).max().unwrap_or(0))
}

/// The number of the run, if this is the name of one of its files.
fn run_of(file: &OsStr, name: &OsStr) -> Option<u64> {
    let rest = file.as_encoded_bytes().strip_prefix(name.as_encoded_bytes())?;
    let (run, place) = std::str::from_utf8(rest).ok()?.strip_prefix('.')?.split_once('.')?;
    let is_number = |text: &str| text.len() >= DIGITS && text.bytes().all(|byte| byte.is_ascii_digit());
    if is_number(run) && is_number(place) { run.parse().ok() } else { None }
}

/// Where the lines end that are before all of this history. (the stamps of a file rise, and so do those of epochs)
fn end_before(file: &File, history: &History) -> io::Result<u64> {
    let length = file.metadata()?.len();
    let Some(first) = history.events().next().filter(|_| length > 0) else { return Ok(length) };
    let (mut low, mut high, mut end) = (0, length, length);
    while low < high {
        let at = low.midpoint(high);
        let (begin, line) = line_behind(file, at)?;
        if line.ends_with(b"\n") && stamp_of(&line)? < first.stamp {
            low = begin + line.len() as u64;
        } else {
            (end, high) = (end.min(begin), at);
        }
    }
    if end > 0 {
        Ok(end)
    } else {
        Err(io::Error::other("the file has no earlier epoch of this run, which another file is for"))
    }
}

/// The first line that begins here or behind, and where it begins.
fn line_behind(file: &File, at: u64) -> io::Result<(u64, Vec<u8>)> {
    let (mut reader, mut line) = (BufReader::with_capacity(1 << 10, file), Vec::new());
    reader.seek(SeekFrom::Start(at.saturating_sub(1)))?;
    if at > 0 {
        reader.read_until(b'\n', &mut line)?;
    }
    let begin = reader.stream_position()?;
    line.clear();
    reader.read_until(b'\n', &mut line)?;
    Ok((begin, line))
}

/// The stamp of the event that is this line.
fn stamp_of(line: &[u8]) -> io::Result<u64> {
    let digits = line.split(|&byte| byte == b'@').next().filter(|digits| digits.len() < line.len());
    let stamp = digits.and_then(|digits| std::str::from_utf8(digits).ok()?.parse().ok());
    stamp.ok_or_else(|| io::Error::other("the file is no history: a line of it is no event"))
}
