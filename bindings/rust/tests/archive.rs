//! Files that have the histories of a run: one that goes on where it was, and files that follow one another by size.

use pundewo::runtime::{
    Address, Behaviour, Context, Event, HistoryFile, Next, Refusal, Runtime, Sink, StopFault, Summary,
};
use pundewo::{Happened, History, Pick};
use std::fs;
use std::io::Write;
use std::path::{Path, PathBuf};
use std::sync::Arc;
use std::sync::mpsc::{Sender, channel};

type Error = Box<dyn std::error::Error>;

/// A folder that goes with the test.
struct Folder(PathBuf);

impl Folder {
    fn new(name: &str) -> Result<Folder, Error> {
        let folder = std::env::temp_dir().join(format!("pundewo_{name}_{}", std::process::id()));
        fs::create_dir(&folder)?;
        Ok(Folder(folder))
    }

    fn names(&self) -> Result<Vec<String>, Error> {
        let names = fs::read_dir(&self.0)?.map(|entry| Ok(entry?.file_name().into_string().map_err(|_| "a name")?));
        let mut names: Vec<String> = names.collect::<Result<_, Error>>()?;
        names.sort();
        Ok(names)
    }
}

impl Drop for Folder {
    fn drop(&mut self) {
        let _ = fs::remove_dir_all(&self.0);
    }
}

/// Sends itself so many messages.
struct Counts(u32);

impl Behaviour for Counts {
    type Message = ();

    fn started(&mut self, cx: &mut Context<'_, ()>) -> Next {
        cx.send(&cx.me().clone(), ());
        Next::Wait
    }

    fn handle(&mut self, cx: &mut Context<'_, ()>, _: Event<()>) -> Next {
        self.0 -= 1;
        if self.0 == 0 {
            return Next::DONE;
        }
        cx.send(&cx.me().clone(), ());
        Next::Wait
    }
}

/// A run that does this, with two desks.
fn run(sink: impl Sink + 'static, every: usize, messages: u32) -> Result<Result<Summary, StopFault>, Error> {
    let runtime = Runtime::builder().desks(2).going_on_every(every).archive(sink).start()?;
    for _ in 0..2 {
        let _ = runtime.spawn(Counts(messages));
    }
    Ok(runtime.wait())
}

fn lines(path: impl AsRef<Path>) -> Result<u64, Error> {
    Ok(fs::read_to_string(path)?.lines().count() as u64)
}

/// Takes some epochs, and writes a part of the next one, as on a disk that is full.
struct Half {
    file: HistoryFile,
    epochs: u32,
    part: usize,
}

impl Sink for Half {
    fn take(&mut self, history: &History) -> Result<(), Refusal> {
        if self.epochs > 0 {
            self.epochs -= 1;
            return self.file.take(history);
        }
        let text: String = history.events().map(|event| format!("{event}\n")).collect();
        let part = self.part.min(text.len());
        fs::OpenOptions::new().append(true).open(self.file.path())?.write_all(&text.as_bytes()[..part])?;
        Err("no space is left".into())
    }
}

#[test]
fn files_rotate_by_size_with_names_that_sort() -> Result<(), Error> {
    let folder = Folder::new("rotates")?;
    let (base, whole) = (folder.0.join("run"), folder.0.join("whole"));
    let (mut files, mut both) = (HistoryFile::rotating(&base, 4_000)?, HistoryFile::create(&whole)?);
    assert_eq!((files.paths().len(), both.paths()), (1, &[whole.clone()][..]));
    let (give, paths) = std::sync::mpsc::channel();
    let sink = move |history: &History| -> Result<(), Refusal> {
        files.take(history)?;
        both.take(history)?;
        give.send(files.paths().to_vec())?;
        Ok(())
    };
    let summary = run(sink, 100, 500)??;
    let mut names = folder.names()?;
    assert_eq!(names.pop().as_deref(), Some("whole"));
    assert!(names.len() > 8, "{names:?}");
    let wanted: Vec<String> = (1..=names.len()).map(|place| format!("run.000001.{place:06}")).collect();
    assert_eq!(names, wanted);
    let wanted: Vec<PathBuf> = names.iter().map(|name| folder.0.join(name)).collect();
    assert_eq!(paths.iter().last().as_ref(), Some(&wanted));
    let texts: Vec<String> = wanted.iter().map(fs::read_to_string).collect::<Result<_, _>>()?;
    assert_eq!(texts.concat(), fs::read_to_string(&whole)?);
    assert_eq!(lines(&whole)?, summary.archived);
    // each has whole epochs, and as many bytes as it may, and one epoch more at most
    assert!(texts[..texts.len() - 1].iter().all(|text| (4_000..24_000).contains(&text.len())));
    Ok(())
}

#[test]
fn another_run_has_other_files() -> Result<(), Error> {
    let folder = Folder::new("others")?;
    let base = folder.0.join("run");
    for name in ["run.other.000009.000001", "run.000007", "run.7.000001", "other.000008.000001", "run.000002.000001x"] {
        fs::write(folder.0.join(name), "")?;
    }
    for number in 1..=3 {
        run(HistoryFile::rotating(&base, 3_000)?, 100, 100 * number)??;
        let of_run = |name: &&String| name.starts_with(&format!("run.00000{number}.")) && !name.ends_with('x');
        assert!(folder.names()?.iter().filter(of_run).count() >= number as usize);
    }
    // (two programs at once never have one file, and a file for each epoch is the least)
    let paths: Vec<PathBuf> =
        (4..20).map(|_| Ok(HistoryFile::rotating(&base, 0)?.path().into())).collect::<Result<_, Error>>()?;
    assert_eq!(paths, (4..20).map(|run| folder.0.join(format!("run.{run:06}.000001"))).collect::<Vec<_>>());
    assert!(HistoryFile::rotating(folder.0.join("nowhere").join("run"), 1).is_err());
    Ok(())
}

/// A file that may not be made halts the run, which loses nothing.
#[test]
fn a_next_file_that_is_there_halts_the_run() -> Result<(), Error> {
    let folder = Folder::new("there")?;
    let base = folder.0.join("run");
    let there = folder.0.join("run.000001.000003");
    let files = HistoryFile::rotating(&base, 2_000)?;
    fs::write(&there, "not ours")?;
    let Err(StopFault::Halted(halted)) = run(files, 100, 1_000)? else { return Err("it did not halt".into()) };
    assert_eq!(fs::read_to_string(&there)?, "not ours");
    fs::remove_file(&there)?;
    let summary = halted.go_on().map_err(|halted| halted.to_string())?.wait()?;
    let files = folder.names()?.into_iter().map(|name| lines(folder.0.join(name)));
    assert_eq!(files.sum::<Result<u64, _>>()?, summary.archived);
    Ok(())
}

#[test]
fn a_run_that_halted_goes_on_where_the_file_was() -> Result<(), Error> {
    let folder = Folder::new("goes_on")?;
    for (epochs, part) in [(1, 0), (1, 3), (2, 100), (3, 1_000), (4, usize::MAX)] {
        let path = folder.0.join(format!("run_{epochs}_{part}"));
        let half = Half { file: HistoryFile::create(&path)?, epochs, part };
        let Err(StopFault::Halted(halted)) = run(half, 300, 2_000)? else { return Err("it did not halt".into()) };
        assert_eq!(halted.why().to_string(), "no space is left");
        let runtime = halted.with_archive(HistoryFile::append(&path)?).go_on().map_err(|halted| halted.to_string())?;
        let summary = runtime.wait()?;
        assert_eq!(lines(&path)?, summary.archived, "{epochs} {part}");
        let text = fs::read_to_string(&path)?;
        let stamps: Vec<u64> =
            text.lines().map(|line| Ok(line.split('@').next().unwrap_or("").parse()?)).collect::<Result<_, Error>>()?;
        assert!(stamps.is_sorted() && text.ends_with('\n'));
    }
    Ok(())
}

/// A file of another run, or of something else, is not written to.
#[test]
fn the_file_of_another_run_is_refused_and_stays() -> Result<(), Error> {
    let folder = Folder::new("refused")?;
    let path = folder.0.join("run");
    run(HistoryFile::create(&path)?, 100, 50)??;
    let earlier = fs::read_to_string(&path)?;
    for (text, why) in [
        (&*earlier, "the file has no earlier epoch of this run, which another file is for"),
        ("1@0 born <0.0.1>\n", "the file has no earlier epoch of this run, which another file is for"),
        ("7", "the file has no earlier epoch of this run, which another file is for"),
        ("no history\n", "the file is no history: a line of it is no event"),
    ] {
        fs::write(&path, text)?;
        let Err(StopFault::Halted(halted)) = run(HistoryFile::append(&path)?, 100, 50)? else {
            return Err("it did not halt".into());
        };
        assert_eq!((halted.why().to_string().as_str(), fs::read_to_string(&path)?.as_str()), (why, text));
        let other = HistoryFile::create(folder.0.join("other"))?;
        halted.with_archive(other).go_on().map_err(|halted| halted.to_string())?.wait()?;
    }
    Ok(())
}

#[test]
fn a_file_that_is_empty_or_not_there_is_begun() -> Result<(), Error> {
    let folder = Folder::new("begun")?;
    let path = folder.0.join("run");
    for _ in 0..2 {
        let summary = run(HistoryFile::append(&path)?, 100, 200)??;
        assert_eq!(lines(&path)?, summary.archived);
        fs::write(&path, "")?;
    }
    assert!(HistoryFile::append(folder.0.join("nowhere").join("run")).is_err());
    Ok(())
}

/// Events of any length: the place where those before an epoch end is found among them.
#[test]
fn the_end_of_the_epochs_before_is_found() -> Result<(), Error> {
    let folder = Folder::new("found")?;
    for lengths in [[1, 500], [300, 2], [7, 7], [2_000, 1]] {
        let path = folder.0.join("run");
        let mut before: Option<(String, u64)> = None;
        let (give, texts) = std::sync::mpsc::channel();
        let pads = lengths;
        let copy = path.clone();
        // (the file of each epoch before the last one, with lines that are longer than those of a history)
        let sink = move |history: &History| -> Result<(), Refusal> {
            if let Some((text, count)) = before.take() {
                let padded: String = text
                    .lines()
                    .zip(0_usize..)
                    .map(|(line, at)| format!("{line}{}\n", "x".repeat(pads[at % 2])))
                    .collect();
                fs::write(&copy, &padded)?;
                let mut again = HistoryFile::append(&copy)?;
                again.take(history)?;
                let now = fs::read_to_string(&copy)?;
                let rest: String = history.events().map(|event| format!("{event}\n")).collect();
                give.send((now == format!("{padded}{rest}"), count))?;
            }
            HistoryFile::create(&copy)?.take(history)?;
            before = Some((fs::read_to_string(&copy)?, history.count() as u64));
            Ok(())
        };
        run(sink, 80, 300)??;
        let all: Vec<(bool, u64)> = texts.iter().collect();
        assert!(all.len() > 5 && all.iter().all(|&(same, count)| same && count > 0), "{lengths:?} {all:?}");
    }
    Ok(())
}

/// What a history file has is what the run did.
#[test]
fn all_processes_are_in_the_files() -> Result<(), Error> {
    let folder = Folder::new("all")?;
    let (mut files, mut born) = (HistoryFile::rotating(folder.0.join("run"), 500)?, 0);
    let (give, counts) = std::sync::mpsc::channel();
    let sink = move |history: &History| -> Result<(), Refusal> {
        born += history.events().filter(|event| matches!(event.happened, Happened::Born(..))).count();
        files.take(history)?;
        give.send(born)?;
        Ok(())
    };
    let runtime = Runtime::builder().desks(2).going_on_every(20).archive(sink).start()?;
    for _ in 0..30 {
        runtime.spawn(Counts(3))?;
    }
    let summary = runtime.wait()?;
    let texts = folder.names()?.into_iter().map(|name| Ok(fs::read_to_string(folder.0.join(name))?));
    let text = texts.collect::<Result<Vec<String>, Error>>()?.concat();
    // (each desk has one that sends what comes from outside)
    assert_eq!(text.lines().filter(|line| line.contains(" born ")).count(), 32);
    assert_eq!((counts.iter().last(), text.lines().count() as u64), (Some(32), summary.archived));
    Ok(())
}

/// Takes nothing that it is sent.
struct Keeps;

impl Behaviour for Keeps {
    type Message = Arc<()>;

    fn started(&mut self, _: &mut Context<'_, Arc<()>>) -> Next {
        Next::Only(Pick::Kind(77))
    }

    fn handle(&mut self, _: &mut Context<'_, Arc<()>>, event: Event<Arc<()>>) -> Next {
        panic!("{event:?}")
    }
}

/// Sends that one values, tells the test so, and crashes.
struct Fills(Address<Arc<()>>, Arc<()>, Sender<()>);

impl Behaviour for Fills {
    type Message = ();

    fn started(&mut self, cx: &mut Context<'_, ()>) -> Next {
        let sent = (0..100).filter(|_| cx.send(&self.0, self.1.clone())).count();
        assert_eq!((sent, self.2.send(())), (100, Ok(())));
        panic!("all is sent")
    }

    fn handle(&mut self, _: &mut Context<'_, ()>, _: Event<()>) -> Next {
        Next::Wait
    }
}

/// It is not settled as it ends. What it counts, and what becomes of the values that wait or are on their way, are the same.
#[test]
fn a_run_whose_history_nobody_gets_ends_as_one_that_is_archived() -> Result<(), Error> {
    for is_archived in [true, false] {
        let (builder, (give, told), value) = (Runtime::builder().desks(2), channel(), Arc::new(()));
        let builder = if is_archived { builder.archive(|_: &History| Ok(())) } else { builder };
        let runtime = builder.start()?;
        let keeps = runtime.spawn_on(0, Keeps)?;
        runtime.spawn_on(1, Fills(keeps.clone(), value.clone(), give))?;
        told.recv()?;
        let Summary { epochs, archived, spawned, panics } = runtime.stop()?;
        assert_eq!((epochs, archived > 0, spawned, panics), (1, is_archived, 2, 1));
        assert_eq!((Arc::strong_count(&value), keeps.send(value.clone()), keeps.waiting()), (1, false, 0));
    }
    Ok(())
}
