//! What was found.

use super::moves::{Move, Schedule};
use super::run::{Ended, Scenario, Wrong};
use super::shorten::{Wanted, shortest};
use std::collections::BTreeMap;
use std::fmt;
use std::io;
use std::path::Path;
use std::sync::Arc;

/// What some runs came to.
#[derive(Clone, Debug)]
pub(crate) struct Tally {
    pub(crate) runs: u64,
    /// Runs that were given up, as the reduction leaves them out.
    pub(crate) asleep: u64,
    pub(crate) steps: u64,
    pub(crate) outcomes: BTreeMap<String, (u64, Vec<Move>)>,
    pub(crate) wrong: Option<(Wrong, Vec<Move>)>,
    pub(crate) is_whole: bool,
}

impl Default for Tally {
    fn default() -> Tally {
        Tally { runs: 0, asleep: 0, steps: 0, outcomes: BTreeMap::new(), wrong: None, is_whole: true }
    }
}

impl Tally {
    pub(crate) fn all(&self) -> u64 {
        self.runs + self.asleep
    }

    /// Counts a run, and returns whether something is wrong with it.
    pub(crate) fn add(&mut self, ended: Ended) -> bool {
        self.steps += ended.moves.len() as u64;
        if let Some(wrong) = ended.wrong {
            self.runs += 1;
            self.wrong = Some((wrong, ended.moves));
            return true;
        }
        match ended.outcome {
            Some(outcome) => {
                self.runs += 1;
                self.outcomes.entry(outcome).or_insert_with(|| (0, ended.moves)).0 += 1;
            }
            None => self.asleep += 1,
        }
        false
    }

    /// Counts what comes behind.
    pub(crate) fn join(&mut self, more: Tally) {
        self.runs += more.runs;
        self.asleep += more.asleep;
        self.steps += more.steps;
        for (outcome, (count, first)) in more.outcomes {
            self.outcomes.entry(outcome).or_insert((0, first)).0 += count;
        }
        self.wrong = self.wrong.take().or(more.wrong);
        self.is_whole &= more.is_whole;
    }
}

/// A run with which something is wrong: the shortest that was found.
#[derive(Clone, Debug)]
pub struct Failure {
    wrong: Wrong,
    schedule: Schedule,
    history: Vec<String>,
    panics: Vec<String>,
}

impl Failure {
    /// One that cannot be made again.
    fn untold(wrong: Wrong, moves: &[Move]) -> Failure {
        Failure { wrong, schedule: Schedule(moves.to_vec()), history: Vec::new(), panics: Vec::new() }
    }

    /// What is wrong.
    #[must_use]
    pub fn wrong(&self) -> &Wrong {
        &self.wrong
    }

    /// The schedule of the run, which [`Trial::replay`](super::Trial::replay) takes.
    #[must_use]
    pub fn schedule(&self) -> &Schedule {
        &self.schedule
    }

    /// What happened in the run, a line an event. It is a legal history, as `pt_audit` reads it.
    #[must_use]
    pub fn history(&self) -> &[String] {
        &self.history
    }

    /// The panics of behaviours in the run, a line each: the process, the type of its behaviour, and the text.
    #[must_use]
    pub fn panics(&self) -> &[String] {
        &self.panics
    }

    /// Writes the history to a file, which `pt_audit` judges, and of which `pt_audit --print chart` draws an SVG.
    ///
    /// # Errors
    ///
    /// Those of writing the file.
    pub fn save(&self, file: impl AsRef<Path>) -> io::Result<()> {
        std::fs::write(file, self.history.iter().fold(String::new(), |text, line| text + line + "\n"))
    }
}

impl fmt::Display for Failure {
    fn fmt(&self, f: &mut fmt::Formatter<'_>) -> fmt::Result {
        writeln!(f, "{}", self.wrong)?;
        // (that of a run which no panic may have is told above)
        if !matches!(self.wrong, Wrong::Panicked(_)) {
            self.panics.iter().try_for_each(|panic| writeln!(f, "a behaviour panicked: {panic}"))?;
        }
        writeln!(f, "the shortest schedule found: {}", self.schedule)?;
        writeln!(f, "its history:")?;
        self.history.iter().try_for_each(|line| writeln!(f, "  {line}"))?;
        write!(f, "to run it again: .replay(\"{}\")", self.schedule)
    }
}

impl std::error::Error for Failure {}

/// What the runs of a scenario came to.
#[must_use = "ask it what is expected, such as by passes or expect_one"]
pub struct Found {
    tally: Tally,
    scenario: Arc<dyn Scenario>,
    failure: Option<Failure>,
}

impl fmt::Debug for Found {
    fn fmt(&self, f: &mut fmt::Formatter<'_>) -> fmt::Result {
        f.debug_struct("Found").field("tally", &self.tally).field("failure", &self.failure).finish_non_exhaustive()
    }
}

impl fmt::Display for Found {
    /// A line of counts, and a line an outcome: how many runs had it, and the first of them.
    fn fmt(&self, f: &mut fmt::Formatter<'_>) -> fmt::Result {
        write!(f, "runs {} outcomes {}", self.tally.runs, self.tally.outcomes.len())?;
        for (outcome, (count, first)) in &self.tally.outcomes {
            write!(f, "\n{count} runs: {outcome}\n  first {}", Schedule(first.clone()))?;
        }
        match &self.failure {
            Some(failure) => write!(f, "\n{failure}"),
            None => Ok(()),
        }
    }
}

impl Found {
    pub(crate) fn new(mut tally: Tally, scenario: Arc<dyn Scenario>) -> Found {
        let failure = tally.wrong.take().map(|(wrong, moves)| failure(&*scenario, wrong, &moves));
        Found { tally, scenario, failure }
    }

    /// How many runs were made to their ends.
    #[must_use]
    pub fn runs(&self) -> u64 {
        self.tally.runs
    }

    /// How many runs the reduction gave up, since all that they could still do is in others.
    #[must_use]
    pub fn given_up(&self) -> u64 {
        self.tally.asleep
    }

    /// How many moves all these runs had.
    #[must_use]
    pub fn moves(&self) -> u64 {
        self.tally.steps
    }

    /// Whether no schedule was left out: those of [`Trial::every`](super::Trial::every) were fewer than its limit.
    #[must_use]
    pub fn is_whole(&self) -> bool {
        self.tally.is_whole && self.failure.is_none()
    }

    /// Each outcome, and how many runs had it.
    #[must_use]
    pub fn outcomes(&self) -> Vec<(&str, u64)> {
        self.tally.outcomes.iter().map(|(outcome, (count, _))| (&**outcome, *count)).collect()
    }

    /// The first run with which something is wrong, after which no run was made, shortened.
    #[must_use]
    pub fn failure(&self) -> Option<&Failure> {
        self.failure.as_ref()
    }

    /// A run with this outcome, shortened, if one was found.
    #[must_use]
    pub fn of(&self, outcome: &str) -> Option<Failure> {
        let (_, first) = self.tally.outcomes.get(outcome)?;
        Some(failure(&*self.scenario, Wrong::Outcome(outcome.into()), first))
    }

    /// Nothing is wrong with any run.
    ///
    /// # Panics
    ///
    /// With the failure, if there is one.
    pub fn passes(&self) -> &Found {
        if let Some(failure) = &self.failure {
            panic!("{failure}");
        }
        self
    }

    /// Nothing is wrong with any run, and all have one outcome.
    ///
    /// # Panics
    ///
    /// With the failure, or with a run of the rarest outcome.
    pub fn expect_one(&self) -> &Found {
        self.passes();
        if self.tally.outcomes.len() > 1 {
            let counts = self.tally.outcomes.iter();
            let rarest = counts.min_by_key(|(_, (count, _))| *count).map(|(outcome, _)| outcome.clone());
            self.refuse(&rarest.unwrap_or_default());
        }
        self
    }

    /// Nothing is wrong with any run, and the outcomes are these: no other one, and each of them.
    ///
    /// # Panics
    ///
    /// With the failure, with a run of another outcome, or with the outcome that no run had.
    pub fn expect<const N: usize>(&self, outcomes: [&str; N]) -> &Found {
        self.passes();
        let other = self.tally.outcomes.keys().find(|it| !outcomes.contains(&&***it));
        if let Some(other) = other {
            self.refuse(other);
        }
        if let Some(missing) = outcomes.iter().find(|it| !self.tally.outcomes.contains_key(**it)) {
            panic!("no run had the outcome {missing}, of {} runs", self.tally.runs);
        }
        self
    }

    fn refuse(&self, outcome: &str) -> ! {
        let failure = self.of(outcome).expect("an outcome that was found");
        let all = self.outcomes().into_iter().map(|(outcome, count)| format!("  {count} runs: {outcome}\n"));
        panic!("{failure}\nall outcomes:\n{}", all.collect::<String>());
    }
}

/// The shortest run that is found with the same wrong.
pub(crate) fn failure(scenario: &dyn Scenario, wrong: Wrong, moves: &[Move]) -> Failure {
    let wanted = match &wrong {
        Wrong::Differs(_) | Wrong::NoMove(_) => {
            return Failure::untold(wrong, moves);
        }
        Wrong::Outcome(text) => Wanted::Outcome(text.clone()),
        wrong => Wanted::Wrong(std::mem::discriminant(wrong)),
    };
    match shortest(scenario, &wanted, moves) {
        Some(ended) => {
            let schedule = ended.schedule();
            Failure { wrong: ended.wrong.unwrap_or(wrong), schedule, history: ended.history, panics: ended.panics }
        }
        // (a second run ends in another way)
        None => Failure::untold(Wrong::Differs(1), moves),
    }
}
