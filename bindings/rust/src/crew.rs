//! The processes of one desk whose handlers are the program's own, and their supervisors.

use crate::raw::{
    self, Handle, RawAnswer, RawBody, RawChild, RawChildCounts, RawChildSpec, RawGaveUp, RawJob, RawLoss, RawNext,
    RawPick, RawReason, RawRef, RawTurned,
};
use crate::supervisors::{Child, ChildCounts, ChildFault, ChildSpec, GaveUp, Origin, SupervisorSpec, asked};
use crate::{
    Desk, Fault, Gathered, Held, History, Item, Lineage, Loss, NONE, OK, Pick, Pid, Quiet, Reason, Turned, desks_of,
    fault_of, found, is_whole, told,
};
use std::fmt;
use std::mem;

/// What a process of a [`Crew`] does next.
#[derive(Clone, Copy, Debug, PartialEq, Eq, PartialOrd, Ord, Hash)]
pub enum Next {
    /// It waits for an item that the pick takes.
    Wait(Pick),
    /// The same, but no longer than until this time ([`Crew::set_time`]).
    WaitUntil(Pick, u64),
    /// It is told to proceed as soon as its turn comes.
    Proceed,
    /// It exits with this reason, and is told so.
    Stop(Reason),
    /// It was told something, and is told nothing until it is answered.
    Running,
}

/// What the handler of a process is told.
#[derive(Clone, Copy, Debug, PartialEq, Eq, PartialOrd, Ord, Hash)]
pub enum What {
    /// It begins: it was to proceed, and has been told nothing before. The origin is `None` if the program spawned it.
    Start(Option<Origin>),
    /// It proceeds, as it was answered.
    Proceed,
    /// It gets this item, which it waited for and which is out of its mailbox.
    Item(Item),
    /// The time until which it waited has come, and no item fits.
    Timeout,
    /// It has exited with this reason, and this is what it was to do: [`Next::Running`], if it was told something that
    /// nobody answered. It is told once, of supervisors too, and the process is none of the crew then: it gets no answer.
    ///
    /// The reason is that of its own exit, by [`Next::Stop`] or [`Desk::exit`]. If an exit signal ended the process, or it
    /// exited while its node was settled, it is the one that a loss told ([`Crew::next_loss`]), or [`Reason::Noproc`].
    Exit(Reason, Next),
}

/// What a process is told, and which process it is.
#[derive(Clone, Copy, Debug, PartialEq, Eq, PartialOrd, Ord, Hash)]
pub struct Job {
    /// The process.
    pub pid: Pid,
    /// What it was spawned or started with.
    pub tag: u64,
    /// What it is told.
    pub what: What,
}

/// An answer that was refused. All before it were taken, and it has changed nothing.
#[derive(Clone, Copy, Debug, PartialEq, Eq, Hash)]
pub struct NotTaken {
    /// How many answers were taken.
    pub taken: usize,
    /// Why the next one was not.
    pub fault: Fault,
}

impl fmt::Display for NotTaken {
    fn fmt(&self, f: &mut fmt::Formatter<'_>) -> fmt::Result {
        write!(f, "the answer at place {} is refused: {}", self.taken, self.fault)
    }
}

impl std::error::Error for NotTaken {}

/// The processes of one desk whose handlers are the program's own: it says which is to run, and with what. Others are
/// supervisors, which handle what they get themselves ([`supervisors`](crate::supervisors)).
///
/// A loop is: [`step`](Crew::step); for each job its handler, which makes calls of the desk as it likes; and for each job
/// but [`What::Exit`] an answer, then or later, by [`answer`](Crew::answer). A handler takes no item from the mailbox of
/// a process of the crew by itself. What the handlers sent is on its way by the next step, whose turn posts it first. A
/// supervisor is run by the step, and is told of in no job but that of its exit.
///
/// No wake-up is lost: a process of the crew that has something to do is in the queue, or the next step finds it. If the
/// crew is idle ([`is_idle`](Crew::is_idle)) and no letter waits ([`Desk::pending`]), nothing is to be done before the
/// time that [`next_time`](Crew::next_time) returns, unless another desk sends something.
///
/// ```
/// use pundewo::{Config, Crew, Job, Next, Pick, Reason, What, open};
///
/// let mut desks = open(1, Config::default())?;
/// let mut crew = Crew::new(&desks[0])?;
/// let pid = crew.spawn(&mut desks[0], 7, Next::Proceed)?;
/// let mut jobs = Vec::new();
/// crew.step(&mut desks[0], 64, 64, &mut jobs)?;
/// assert_eq!(jobs, [Job { pid, tag: 7, what: What::Start(None) }]);
/// crew.answer(&[(pid, Next::Stop(Reason::Normal))]).unwrap();
/// crew.step(&mut desks[0], 64, 64, &mut jobs)?;
/// assert_eq!(jobs[0].what, What::Exit(Reason::Normal, Next::Stop(Reason::Normal)));
/// # Ok::<(), pundewo::Fault>(())
/// ```
pub struct Crew {
    handle: Held,
    // the desk that it is of: the node's `open`, the node as it was opened or resumed, and the number
    opened: u64,
    node: u64,
    number: u8,
    told: Vec<RawJob>,
    /// The answers that were noted, and behind them places whose answer is to wait for whatever comes, as most are.
    answers: Vec<RawAnswer>,
    noted: usize,
    /// Whether another one was noted.
    has_others: bool,
}

impl fmt::Debug for Crew {
    fn fmt(&self, f: &mut fmt::Formatter<'_>) -> fmt::Result {
        write!(f, "Crew {{ desk: {}, .. }}", self.number)
    }
}

impl Drop for Crew {
    fn drop(&mut self) {
        // SAFETY: the handle is the only one of its crew, or empty, which is answered by a code.
        unsafe { raw::pt_crew_give_up(self.handle.own()) };
    }
}

// SAFETY of the calls below: the handle is the only one of its crew, and this call alone has it, by `&mut self` or by its
// lock; the crew is used with its own desk alone (`is_of`); the references are to separate values.
impl Crew {
    /// Begins the crew of this desk, with no process and at the time 0.
    ///
    /// # Errors
    ///
    /// [`Fault::Memory`], if there is none.
    pub fn new(desk: &Desk) -> Result<Crew, Fault> {
        let mut handle = NONE;
        told(unsafe { raw::pt_crew_open(&mut handle) })?;
        let Desk { origin, node, number, .. } = *desk;
        Ok(Crew {
            handle: Held::new(handle),
            opened: origin.opened,
            node,
            number,
            told: vec![],
            answers: vec![],
            noted: 0,
            has_others: false,
        })
    }

    fn is_of(&self, desk: &Desk) -> Result<(), Fault> {
        if (self.node, self.number) == (desk.node, desk.number) { Ok(()) } else { Err(Fault::WrongDesk) }
    }

    /// Spawns a process on the desk as [`Desk::spawn`] does. It is of the crew then, with this tag, and does `first` next:
    /// if that is [`Next::Proceed`], it is told [`What::Start`] first.
    ///
    /// # Errors
    ///
    /// [`Fault::WrongDesk`], else as [`Desk::spawn`].
    #[inline]
    pub fn spawn(&mut self, desk: &mut Desk, tag: u64, first: Next) -> Result<Pid, Fault> {
        self.is_of(desk)?;
        let mut out = Pid::default();
        let code = unsafe { raw::pt_crew_spawn(self.handle.own(), desk.handle.own(), tag, first.into(), &mut out) };
        told(code)?;
        Ok(out)
    }

    /// Spawns a child of the parent as [`Desk::spawn_child`] does, else as [`spawn`](Crew::spawn). The parent is no
    /// supervisor of the crew: a supervisor starts its children itself.
    ///
    /// # Errors
    ///
    /// [`Fault::WrongDesk`], else as [`Desk::spawn_child`].
    #[inline]
    pub fn spawn_child(
        &mut self,
        desk: &mut Desk,
        parent: Pid,
        linked: bool,
        tag: u64,
        first: Next,
    ) -> Result<Pid, Fault> {
        self.is_of(desk)?;
        let (mut out, first) = (Pid::default(), first.into());
        let (crew, desk) = (self.handle.own(), desk.handle.own());
        told(unsafe { raw::pt_crew_spawn_child(crew, desk, parent, linked, tag, first, &mut out) })?;
        Ok(out)
    }

    /// Spawns a supervisor with this tag, which starts its children in the next step, in order.
    ///
    /// # Errors
    ///
    /// [`Fault::WrongDesk`], else as [`Desk::spawn`].
    pub fn spawn_supervisor(
        &mut self,
        desk: &mut Desk,
        tag: u64,
        spec: SupervisorSpec,
        children: &[ChildSpec],
    ) -> Result<Pid, Fault> {
        self.is_of(desk)?;
        let (mut out, children) = (Pid::default(), raw_children(children));
        let (crew, desk, first, count) = (self.handle.own(), desk.handle.own(), children.as_ptr(), children.len());
        told(unsafe { raw::pt_crew_spawn_supervisor(crew, desk, tag, spec.into(), first, count, &mut out) })?;
        Ok(out)
    }

    /// Answers for a running process, as for a child that was told [`What::Start`], that it is a supervisor. Its own
    /// supervisor should be its [`parent`](SupervisorSpec::parent), with which it exits then. Answer so each time it is
    /// started.
    ///
    /// # Errors
    ///
    /// [`Fault::NotRunning`], if the process is not running or none of the crew. [`Fault::Memory`], and then it is running
    /// still.
    pub fn supervise(&mut self, p: Pid, spec: SupervisorSpec, children: &[ChildSpec]) -> Result<(), Fault> {
        let children = raw_children(children);
        let (first, count) = (children.as_ptr(), children.len());
        told(unsafe { raw::pt_crew_supervise(self.handle.own(), p, spec.into(), first, count) })
    }

    /// Does a step: a turn of the desk with this budget; then it reads what is new, wakes whose time has come, and runs
    /// the processes that are in the queue, in order, until there are `most` jobs or each was come to once. `jobs` holds
    /// these jobs then, and no others. No process is in it twice, and a supervisor only with its exit. A process that was
    /// told anything but [`What::Exit`] is running.
    ///
    /// If there was no memory or no stamp for a process, it stays in the queue, and [`refused`](Crew::refused) is true.
    ///
    /// # Errors
    ///
    /// [`Fault::WrongDesk`], and then `jobs` is as it was.
    pub fn step(&mut self, desk: &mut Desk, budget: u32, most: usize, jobs: &mut Vec<Job>) -> Result<Turned, Fault> {
        let (turned, count) = self.step_over(desk, budget, most)?;
        jobs.clear();
        jobs.extend(self.told[..count].iter().map(Job::from));
        Ok(turned)
    }

    /// The same, but the jobs stay here, and it returns how many they are: [`job`](Crew::job) has each.
    #[inline]
    pub(crate) fn step_over(&mut self, desk: &mut Desk, budget: u32, most: usize) -> Result<(Turned, usize), Fault> {
        self.is_of(desk)?;
        if self.told.len() < most {
            self.make_room(most);
        }
        let (mut count, mut turned, buffer) = (0, RawTurned::default(), self.told.as_mut_ptr());
        let (crew, desk) = (self.handle.own(), desk.handle.own());
        told(unsafe { raw::pt_crew_step(crew, desk, budget, buffer, most, &mut count, &mut turned) })?;
        Ok((turned.into(), count))
    }

    /// Makes room for so many jobs.
    #[cold]
    fn make_room(&mut self, most: usize) {
        self.told.resize(most, RawJob::default());
    }

    /// The job in this place of the last step, if it is a message that names nobody: its process with its tag, and the kind and
    /// the number of the message.
    #[inline(always)]
    pub(crate) fn letter(&self, place: usize) -> Option<(Pid, u64, u32, i64)> {
        let job = &self.told[place];
        let RawBody { kind, num, has_who, .. } = job.item.body;
        if job.code != raw::PT_JOB_ITEM || job.item.code != raw::PT_ITEM_USER || has_who {
            return None;
        }
        Some((job.pid, job.tag, kind, num))
    }

    /// The item of the job in this place of the last step, which has one.
    pub(crate) fn item_of(&self, place: usize) -> Item {
        self.told[place].item.into()
    }

    /// The same of any item.
    #[inline(always)]
    pub(crate) fn item(&self, place: usize) -> Option<(Pid, u64, Item)> {
        let job = &self.told[place];
        (job.code == raw::PT_JOB_ITEM).then(|| (job.pid, job.tag, job.item.into()))
    }

    /// The process of the job in this place of the last step with its tag, if it begins and no supervisor has started it.
    #[inline(always)]
    pub(crate) fn start(&self, place: usize) -> Option<(Pid, u64)> {
        let job = &self.told[place];
        (job.code == raw::PT_JOB_START && !job.has_supervisor).then_some((job.pid, job.tag))
    }

    /// The same, if it has exited, and the reason.
    #[inline(always)]
    pub(crate) fn exit(&self, place: usize) -> Option<(Pid, u64, Reason)> {
        let job = &self.told[place];
        (job.code == raw::PT_JOB_EXIT).then(|| (job.pid, job.tag, job.reason.into()))
    }

    /// The job in this place of the last step. (what one that has exited was to do is left out)
    #[inline(always)]
    pub(crate) fn job(&self, place: usize) -> Job {
        match self.exit(place) {
            Some((pid, tag, reason)) => Job { pid, tag, what: What::Exit(reason, Next::Running) },
            None => Job::from(&self.told[place]),
        }
    }

    /// Says what running processes do next. The answers are taken in order, up to the first that is refused.
    ///
    /// # Errors
    ///
    /// [`Fault::NotRunning`], if the process of an answer is not running or none of the crew. By that answer nothing has
    /// changed.
    pub fn answer(&mut self, answers: &[(Pid, Next)]) -> Result<(), NotTaken> {
        self.forget_noted();
        answers.iter().for_each(|&(pid, next)| self.note_answer(pid, next));
        self.answer_noted()
    }

    /// Notes an answer, which [`answer_noted`](Crew::answer_noted) gives with the others.
    #[inline(never)]
    pub(crate) fn note_answer(&mut self, pid: Pid, next: Next) {
        self.note_wait(pid);
        // (which has what is said of one that waits for whatever comes)
        let noted = &mut self.answers[self.noted - 1].next;
        match next {
            Next::Proceed => noted.code = raw::PT_NEXT_PROCEED,
            Next::Stop(reason) => (noted.code, noted.reason) = (raw::PT_NEXT_STOP, reason.into()),
            next => *noted = next.into(),
        }
        self.has_others = true;
    }

    /// Notes the answer of a process that waits for whatever comes, as most do.
    #[inline(always)]
    pub(crate) fn note_wait(&mut self, pid: Pid) {
        if self.noted == self.answers.len() {
            self.make_room_for_answers();
        }
        self.answers[self.noted].pid = pid;
        self.noted += 1;
    }

    #[cold]
    fn make_room_for_answers(&mut self) {
        let blank = RawAnswer { pid: Pid::default(), next: WAIT };
        self.answers.resize(self.noted.max(32) * 2, blank);
    }

    /// Forgets the answers that were noted.
    #[inline(always)]
    fn forget_noted(&mut self) {
        let count = std::mem::take(&mut self.noted);
        if std::mem::take(&mut self.has_others) {
            self.answers[..count].iter_mut().for_each(|answer| answer.next = WAIT);
        }
    }

    /// Gives the answers that were noted, as [`answer`](Crew::answer) does.
    #[inline]
    pub(crate) fn answer_noted(&mut self) -> Result<(), NotTaken> {
        let (mut taken, buffer) = (0, self.answers.as_ptr());
        let code = unsafe { raw::pt_crew_answer(self.handle.own(), buffer, self.noted, &mut taken) };
        self.forget_noted();
        if code == OK { Ok(()) } else { Err(NotTaken { taken, fault: fault_of(code) }) }
    }

    /// The oldest loss of the desk that was not told, as [`Desk::next_loss`] returns it. The crew notes the reason of the
    /// exit that it tells.
    ///
    /// So a crew knows each reason if each loss is taken here before the step that tells of the exit: a [`Desk::turn`],
    /// then this for each loss, and then a step with the budget 0.
    ///
    /// # Errors
    ///
    /// [`Fault::WrongDesk`].
    #[inline]
    pub fn next_loss(&mut self, desk: &mut Desk) -> Result<Option<Loss>, Fault> {
        self.is_of(desk)?;
        let Some(loss) = desk.first_loss() else { return Ok(None) };
        Ok(Some(self.take_loss(desk, loss)))
    }

    /// Takes the oldest loss of the desk, which is this one.
    #[cold]
    pub(crate) fn take_loss(&mut self, desk: &mut Desk, loss: RawLoss) -> Loss {
        unsafe { raw::pt_crew_note_loss(self.handle.own(), desk.handle.own(), 0) };
        desk.take_loss(loss)
    }

    /// Says what time it is in the calls that follow, in a unit of the program's own.
    #[inline]
    pub fn set_time(&mut self, now: u64) {
        unsafe { raw::pt_crew_set_time(self.handle.own(), now) };
    }

    fn may_go_on(&self, desk: &Desk) -> Result<(), Fault> {
        if (self.opened, self.number) == (desk.origin.opened, desk.number) { Ok(()) } else { Err(Fault::WrongDesk) }
    }

    /// Goes on over a desk of the resumed node, the one of the same number. Each process is in the queue then, supervisors
    /// too, does next what it was to do, and is told by the next steps that it has exited, if it did in settling.
    ///
    /// Each exit has to be told before the node is gathered, as it is where the crew is idle. [`go_on`] and
    /// [`Crew::go_on`] do not ask for that.
    ///
    /// # Errors
    ///
    /// [`Fault::WrongDesk`], else [`Fault::Memory`], and then it may be called again.
    pub fn begin_again(&mut self, desk: &Desk) -> Result<(), Fault> {
        self.may_go_on(desk)?;
        told(unsafe { raw::pt_crew_begin_again(self.handle.own()) })?;
        self.node = desk.node;
        Ok(())
    }

    /// Goes on over a desk of the resumed node, with the history of the node before: [`gather`](crate::gather),
    /// [`settle_unlisted`](crate::Gathered::settle_unlisted), its [`history`](crate::Quiet::history),
    /// [`resume`](crate::Quiet::resume), and this for the crew of each desk. The reason of each exit in the history is
    /// told once the exit is. The function [`go_on`] does all of that in one call.
    ///
    /// # Errors
    ///
    /// [`Fault::WrongDesk`].
    pub fn go_on(&mut self, desk: &Desk, history: &History) -> Result<(), Fault> {
        self.may_go_on(desk)?;
        told(unsafe { raw::pt_crew_go_on(self.handle.own(), &mut history.handle.lent()) })?;
        self.node = desk.node;
        Ok(())
    }

    /// The earliest time until which a process waits that is not in the queue, or `None` if there is none.
    #[inline]
    pub fn next_time(&self) -> Option<u64> {
        let mut out = 0;
        let code = unsafe { raw::pt_crew_next_time(&mut self.handle.lent(), &mut out) };
        found(code, out)
    }

    /// The tag of a process, or `None` if it is none of the crew.
    #[inline]
    pub fn tag(&self, p: Pid) -> Option<u64> {
        let mut out = 0;
        let code = unsafe { raw::pt_crew_tag(&mut self.handle.lent(), p, &mut out) };
        found(code, out)
    }

    /// What a process does next, or `None` if it is none of the crew.
    #[inline]
    pub fn next(&self, p: Pid) -> Option<Next> {
        let mut out = RawNext::default();
        let code = unsafe { raw::pt_crew_next(&mut self.handle.lent(), p, &mut out) };
        found(code, out.into())
    }

    /// The children of a supervisor in their places, or `None` if the process is no supervisor of the crew.
    pub fn children(&self, p: Pid) -> Option<Vec<Child>> {
        let (mut handle, mut count) = (self.handle.lent(), 0);
        let code = unsafe { raw::pt_crew_children(&mut handle, p, &mut count) };
        (0..found(code, count)?).map(|place| child_at(&mut handle, p, place)).collect()
    }

    /// The child in a place of a supervisor, or `None` if the process is no supervisor of the crew, or has fewer children.
    pub fn child(&self, p: Pid, place: usize) -> Option<Child> {
        child_at(&mut self.handle.lent(), p, place)
    }

    /// Asks a supervisor for one more child, behind the others: Erlang's `start_child`. It returns the place of the child,
    /// whose tag is also the name by which the calls below know it.
    ///
    /// The supervisor is in the queue then, and the next step starts the child. If it ends another child just now, it starts
    /// this one once that has exited.
    ///
    /// # Errors
    ///
    /// [`ChildFault::NotFound`], if the process is no supervisor of the crew. [`ChildFault::Running`] or
    /// [`ChildFault::Present`], if it has a child with this tag, which is running or not. [`ChildFault::Memory`].
    pub fn start_child(&mut self, p: Pid, child: ChildSpec) -> Result<usize, ChildFault> {
        let mut place = 0;
        asked(unsafe { raw::pt_crew_start_child(self.handle.own(), p, child.into(), &mut place) })?;
        Ok(place)
    }

    /// Asks a supervisor to end the child with this tag, as its [`shutdown`](ChildSpec::shutdown) says: Erlang's
    /// `terminate_child`. The next step tells it to exit. The child keeps its place, and is not started again unless
    /// [`restart_child`](Crew::restart_child) asks for it, or a strategy names it.
    ///
    /// # Errors
    ///
    /// [`ChildFault::NotFound`].
    pub fn terminate_child(&mut self, p: Pid, tag: u64) -> Result<(), ChildFault> {
        asked(unsafe { raw::pt_crew_terminate_child(self.handle.own(), p, tag) })
    }

    /// Asks a supervisor to start the child with this tag, which it ended or which is done: Erlang's `restart_child`. The next
    /// step starts it.
    ///
    /// # Errors
    ///
    /// [`ChildFault::NotFound`], [`ChildFault::Running`], [`ChildFault::Restarting`].
    pub fn restart_child(&mut self, p: Pid, tag: u64) -> Result<(), ChildFault> {
        asked(unsafe { raw::pt_crew_restart_child(self.handle.own(), p, tag) })
    }

    /// Asks a supervisor for the child that it wants started on another desk, and returns its tag. It returns `None` if it wants
    /// none, or told of it before, or the process is no supervisor of the crew.
    ///
    /// A supervisor comes to a child with [`elsewhere`](ChildSpec::elsewhere) in its turn. It then starts and ends no other child,
    /// and does not exit, until [`child_started`](Crew::child_started) or [`child_not_started`](Crew::child_not_started)
    /// answers. So ask each supervisor that has such children after each step.
    pub fn child_to_start(&mut self, p: Pid) -> Option<u64> {
        let mut tag = 0;
        let code = unsafe { raw::pt_crew_child_to_start(self.handle.own(), p, &mut tag) };
        asked(code).ok().map(|()| tag)
    }

    /// Tells a supervisor that the program has started the child with this tag on another desk, as this process. The next step
    /// links the two. If the process has exited by then, or is of the crew's desk, or is a child of it already, the child was
    /// not started.
    ///
    /// # Errors
    ///
    /// [`ChildFault::NotFound`] if the process is no supervisor of the crew, or does not wait for this child: then the program
    /// ends the process.
    pub fn child_started(&mut self, p: Pid, tag: u64, child: Pid) -> Result<(), ChildFault> {
        asked(unsafe { raw::pt_crew_child_started(self.handle.own(), p, tag, child) })
    }

    /// Tells a supervisor that the program has not started the child with this tag on another desk. It gives up if that was the
    /// first start of the child. A start after an exit counts as a restart, and it asks again. A child that
    /// [`start_child`](Crew::start_child) or [`restart_child`](Crew::restart_child) asked for is not wanted any more.
    ///
    /// # Errors
    ///
    /// [`ChildFault::NotFound`], as of [`child_started`](Crew::child_started).
    pub fn child_not_started(&mut self, p: Pid, tag: u64) -> Result<(), ChildFault> {
        asked(unsafe { raw::pt_crew_child_not_started(self.handle.own(), p, tag) })
    }

    /// Has a supervisor forget the child with this tag, which it ended or which is done: Erlang's `delete_child`. It returns the
    /// place that the child had. Those behind it move up.
    ///
    /// # Errors
    ///
    /// [`ChildFault::NotFound`], [`ChildFault::Running`], [`ChildFault::Restarting`].
    pub fn delete_child(&mut self, p: Pid, tag: u64) -> Result<usize, ChildFault> {
        let mut place = 0;
        asked(unsafe { raw::pt_crew_delete_child(self.handle.own(), p, tag, &mut place) })?;
        Ok(place)
    }

    /// How many children a supervisor has, or `None` if the process is no supervisor of the crew.
    pub fn count_children(&self, p: Pid) -> Option<ChildCounts> {
        let mut out = RawChildCounts::default();
        let code = unsafe { raw::pt_crew_count_children(&mut self.handle.lent(), p, &mut out) };
        found(code, out.into())
    }

    /// Why a supervisor gave up, or `None` if it has not, or if the process is no supervisor of the crew. It then ends its
    /// children and exits with [`Reason::Shutdown`]. Once its exit is told it is none of the crew.
    pub fn gave_up(&self, p: Pid) -> Option<GaveUp> {
        let mut out = RawGaveUp::default();
        let code = unsafe { raw::pt_crew_gave_up(&mut self.handle.lent(), p, &mut out) };
        found(code, out.into())
    }

    /// How many processes it has, supervisors too.
    #[inline]
    pub fn len(&self) -> usize {
        let mut out = 0;
        unsafe { raw::pt_crew_len(&mut self.handle.lent(), &mut out) };
        out
    }

    /// Whether it has no process.
    #[inline]
    pub fn is_empty(&self) -> bool {
        self.len() == 0
    }

    /// How many of its processes may have something to do.
    #[inline]
    pub fn queued(&self) -> usize {
        let mut out = 0;
        unsafe { raw::pt_crew_queued(&mut self.handle.lent(), &mut out) };
        out
    }

    /// Whether none is in the queue, and all that happened on the desk was read.
    ///
    /// # Errors
    ///
    /// [`Fault::WrongDesk`].
    #[inline]
    pub fn is_idle(&self, desk: &Desk) -> Result<bool, Fault> {
        self.is_of(desk)?;
        let mut out = false;
        unsafe { raw::pt_crew_is_idle(&mut self.handle.lent(), &mut desk.handle.lent(), &mut out) };
        Ok(out)
    }

    /// Whether a process was refused memory or a stamp in the last step.
    #[inline]
    pub fn refused(&self) -> bool {
        let mut out = false;
        unsafe { raw::pt_crew_refused(&mut self.handle.lent(), &mut out) };
        out
    }

    /// The same, without a lock.
    #[inline]
    pub(crate) fn was_refused(&mut self) -> bool {
        let mut out = false;
        unsafe { raw::pt_crew_refused(self.handle.own(), &mut out) };
        out
    }
}

/// The child in this place. The handle is that of a crew, and is lent to this call alone.
fn child_at(crew: &mut Handle, p: Pid, place: usize) -> Option<Child> {
    let mut out = RawChild::default();
    // SAFETY: the handle is the only one of its crew, and the reference is to a separate value.
    let code = unsafe { raw::pt_crew_child(crew, p, place, &mut out) };
    found(code, out.into())
}

fn raw_children(children: &[ChildSpec]) -> Vec<RawChildSpec> {
    children.iter().map(|&child| child.into()).collect()
}

/// A node that goes on: its desks, or the node that a refused [`go_on`] has left.
#[derive(Debug)]
pub enum Node {
    /// All desks of a node, each once and in order.
    Desks(Vec<Desk>),
    /// The gathered node, with what was handled so far.
    Gathered(Gathered),
    /// The settled node.
    Settled(Quiet),
}

impl From<Vec<Desk>> for Node {
    fn from(desks: Vec<Desk>) -> Node {
        Node::Desks(desks)
    }
}

/// A node that has not gone on, and why. Nothing is lost: the same call with this node and the same crews does the rest.
#[derive(Debug)]
pub struct NodeBack {
    /// Why it has not gone on.
    pub fault: Fault,
    /// The node, with what was done.
    pub node: Node,
}

impl fmt::Display for NodeBack {
    fn fmt(&self, f: &mut fmt::Formatter<'_>) -> fmt::Result {
        write!(f, "the node has not gone on: {}", self.fault)
    }
}

impl std::error::Error for NodeBack {}

/// So that `?` passes it on where a [`Fault`] is returned: the node is given up then.
impl From<NodeBack> for Fault {
    fn from(back: NodeBack) -> Fault {
        back.fault
    }
}

/// Goes on with a whole node, at any time between two steps: gathers its desks, settles it, takes its history, and resumes
/// it. Each crew goes on over the desk of its number, as by [`Crew::go_on`]. Returns the desks, with empty journals, and
/// what happened since they had empty journals last.
///
/// Each process of the crews does next what it was to do, and running ones may be answered as before. Each is in the queue,
/// supervisors too, so that the next steps find what it got, such as the exit of a supervisor's child. They tell of each
/// exit that was not told, with its reason: also if it exited in settling, and a loss told the reason
/// ([`Crew::next_loss`]). What the desks lost and keep, they keep.
///
/// ```
/// use pundewo::{Config, Crew, Next, Reason, What, go_on, open};
///
/// let mut desks = open(1, Config::default())?;
/// let mut crews = [Crew::new(&desks[0])?];
/// let pid = crews[0].spawn(&mut desks[0], 7, Next::Proceed)?;
/// desks[0].exit(pid, Reason::Other(3))?;
/// let (mut desks, history) = go_on(desks, &mut crews)?;
/// assert_eq!((history.count(), desks[0].event_count()), (2, 0));
/// let mut jobs = Vec::new();
/// crews[0].step(&mut desks[0], 64, 64, &mut jobs)?;
/// assert_eq!(jobs[0].what, What::Exit(Reason::Other(3), Next::Proceed));
/// # Ok::<(), pundewo::Fault>(())
/// ```
///
/// # Errors
///
/// The node comes back: as it was with [`Fault::NotOneNode`], if these are not all desks of one node, with
/// [`Fault::BadDesks`], if there are not as many crews as desks, and with [`Fault::WrongDesk`], if a crew is not that of
/// the desk at its place. With [`Fault::Memory`], or [`Fault::Worn`] if a clock is at its limit, it has what was done so
/// far. The crews are as they were.
pub fn go_on(node: impl Into<Node>, crews: &mut [Crew]) -> Result<(Vec<Desk>, History), NodeBack> {
    node.into().go_on(crews)
}

impl Node {
    /// Goes on with as many crews, each of the desk of its place.
    fn go_on(self, crews: &mut [Crew]) -> Result<(Vec<Desk>, History), NodeBack> {
        match self.origin_for(crews) {
            Ok(origin) => self.passed(origin, crews),
            Err(fault) => Err(NodeBack { fault, node: self }),
        }
    }

    /// What the desks of the node have in common, if it may go on with these.
    fn origin_for(&self, crews: &[Crew]) -> Result<Lineage, Fault> {
        let (origin, count) = match self {
            Node::Desks(desks) if !is_whole(desks) => return Err(Fault::NotOneNode),
            Node::Desks(desks) => (desks[0].origin, desks.len()),
            Node::Gathered(gathered) => (gathered.origin, gathered.desks().into()),
            Node::Settled(settled) => (settled.origin, settled.desks().into()),
        };
        if crews.len() != count {
            return Err(Fault::BadDesks);
        }
        let fits = |(crew, number): (&Crew, u8)| match self {
            Node::Desks(desks) => (crew.node, crew.number) == (desks[0].node, number),
            Node::Gathered(_) | Node::Settled(_) => (crew.opened, crew.number) == (origin.opened, number),
        };
        if crews.iter().zip(0..).all(fits) { Ok(origin) } else { Err(Fault::WrongDesk) }
    }

    /// The handles of the desks, which are empty where they are gathered; of the gathered node; and of the settled one.
    fn take(mut self, count: usize) -> (Vec<Handle>, Handle, Handle) {
        let mut taken = ((0..count).map(|_| NONE).collect(), NONE, NONE);
        match &mut self {
            Node::Desks(desks) => {
                taken.0 = desks.iter_mut().map(|desk| mem::replace(desk.handle.own(), NONE)).collect();
            }
            Node::Gathered(gathered) => taken.1 = mem::replace(gathered.handle.own(), NONE),
            Node::Settled(settled) => taken.2 = mem::replace(settled.handle.own(), NONE),
        }
        taken
    }

    fn passed(self, origin: Lineage, crews: &mut [Crew]) -> Result<(Vec<Desk>, History), NodeBack> {
        let node = if let Node::Desks(desks) = &self { Some(desks[0].node) } else { None };
        let (mut desks, mut gathered, mut settled) = self.take(crews.len());
        let mut history = NONE;
        let mut taken: Vec<Handle> = crews.iter_mut().map(|crew| mem::replace(crew.handle.own(), NONE)).collect();
        let (count, first, row) = (desks.len(), taken.as_mut_ptr(), desks.as_mut_ptr());
        // SAFETY: the handles are those of all desks of one node in order, or of that node, and of as many crews, each of
        // its desk; each is the only one, and that of the history is empty.
        let code = unsafe { raw::pt_crews_go_on(first, count, row, count, &mut gathered, &mut settled, &mut history) };
        for (crew, handle) in crews.iter_mut().zip(taken) {
            *crew.handle.own() = handle;
        }
        if code != OK {
            let node = if !gathered.at.is_null() {
                Node::Gathered(Gathered { handle: Held::new(gathered), origin })
            } else if !settled.at.is_null() {
                Node::Settled(Quiet { handle: Held::new(settled), origin })
            } else {
                Node::Desks(desks_again(desks, origin, node))
            };
            return Err(NodeBack { fault: fault_of(code), node });
        }
        let desks = desks_of(desks, origin);
        for (crew, desk) in crews.iter_mut().zip(&desks) {
            crew.node = desk.node;
        }
        Ok((desks, History { handle: Held::new(history) }))
    }
}

/// The desks that they were before, of this node.
fn desks_again(handles: Vec<Handle>, origin: Lineage, node: Option<u64>) -> Vec<Desk> {
    let mut desks = desks_of(handles, origin);
    if let Some(node) = node {
        desks.iter_mut().for_each(|desk| desk.node = node);
    }
    desks
}

/// That of [`Next::Wait`] for whatever comes.
const WAIT: RawNext = {
    let (pid, reference) = (Pid { shard: 0, slot: 0, version: 0 }, RawRef { desk: 0, number: 0 });
    let pick = RawPick { code: raw::PT_PICK_ANY, kind: 0, pid, reference };
    RawNext { code: raw::PT_NEXT_WAIT, reason: RawReason { code: 0, number: 0 }, until: 0, pick }
};

impl From<Next> for RawNext {
    #[inline]
    fn from(next: Next) -> RawNext {
        let blank = RawNext::default();
        match next {
            Next::Wait(pick) => RawNext { code: raw::PT_NEXT_WAIT, pick: pick.into(), ..blank },
            Next::WaitUntil(pick, until) => {
                RawNext { code: raw::PT_NEXT_WAIT_UNTIL, pick: pick.into(), until, ..blank }
            }
            Next::Proceed => RawNext { code: raw::PT_NEXT_PROCEED, ..blank },
            Next::Stop(reason) => RawNext { code: raw::PT_NEXT_STOP, reason: reason.into(), ..blank },
            Next::Running => RawNext { code: raw::PT_NEXT_RUNNING, ..blank },
        }
    }
}

impl From<RawNext> for Next {
    #[inline]
    fn from(raw: RawNext) -> Next {
        match raw.code {
            raw::PT_NEXT_WAIT => Next::Wait(raw.pick.into()),
            raw::PT_NEXT_WAIT_UNTIL => Next::WaitUntil(raw.pick.into(), raw.until),
            raw::PT_NEXT_PROCEED => Next::Proceed,
            raw::PT_NEXT_STOP => Next::Stop(raw.reason.into()),
            _ => Next::Running,
        }
    }
}

impl From<&RawJob> for Job {
    #[inline(always)]
    fn from(raw: &RawJob) -> Job {
        let what = match raw.code {
            raw::PT_JOB_START => {
                let origin = Origin { supervisor: raw.supervisor, again: raw.again };
                What::Start(raw.has_supervisor.then_some(origin))
            }
            raw::PT_JOB_PROCEED => What::Proceed,
            raw::PT_JOB_ITEM => What::Item(raw.item.into()),
            raw::PT_JOB_TIMEOUT => What::Timeout,
            _ => What::Exit(raw.reason.into(), raw.was.into()),
        };
        Job { pid: raw.pid, tag: raw.tag, what }
    }
}
