//! A bank whose handlers are here, and whose supervisors are the library's. The bank starts a clerk and a branch; the branch
//! is a supervisor too, and starts a teller. A clerk that breaks down is started again. A teller may break down once: the
//! second time its branch gives up, and the bank starts both again. The bank goes on through a pause. Then it takes on a clerk
//! for the evening, sends it home and takes its place away, and closes.

use pundewo::supervisors::{Child, ChildSpec, Restart, Shutdown, Strategy, SupervisorSpec};
use pundewo::{Body, Config, Crew, Desk, Item, Job, Next, Pick, Pid, Reason, What, gather, open};
use std::error::Error;

const NAMES: [&str; 5] = ["bank", "clerk", "branch", "teller", "evening clerk"];
const BANK: u64 = 0;
const CLERK: u64 = 1;
const BRANCH: u64 = 2;
const TELLER: u64 = 3;
const EVENING: u64 = 4;

const ASK: u32 = 1;
const BREAK: u32 = 2;

struct World {
    desks: Vec<Desk>,
    crew: Crew,
    owner: Pid,
}

fn print(now: u64, job: &Job) {
    let told = match job.what {
        What::Start(None) => "starts".into(),
        What::Start(Some(origin)) if origin.again => format!("starts again, under {}", origin.supervisor),
        What::Start(Some(origin)) => format!("starts, under {}", origin.supervisor),
        What::Proceed => "proceeds".into(),
        What::Item(item) => format!("gets {item}"),
        What::Timeout => "has waited long enough".into(),
        What::Exit(reason, _) => format!("has exited: {reason}"),
    };
    println!("{now} {} {told}", NAMES[job.tag as usize]);
}

impl World {
    /// A branch is a supervisor, which exits with the bank; the others wait for what is asked, and may break down.
    fn handle(&mut self, job: &Job) -> Result<(), Box<dyn Error>> {
        let next = match job.what {
            What::Exit(..) => return Ok(()),
            What::Start(Some(origin)) if job.tag == BRANCH => {
                let parent = Some(origin.supervisor);
                let branch = SupervisorSpec { strategy: Strategy::OneForAll, most: 1, span: 10, timed: true, parent };
                let teller = ChildSpec { shutdown: Shutdown::After(5), ..ChildSpec::new(TELLER) };
                return Ok(self.crew.supervise(job.pid, branch, &[teller])?);
            }
            What::Item(Item::User(_, body)) if body.kind == BREAK => Next::Stop(Reason::Other(7)),
            _ => Next::Wait(Pick::Any),
        };
        Ok(self.crew.answer(&[(job.pid, next)])?)
    }

    /// Steps until nobody has anything to do. After each turn the crew hears with which reason a signal ended whom.
    fn run(&mut self, now: u64) -> Result<(), Box<dyn Error>> {
        let mut jobs = Vec::new();
        self.crew.set_time(now);
        loop {
            let turned = self.desks[0].turn(64);
            while self.crew.next_loss(&mut self.desks[0])?.is_some() {}
            self.crew.step(&mut self.desks[0], 0, 8, &mut jobs)?;
            for job in &jobs {
                print(now, job);
                self.handle(job)?;
            }
            if turned.handled == 0 && self.desks[0].pending() == 0 && self.crew.is_idle(&self.desks[0])? {
                return Ok(());
            }
        }
    }

    fn children(&self, supervisor: Pid) -> Vec<Child> {
        self.crew.children(supervisor).expect("it is a supervisor")
    }

    fn child(&self, supervisor: Pid, place: usize) -> Pid {
        self.children(supervisor)[place].pid.expect("it was started")
    }

    fn tell(&mut self, to: Pid, kind: u32) -> Result<(), Box<dyn Error>> {
        Ok(self.desks[0].send(self.owner, to, Body { kind, num: 1, who: None })?)
    }

    /// One more child, as long as it is wanted: it ends by itself, starts again when it is asked for, is ended, and forgotten.
    fn evening(&mut self, bank: Pid) -> Result<(), Box<dyn Error>> {
        let clerk = ChildSpec { restart: Restart::Transient, ..ChildSpec::new(EVENING) };
        let place = self.crew.start_child(bank, clerk)?;
        self.run(5)?;
        let clerk = self.child(bank, place);
        self.desks[0].exit(clerk, Reason::Normal)?;
        self.run(6)?;
        self.crew.restart_child(bank, EVENING)?;
        self.run(7)?;
        self.crew.terminate_child(bank, EVENING)?;
        self.run(8)?;
        assert_eq!(self.crew.delete_child(bank, EVENING)?, place);
        Ok(())
    }

    /// The node is gathered, settled and resumed, and the crew goes on with its history.
    fn pause(self) -> Result<World, Box<dyn Error>> {
        let World { desks, mut crew, owner } = self;
        let settled = gather(desks)?.settle_unlisted()?;
        let history = settled.history()?;
        let desks = settled.resume()?;
        crew.go_on(&desks[0], &history)?;
        Ok(World { desks, crew, owner })
    }
}

fn main() -> Result<(), Box<dyn Error>> {
    let mut desks = open(1, Config::default())?;
    desks[0].keep_losses(true);
    let (crew, owner) = (Crew::new(&desks[0])?, desks[0].spawn()?);
    let mut world = World { desks, crew, owner };
    let spec = SupervisorSpec { most: 3, span: 100, timed: true, parent: Some(owner), ..SupervisorSpec::default() };
    let staff = [ChildSpec::new(CLERK), ChildSpec::new(BRANCH)];
    let bank = world.crew.spawn_supervisor(&mut world.desks[0], BANK, spec, &staff)?;
    world.run(0)?;
    world.tell(world.child(bank, 0), ASK)?;
    world.run(1)?;
    world.tell(world.child(bank, 0), BREAK)?;
    world.run(2)?;
    world.tell(world.child(world.child(bank, 1), 0), BREAK)?;
    let mut world = world.pause()?;
    world.run(3)?;
    world.tell(world.child(world.child(bank, 1), 0), BREAK)?;
    world.run(4)?;
    assert!(world.children(bank).iter().all(|child| child.wanted));
    world.evening(bank)?;
    world.desks[0].exit_signal(owner, bank, Reason::Shutdown)?;
    world.run(9)?;
    assert!(world.crew.is_empty());
    Ok(())
}
