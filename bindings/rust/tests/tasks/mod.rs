//! A small executor over the standard library, for tests.

use std::collections::VecDeque;
use std::future::Future;
use std::pin::{Pin, pin};
use std::sync::atomic::{AtomicBool, Ordering::SeqCst};
use std::sync::{Arc, Condvar, Mutex};
use std::task::{Context, Poll, Wake, Waker};
use std::thread::{self, JoinHandle, Thread};

struct Unparks(Thread);

impl Wake for Unparks {
    fn wake(self: Arc<Self>) {
        self.0.unpark();
    }
}

/// Runs a future on this thread.
pub fn block_on<T>(future: impl Future<Output = T>) -> T {
    let waker = Waker::from(Arc::new(Unparks(thread::current())));
    let mut future = pin!(future);
    loop {
        match future.as_mut().poll(&mut Context::from_waker(&waker)) {
            Poll::Ready(value) => return value,
            Poll::Pending => thread::park(),
        }
    }
}

type Work = Pin<Box<dyn Future<Output = ()> + Send>>;

struct Task {
    work: Mutex<Option<Work>>,
    queued: AtomicBool,
    ready: Arc<Ready>,
}

#[derive(Default)]
struct Ready {
    queue: Mutex<(VecDeque<Arc<Task>>, bool)>,
    bell: Condvar,
}

impl Wake for Task {
    fn wake(self: Arc<Self>) {
        if !self.queued.swap(true, SeqCst) {
            let ready = self.ready.clone();
            ready.queue.lock().expect("a queue").0.push_back(self);
            ready.bell.notify_one();
        }
    }
}

/// Threads that run tasks.
pub struct Pool {
    ready: Arc<Ready>,
    threads: Vec<JoinHandle<()>>,
}

impl Pool {
    pub fn new(threads: usize) -> Pool {
        let ready = Arc::new(Ready::default());
        let threads = (0..threads)
            .map(|_| {
                let ready = ready.clone();
                thread::spawn(move || {
                    while let Some(task) = next(&ready) {
                        run(task);
                    }
                })
            })
            .collect();
        Pool { ready, threads }
    }

    pub fn spawn(&self, work: impl Future<Output = ()> + Send + 'static) {
        let (work, queued) = (Mutex::new(Some(Box::pin(work) as Work)), AtomicBool::new(false));
        Arc::new(Task { work, queued, ready: self.ready.clone() }).wake();
    }
}

impl Drop for Pool {
    fn drop(&mut self) {
        self.ready.queue.lock().expect("a queue").1 = true;
        self.ready.bell.notify_all();
        self.threads.drain(..).for_each(|thread| thread.join().expect("a thread"));
    }
}

fn next(ready: &Ready) -> Option<Arc<Task>> {
    let queue = ready.queue.lock().expect("a queue");
    let mut queue = ready.bell.wait_while(queue, |(tasks, ends)| tasks.is_empty() && !*ends).expect("a queue");
    queue.0.pop_front()
}

fn run(task: Arc<Task>) {
    task.queued.store(false, SeqCst);
    let waker = Waker::from(task.clone());
    let mut work = task.work.lock().expect("a task");
    if let Some(future) = work.as_mut() {
        if future.as_mut().poll(&mut Context::from_waker(&waker)).is_ready() {
            *work = None;
        }
    }
}
