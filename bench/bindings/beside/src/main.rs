//! beside WORKLOAD TIMES: does a workload so many times in tokio's tasks on one thread, and prints nothing. `bench/beside.py`
//! measures it.

use std::error::Error;
use std::time::Duration;
use tokio::sync::mpsc::{unbounded_channel, UnboundedReceiver, UnboundedSender};
use tokio::sync::oneshot;
use tokio::time::timeout;

type Fault = Box<dyn Error + Send + Sync>;

/// How long a call may take.
const LIMIT: Duration = Duration::from_secs(600);

/// One of two tasks that send each other a message.
async fn player(mut from: UnboundedReceiver<u64>, to: UnboundedSender<u64>) {
    while let Some(left) = from.recv().await {
        // (the other one may have ended)
        let _ = to.send(left.saturating_sub(1));
        if left == 0 {
            return;
        }
    }
}

async fn messages(times: u64) -> Result<(), Fault> {
    let ((to_one, one), (to_other, other)) = (unbounded_channel(), unbounded_channel());
    to_one.send(times)?;
    let (first, second) = (
        tokio::spawn(player(one, to_other)),
        tokio::spawn(player(other, to_one)),
    );
    first.await?;
    Ok(second.await?)
}

async fn calls(times: u64) -> Result<(), Fault> {
    let (to_server, mut server) = unbounded_channel::<(u64, oneshot::Sender<u64>)>();
    let serves = tokio::spawn(async move {
        while let Some((number, reply)) = server.recv().await {
            let _ = reply.send(number + 1);
        }
    });
    for number in 0..times {
        let (reply, answer) = oneshot::channel();
        to_server.send((number, reply))?;
        timeout(LIMIT, answer).await??;
    }
    drop(to_server);
    Ok(serves.await?)
}

async fn spawns(times: u64) -> Result<(), Fault> {
    for _ in 0..times {
        tokio::spawn(async {}).await?;
    }
    Ok(())
}

fn main() -> Result<(), Fault> {
    let words: Vec<String> = std::env::args().collect();
    let [_, workload, times] = &words[..] else {
        return Err("wanted: beside WORKLOAD TIMES".into());
    };
    let times: u64 = times.parse()?;
    let runtime = tokio::runtime::Builder::new_current_thread()
        .enable_time()
        .build()?;
    match workload.as_str() {
        "message" => runtime.block_on(messages(times)),
        "call" => runtime.block_on(calls(times)),
        "spawn" => runtime.block_on(spawns(times)),
        _ => Err(format!("no workload '{workload}'").into()),
    }
}
