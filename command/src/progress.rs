//! A sign of life on standard error for work that takes over a second.
use crate::output::say;
use std::sync::mpsc::{channel, RecvTimeoutError, Sender};
use std::thread::{Builder, JoinHandle};
use std::time::{Duration, Instant};

/// Lives as long as the work; says what goes on after one second and every ten seconds from then on.
pub struct Progress {
    end: Option<Sender<()>>,
    watcher: Option<JoinHandle<()>>,
}

pub fn during(work: String) -> Progress {
    let (end, ended) = channel();
    // Without a thread the work goes on, only silently.
    let watcher = Builder::new().spawn(move || {
        let begin = Instant::now();
        let mut pause = Duration::from_secs(1);
        while let Err(RecvTimeoutError::Timeout) = ended.recv_timeout(pause) {
            say(&format!("{work}, {} s so far", begin.elapsed().as_secs()));
            pause = Duration::from_secs(10);
        }
    });
    Progress { end: Some(end), watcher: watcher.ok() }
}

impl Drop for Progress {
    fn drop(&mut self) {
        self.end = None;
        if let Some(watcher) = self.watcher.take() {
            let _ = watcher.join();
        }
    }
}
