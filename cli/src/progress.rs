//! A line on standard error where a call takes over a second.

use std::io::{IsTerminal, Write, stderr};
use std::sync::mpsc::{RecvTimeoutError, Sender, channel};
use std::thread::{self, JoinHandle};
use std::time::{Duration, Instant};

/// After how long something is said, and how often it is said again on a terminal.
const PATIENCE: Duration = Duration::from_secs(1);

/// While it lives, a second thread counts the seconds.
pub struct Progress {
    done: Option<Sender<()>>,
    teller: Option<JoinHandle<()>>,
}

impl Progress {
    pub fn begin(what: &'static str) -> Progress {
        let (done, ended) = channel::<()>();
        let teller = thread::spawn(move || {
            let begun = Instant::now();
            let terminal = stderr().is_terminal();
            let mut said = false;
            while let Err(RecvTimeoutError::Timeout) = ended.recv_timeout(PATIENCE) {
                let line = format!("audala: {what}, {} s", begun.elapsed().as_secs());
                if terminal {
                    let _ = write!(stderr(), "\r{line}");
                } else if !said {
                    let _ = writeln!(stderr(), "{line} so far");
                }
                said = true;
            }
            if said && terminal {
                let _ = write!(stderr(), "\r\x1b[K");
            }
        });
        Progress { done: Some(done), teller: Some(teller) }
    }
}

impl Drop for Progress {
    fn drop(&mut self) {
        drop(self.done.take());
        if let Some(teller) = self.teller.take() {
            let _ = teller.join();
        }
    }
}
