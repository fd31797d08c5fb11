//! The line that says how long a search has taken, on a terminal, once it takes longer than a moment.

use indicatif::{ProgressBar, ProgressDrawTarget, ProgressStyle};
use std::sync::atomic::{AtomicUsize, Ordering};
use std::sync::mpsc::{self, Receiver, RecvTimeoutError, Sender};
use std::sync::Arc;
use std::thread::{self, JoinHandle};
use std::time::{Duration, Instant};

/// Before this nothing is shown.
const MOMENT: Duration = Duration::from_millis(500);
const TICK: Duration = Duration::from_millis(100);

/// Shows the line while it lives; standard error is then as it was.
pub struct Progress {
    done: Option<Sender<()>>,
    shown: Option<JoinHandle<()>>,
    steps: Arc<AtomicUsize>,
}

impl Progress {
    /// Starts the line; a quiet one is never shown.
    pub fn start(doing: &'static str, quiet: bool) -> Progress {
        Progress::counting(doing, 0, quiet)
    }

    /// Starts a line with a bar for so many steps; without steps there is none.
    pub fn counting(doing: &'static str, all: usize, quiet: bool) -> Progress {
        let steps = Arc::new(AtomicUsize::new(0));
        if quiet {
            return Progress { done: None, shown: None, steps };
        }
        let (done, told) = mpsc::channel();
        let (begun, taken) = (Instant::now(), Arc::clone(&steps));
        let shown = thread::spawn(move || show(doing, all, &taken, begun, &told));
        Progress { done: Some(done), shown: Some(shown), steps }
    }

    /// One more step is done.
    pub fn step(&self) {
        self.steps.fetch_add(1, Ordering::Relaxed);
    }
}

impl Drop for Progress {
    fn drop(&mut self) {
        drop(self.done.take());
        if let Some(shown) = self.shown.take() {
            let _ = shown.join();
        }
    }
}

/// Waits a moment, then draws the line until the sender is gone. Indicatif draws on terminals alone.
fn show(doing: &'static str, all: usize, steps: &AtomicUsize, begun: Instant, done: &Receiver<()>) {
    if done.recv_timeout(MOMENT) != Err(RecvTimeoutError::Timeout) {
        return;
    }
    let template = if all > 0 { "{bar:30} {msg}: {pos} of {len}, {elapsed}" } else { "{spinner} {msg}: {elapsed}" };
    let style = ProgressStyle::with_template(template).expect("the template is well formed");
    let line = ProgressBar::with_draw_target(Some(all as u64).filter(|_| all > 0), ProgressDrawTarget::stderr())
        .with_style(style)
        .with_elapsed(begun.elapsed())
        .with_message(doing);
    crate::signals::erase_on_interrupt();
    line.tick();
    while done.recv_timeout(TICK) == Err(RecvTimeoutError::Timeout) {
        line.set_position(steps.load(Ordering::Relaxed) as u64);
        line.tick();
    }
    line.finish_and_clear();
}
