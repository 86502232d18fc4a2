//! Progress with rate and time left, on a terminal.
use crate::input::Position;
use crate::parts::is_regular;
use indicatif::{ProgressBar, ProgressDrawTarget, ProgressStyle};
use std::path::PathBuf;
use std::sync::atomic::Ordering::Relaxed;

pub struct Progress {
    bar: ProgressBar,
    position: Position,
}

impl Progress {
    /// Over the files' bytes as they are stored. Their number is not known of a pipe.
    pub fn new(files: &[PathBuf], position: Position, quiet: bool) -> Self {
        let known = files.iter().all(|file| is_regular(file));
        let total = files.iter().filter_map(|file| std::fs::metadata(file).ok()).map(|found| found.len()).sum();
        let bar = match known {
            true => ProgressBar::new(total),
            false => ProgressBar::new_spinner(),
        };
        // Indicatif draws nothing where standard error is no terminal.
        bar.set_draw_target(if quiet { ProgressDrawTarget::hidden() } else { ProgressDrawTarget::stderr() });
        let form = match known {
            true => "{wide_bar} {bytes}/{total_bytes} {bytes_per_sec} {eta} left",
            false => "{spinner} {bytes} {bytes_per_sec}",
        };
        if let Ok(style) = ProgressStyle::with_template(form) {
            bar.set_style(style);
        }
        Progress { bar, position }
    }

    pub fn step(&self) {
        self.bar.set_position(self.position.load(Relaxed));
    }
}

impl Drop for Progress {
    fn drop(&mut self) {
        self.bar.finish_and_clear();
    }
}
