//! What the examples share: how they watch themselves, and how they wait.

use std::fmt::Display;
use std::sync::{Mutex, MutexGuard};
use std::time::Duration;

/// For each page, the frame that it was granted in last, and how many grants of it are open.
pub struct Grants(Vec<(u8, u32)>);

impl Grants {
    pub fn none(pages: u32) -> Grants {
        Grants(vec![(0, 0); pages as usize])
    }

    /// A page that is held has one frame, and a frame that is held has one page.
    pub fn granted(&mut self, page: u32, frame: u8) {
        for (other, &(its_frame, open)) in self.0.iter().enumerate() {
            if open > 0 && (other == page as usize) != (its_frame == frame) {
                fail(format!("page {page} was granted in frame {frame} while page {other} was held in {its_frame}"))
            }
        }
        let (its_frame, open) = &mut self.0[page as usize];
        *its_frame = frame;
        *open += 1;
    }

    pub fn released(&mut self, page: u32) {
        self.0[page as usize].1 -= 1;
    }
}

/// After a refusal by 15. Clients that all came back at once would all be refused again: each waits for another time,
/// and longer from try to try, up to some two milliseconds.
pub fn wait_a_little(client: u8, tries: u32) {
    std::thread::sleep(Duration::from_micros((20 + 5 * u64::from(client)) << tries.min(5)));
}

/// Says what is wrong and ends the program.
pub fn fail<T>(why: impl Display) -> T {
    eprintln!("error: {why}");
    std::process::exit(1)
}

pub fn lock<T>(shared: &Mutex<T>) -> MutexGuard<'_, T> {
    shared.lock().unwrap_or_else(fail)
}
