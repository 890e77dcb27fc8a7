//! Panics, caught and kept as text.

use std::{
    panic::{self, AssertUnwindSafe},
    sync::Mutex,
};

static PANIC: Mutex<String> = Mutex::new(String::new());

/// From here on a panic says nothing by itself; `guarded` gives its message.
pub fn keep_panics() {
    panic::set_hook(Box::new(|info| {
        if let Ok(mut text) = PANIC.lock() {
            *text = info.to_string().replace('\n', " ");
        }
    }));
}

/// Does the work; a panic becomes its message.
pub fn guarded<T>(work: impl FnOnce() -> T) -> Result<T, String> {
    panic::catch_unwind(AssertUnwindSafe(work)).map_err(|_| {
        let text = PANIC.lock().map(|text| text.clone());
        text.unwrap_or_default()
    })
}
