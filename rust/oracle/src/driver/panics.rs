//! Catching panics of the copied files, quietly, and telling 5 and 6 apart.

use std::cell::{Cell, RefCell};
use std::panic::{self, AssertUnwindSafe, PanicHookInfo};
use std::sync::Once;

/// What is known of a caught panic.
pub struct Caught {
    /// 5, 6, or 0 for neither.
    pub number: u8,
    pub message: String,
}

thread_local! {
    static CATCHING: Cell<bool> = const { Cell::new(false) };
    static LAST: RefCell<Option<Caught>> = const { RefCell::new(None) };
}

/// Runs the work; a panic in it is caught, and not printed.
pub fn caught<T>(work: impl FnOnce() -> T) -> Result<T, Caught> {
    install_hook();
    let before = CATCHING.replace(true);
    let result = panic::catch_unwind(AssertUnwindSafe(work));
    CATCHING.set(before);
    result.map_err(|_| {
        LAST.take().unwrap_or_else(|| Caught {
            number: 0,
            message: "a panic whose message was not seen".to_string(),
        })
    })
}

/// The hook stays silent only on threads that are catching, so that panics
/// of the calling program are shown as ever.
fn install_hook() {
    static ONCE: Once = Once::new();
    ONCE.call_once(|| {
        let before = panic::take_hook();
        panic::set_hook(Box::new(move |info| {
            if CATCHING.get() {
                LAST.set(Some(seen(info)));
            } else {
                before(info);
            }
        }));
    });
}

fn seen(info: &PanicHookInfo) -> Caught {
    let message = info.payload_as_str().unwrap_or("").to_string();
    let file = info.location().map_or("", |location| location.file());
    // Only the operators of expr.rs may count as 5 or 6; an overflow anywhere
    // else would be a fault of the driver or of the storage.
    let number = if file.ends_with("internal/expr.rs") {
        number_of(&message)
    } else {
        0
    };
    Caught { number, message }
}

fn number_of(message: &str) -> u8 {
    match message {
        "attempt to add with overflow"
        | "attempt to subtract with overflow"
        | "attempt to multiply with overflow"
        | "attempt to divide with overflow"
        | "attempt to negate with overflow" => 5,
        "attempt to shift left with overflow"
        | "attempt to shift right with overflow" => 6,
        _ => 0,
    }
}
