//! Catches the original's panics. Their messages are kept and not printed; other panics are printed as
//! usual.

use std::cell::{Cell, RefCell};
use std::panic::{AssertUnwindSafe, catch_unwind, set_hook, take_hook};
use std::sync::Once;

thread_local! {
    static CATCHING: Cell<bool> = const { Cell::new(false) };
    static MESSAGE: RefCell<String> = const { RefCell::new(String::new()) };
}

fn keep_messages() {
    let usual = take_hook();
    set_hook(Box::new(move |info| match CATCHING.get() {
        true => MESSAGE.set(info.payload_as_str().unwrap_or_default().to_owned()),
        false => usual(info),
    }));
}

/// The result, or the message of the panic on the way to it.
pub fn caught<T>(run: impl FnOnce() -> T) -> Result<T, String> {
    static HOOK: Once = Once::new();
    HOOK.call_once(keep_messages);
    CATCHING.set(true);
    let result = catch_unwind(AssertUnwindSafe(run));
    CATCHING.set(false);
    result.map_err(|_| MESSAGE.take())
}
