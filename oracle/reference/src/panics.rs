use std::panic::{AssertUnwindSafe, catch_unwind, set_hook};

/// From here on a panic that is caught prints nothing.
pub fn quiet() {
    set_hook(Box::new(|_| {}));
}

/// What `call` answers, or the words of its panic.
pub fn answer_or_panic<T>(call: impl FnOnce() -> T) -> Result<T, String> {
    catch_unwind(AssertUnwindSafe(call)).map_err(|panic| {
        if let Some(words) = panic.downcast_ref::<&str>() {
            words.to_string()
        } else if let Some(words) = panic.downcast_ref::<String>() {
            words.clone()
        } else {
            "a panic without words".to_string()
        }
    })
}
