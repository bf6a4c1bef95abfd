//! Why the Rust did not go on.
use bosing::executor::Error;
use std::any::Any;
use std::cell::Cell;
use std::panic::{self, AssertUnwindSafe};
use std::sync::Once;

/// The Rust's text, and document 01's number where its error or panic is that refusal.
#[derive(Debug, Clone, PartialEq)]
pub struct Refusal {
    pub number: Option<u8>,
    pub text: String,
}

/// How texts begin, the first that fits counts. For 8 the Rust has only the panics where a NaN would come out.
const NUMBERS: [(&str, u8); 13] = [
    ("Invalid ", 2),
    ("Addition resulted in NaN", 8),
    ("Subtraction resulted in NaN", 8),
    ("result should not be NaN", 8),
    ("Should be a valid phase value", 8),
    ("Reasonable align_level should not fail.: ", 8),
    ("Pulse start time", 9),
    ("Pulse start index", 10),
    ("Reasonable align_level should not fail.", 10),
    ("Time must be non-negative", 11),
    ("Pulse sample range", 12),
    ("Pulse end index", 12),
    ("capacity overflow", 12),
];

impl Refusal {
    pub fn new(text: impl Into<String>) -> Self {
        let text = text.into();
        let known = NUMBERS.iter().find(|(head, _)| text.starts_with(head));
        Self {
            number: known.map(|&(_, number)| number),
            text,
        }
    }
}

impl From<anyhow::Error> for Refusal {
    fn from(error: anyhow::Error) -> Self {
        Self::new(error.root_cause().to_string())
    }
}

impl From<Error> for Refusal {
    fn from(error: Error) -> Self {
        let number = match error {
            Error::NotEnoughDuration { .. } => 4,
            Error::ShapeNotFound(_) => 5,
            Error::NegativePlateau(_) => 6,
            Error::ChannelNotFound(_) => 7,
        };
        Self {
            number: Some(number),
            text: error.to_string(),
        }
    }
}

thread_local! {
    static CATCHING: Cell<bool> = const { Cell::new(false) };
}

/// What the work answers; a panic in it is a refusal, and is not printed.
pub fn caught<T>(work: impl FnOnce() -> Result<T, Refusal>) -> Result<T, Refusal> {
    static HOOK: Once = Once::new();
    HOOK.call_once(|| {
        let print = panic::take_hook();
        panic::set_hook(Box::new(move |info| {
            if !CATCHING.get() {
                print(info);
            }
        }));
    });
    let outer = CATCHING.replace(true);
    let answer = panic::catch_unwind(AssertUnwindSafe(work));
    CATCHING.set(outer);
    answer.unwrap_or_else(|payload| Err(Refusal::new(text(payload))))
}

fn text(payload: Box<dyn Any + Send>) -> String {
    match payload.downcast::<String>() {
        Ok(text) => *text,
        Err(payload) => payload
            .downcast_ref::<&str>()
            .map_or("", |text| text)
            .into(),
    }
}
