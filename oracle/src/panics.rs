//! Catches the Rust's panics and tells by the place in its source which refusal of document 01 each is.

use std::{
    cell::{Cell, RefCell},
    panic::{self, AssertUnwindSafe},
    sync::Once,
};

/// What a watched run throws where document 01 refuses and the Rust would go on.
pub struct Thrown(pub u32);

pub enum Caught {
    /// Refusals 10 to 15.
    Panic(u32),
    /// Refusals 20 to 22, in watched runs only.
    Thrown(u32),
    /// A panic that document 01 does not know of.
    Unknown(String),
}

thread_local! {
    static CATCHING: Cell<bool> = const { Cell::new(false) };
    static PLACE: RefCell<(String, u32, u32)> = const { RefCell::new((String::new(), 0, 0)) };
}

static HOOK: Once = Once::new();

pub fn caught<T>(run: impl FnOnce() -> T) -> Result<T, Caught> {
    HOOK.call_once(|| {
        let usual = panic::take_hook();
        panic::set_hook(Box::new(move |info| {
            if !CATCHING.get() {
                return usual(info);
            }
            if let Some(at) = info.location() {
                PLACE.set((at.file().to_string(), at.line(), at.column()))
            }
        }))
    });
    CATCHING.set(true);
    let answer = panic::catch_unwind(AssertUnwindSafe(run));
    CATCHING.set(false);
    answer.map_err(|payload| match payload.downcast_ref::<Thrown>() {
        Some(Thrown(number)) => Caught::Thrown(*number),
        None => PLACE.with_borrow(|(file, line, column)| refusal(file, *line, *column)),
    })
}

/// The panicking call or assertion stands at that place of the Rust's source.
fn refusal(file: &str, line: u32, column: u32) -> Caught {
    let unknown = || Caught::Unknown(format!("{file}:{line}:{column}"));
    let text = if file.ends_with("reference_safety/mod.rs") {
        crate::MOD_RS
    } else if file.ends_with("reference_safety/abstract_state.rs") {
        crate::ABSTRACT_STATE_RS
    } else {
        return unknown();
    };
    let Some(line) = text.lines().nth(line as usize - 1) else { return unknown() };
    let (before, at) = line.split_at(column as usize - 1);
    let ends = |what| before.ends_with(what);
    let asserts = |what| at.starts_with("assert!(") && at.contains(what);
    if ends("stack.pop().") {
        Caught::Panic(10)
    } else if ends("ref_id().") || asserts("is_value()") {
        Caught::Panic(11)
    } else if ends("locals.get(&local).") || ends("locals.remove(&local).") {
        Caught::Panic(12)
    } else if asserts("borrow_graph.is_mutable(id)") {
        Caught::Panic(13)
    } else if asserts("stack.is_empty()") {
        Caught::Panic(14)
    } else if asserts("v1 == v2") {
        Caught::Panic(15)
    } else {
        unknown()
    }
}
