//! The steps of a save, and a fault at a chosen one, for tests.

use std::io;
use std::path::Path;

#[cfg(test)]
pub(crate) use planned::{with, Fault, Ran};

#[derive(Clone, Copy, Debug, PartialEq, Eq)]
pub(crate) enum Step {
    Create,
    Write,
    Rights,
    Sync,
    Rename,
    SyncFolder,
    Remove,
}

/// Meets the fault that a test has planned for this step; `part` is what of the step is done all the same.
#[cfg(not(test))]
pub(crate) fn meet(_: Step, _: &Path, _: impl FnOnce()) -> io::Result<()> {
    Ok(())
}

#[cfg(test)]
pub(crate) use planned::meet;

#[cfg(test)]
mod planned {
    use super::{io, Path, Step};
    use std::cell::RefCell;
    use std::panic::{catch_unwind, resume_unwind, AssertUnwindSafe};

    #[derive(Clone, Copy, Debug)]
    pub(crate) enum Fault {
        /// The run ends there: nothing that follows is done, no clean-up either.
        Kill,
        /// The step fails with this error of the system.
        Once(i32),
        /// It and all that follow fail.
        FromOn(i32),
    }

    /// What a killed run ends with.
    struct Killed;

    #[derive(Default)]
    struct Plan {
        fault: Option<(usize, Fault)>,
        taken: Vec<(Step, String)>,
    }

    thread_local! {
        static PLAN: RefCell<Plan> = RefCell::default();
    }

    /// What a call did under a fault.
    pub(crate) struct Ran<T> {
        /// Its answer, none where it was killed.
        pub(crate) answer: Option<T>,
        /// The steps that it took or was to take, each with the name of its file where it has one.
        pub(crate) taken: Vec<(Step, String)>,
    }

    /// Makes a call with a fault at a step, from 0.
    pub(crate) fn with<T>(at: usize, fault: Fault, call: impl FnOnce() -> T) -> Ran<T> {
        PLAN.replace(Plan {
            fault: Some((at, fault)),
            taken: Vec::new(),
        });
        let answer = match catch_unwind(AssertUnwindSafe(call)) {
            Ok(answer) => Some(answer),
            Err(cause) if cause.is::<Killed>() => None,
            Err(cause) => resume_unwind(cause),
        };
        let taken = PLAN.take().taken;
        Ran { answer, taken }
    }

    pub(crate) fn meet(step: Step, path: &Path, part: impl FnOnce()) -> io::Result<()> {
        let fault = PLAN.with_borrow_mut(|plan| {
            let now = plan.taken.len();
            let name = path.file_name().unwrap_or_default();
            plan.taken.push((step, name.to_string_lossy().into_owned()));
            let fault = plan.fault?;
            match fault {
                (at, Fault::FromOn(_)) if now >= at => Some(fault.1),
                (at, _) if now == at => Some(fault.1),
                _ => None,
            }
        });
        match fault {
            None => Ok(()),
            Some(Fault::Kill) => {
                part();
                resume_unwind(Box::new(Killed))
            }
            Some(Fault::Once(error) | Fault::FromOn(error)) => {
                part();
                Err(io::Error::from_raw_os_error(error))
            }
        }
    }
}
