//! The processor's floating-point mode (MXCSR): rounding, flush-to-zero, denormals-are-zero and which exceptions trap. The library is
//! made for the default one, and Rust's own code as well.

#[cfg(not(target_arch = "x86_64"))]
compile_error!("libmascon.a is made for x86-64");

use std::arch::asm;
use std::hint::black_box;

/// As at program start: to nearest, with subnormals, nothing traps.
const DEFAULT: u32 = 0x1f80;
/// All but the flags of exceptions that have been raised.
const CONTROL: u32 = 0xffc0;

// Neither is `pure` or `nomem`: calls, and reads and writes of memory, stay on their side.

pub(super) fn read() -> u32 {
    let mut word = 0_u32;
    unsafe { asm!("stmxcsr [{}]", in(reg) &mut word, options(nostack, preserves_flags)) };
    word
}

pub(super) fn load(word: u32) {
    unsafe { asm!("ldmxcsr [{}]", in(reg) &word, options(nostack)) };
}

/// A mode that holds until this is dropped.
pub(super) struct Mode {
    /// The caller's word, where it was another mode.
    callers: Option<u32>,
}

impl Mode {
    pub(super) fn set_default() -> Mode {
        let word = read();
        let other = word & CONTROL != DEFAULT;
        if other {
            load(DEFAULT);
        }
        Mode {
            callers: other.then_some(word),
        }
    }
}

impl Drop for Mode {
    fn drop(&mut self) {
        if let Some(word) = self.callers {
            load(word);
        }
    }
}

/// Does what is judged or computed here, not in the library, in the default mode as well.
pub(crate) fn in_default_mode<T>(work: impl FnOnce() -> T) -> T {
    let _mode = Mode::set_default();
    // Float steps may be moved past a load; not so where what goes in and what comes out is hidden.
    black_box(black_box(work)())
}
