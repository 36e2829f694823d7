//! The floating-point environment that all bits rest on. Rust runs in it; a program that has C code change it, or that C
//! calls in another one, gets the same bits all the same: each call of the archive is made in the default one. Only the
//! module `bits` has the archive's functions as they are.

use std::{arch::asm, mem::MaybeUninit};

/// MXCSR's control bits: rounding, the exceptions' masks, and what becomes of subnormal numbers. The others are flags.
const CONTROL: u32 = 0xFFC0;

/// Rounding to nearest, no exception traps, subnormal numbers neither flushed to zero nor taken for zero.
const DEFAULT: u32 = 0x1F80;

#[inline]
fn control_word() -> u32 {
    let mut word = MaybeUninit::uninit();
    // SAFETY: it writes the four bytes of `word`, and nothing else.
    unsafe {
        asm!("stmxcsr [{}]", in(reg) word.as_mut_ptr(), options(nostack, preserves_flags));
        word.assume_init()
    }
}

/// # Safety
/// A word other than the default one has to be put back before Rust computes with floats again.
unsafe fn set_control_word(word: u32) {
    asm!("ldmxcsr [{}]", in(reg) &word, options(nostack, preserves_flags));
}

/// Makes a call of the archive in the default environment, and leaves the caller's as it was.
#[inline]
pub fn in_default<R>(call: impl FnOnce() -> R) -> R {
    if control_word() & CONTROL == DEFAULT {
        call()
    } else {
        in_another(call)
    }
}

/// Out of line, and it reads the word again, so that the usual way has nothing to keep for it.
#[cold]
#[inline(never)]
fn in_another<R>(call: impl FnOnce() -> R) -> R {
    let word = control_word();
    // SAFETY: the default, and then what was there before. No archive's function unwinds.
    unsafe {
        set_control_word(DEFAULT);
        let result = call();
        set_control_word(word);
        result
    }
}
