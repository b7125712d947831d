//! The calls of the library, as `cefindrato.h` and `cefindrato_checker.h` have them.
use crate::lit::Lit;
use crate::{DratOptions, Format};
use std::ffi::c_void;
use std::ptr::null_mut;

pub const VERIFIED: u8 = 0;
pub const NOT_VERIFIED: u8 = 3;
pub const OUT_OF_MEMORY: u8 = 4;

/// A buffer for the text of a fault.
pub fn text_buffer() -> [u8; 512] {
    [0; 512]
}

#[repr(C)]
pub struct Text {
    pub len: usize,
    pub whole: usize,
}

#[repr(C)]
pub struct LratAnswer {
    pub status: u8,
    pub text: Text,
}

#[repr(C)]
pub struct DratAnswer {
    pub status: u8,
    pub lrat: Text,
    pub core: Text,
    pub text: Text,
}

#[repr(C)]
pub struct ModelAnswer {
    pub status: u8,
    pub text: Text,
    pub clause: u64,
    pub line: u64,
}

#[repr(C)]
pub struct CheckerAnswer {
    pub status: u8,
    pub cause: u8,
    pub step: u64,
}

#[repr(C)]
struct Handle {
    at: *mut c_void,
    held: bool,
}

#[repr(C)]
struct Options {
    format: u8,
    lrat: bool,
    core: bool,
}

extern "C" {
    fn cefindrato_lrat_check(
        cnf: *const u8,
        cnf_len: usize,
        proof: *const u8,
        proof_len: usize,
        text: *mut u8,
        text_size: usize,
    ) -> LratAnswer;
    fn cefindrato_drat_check(
        cnf: *const u8,
        cnf_len: usize,
        proof: *const u8,
        proof_len: usize,
        options: Options,
        lrat: *mut u8,
        lrat_size: usize,
        core: *mut u8,
        core_size: usize,
        text: *mut u8,
        text_size: usize,
    ) -> DratAnswer;
    fn cefindrato_model_check(
        cnf: *const u8,
        cnf_len: usize,
        answer: *const u8,
        answer_len: usize,
        text: *mut u8,
        text_size: usize,
    ) -> ModelAnswer;
    fn cefindrato_version() -> u32;
    fn cefindrato_checker_begin(checker: *mut Handle) -> CheckerAnswer;
    fn cefindrato_checker_end(checker: *mut Handle);
    fn cefindrato_checker_add_clause(checker: *mut Handle, clause: *const Lit, clause_len: usize) -> CheckerAnswer;
    fn cefindrato_checker_check_step(
        checker: *mut Handle,
        kind: u8,
        lits: *const Lit,
        lits_len: usize,
        hashes: *const u64,
        hashes_len: usize,
    ) -> CheckerAnswer;
    fn cefindrato_checker_unsat(checker: *mut Handle) -> bool;
}

// SAFETY, of each call: a pointer and its length are of one slice, no slice has a null pointer, and buffers and handles are borrowed
// mutably, so they overlap nothing. The library keeps no pointer. A literal is the 32 bits of its DIMACS number.

pub fn lrat_check(cnf: &[u8], proof: &[u8], text: &mut [u8]) -> LratAnswer {
    unsafe {
        cefindrato_lrat_check(cnf.as_ptr(), cnf.len(), proof.as_ptr(), proof.len(), text.as_mut_ptr(), text.len())
    }
}

pub fn drat_check(
    cnf: &[u8],
    proof: &[u8],
    options: DratOptions,
    lrat: &mut [u8],
    core: &mut [u8],
    text: &mut [u8],
) -> DratAnswer {
    let format = match options.format {
        Format::Detected => 0,
        Format::Drat => 1,
        Format::Frat => 2,
        Format::Lpr => 3,
    };
    let options = Options { format, lrat: options.lrat, core: options.core };
    unsafe {
        cefindrato_drat_check(
            cnf.as_ptr(),
            cnf.len(),
            proof.as_ptr(),
            proof.len(),
            options,
            lrat.as_mut_ptr(),
            lrat.len(),
            core.as_mut_ptr(),
            core.len(),
            text.as_mut_ptr(),
            text.len(),
        )
    }
}

pub fn model_check(cnf: &[u8], answer: &[u8], text: &mut [u8]) -> ModelAnswer {
    unsafe {
        cefindrato_model_check(cnf.as_ptr(), cnf.len(), answer.as_ptr(), answer.len(), text.as_mut_ptr(), text.len())
    }
}

pub fn version() -> u32 {
    unsafe { cefindrato_version() }
}

/// A checker that the library keeps, or none.
pub struct Checker(Handle);

// SAFETY: what the library keeps belongs to no thread.
unsafe impl Send for Checker {}

impl Default for Checker {
    fn default() -> Checker {
        Checker(Handle { at: null_mut(), held: false })
    }
}

impl Drop for Checker {
    fn drop(&mut self) {
        unsafe { cefindrato_checker_end(&mut self.0) }
    }
}

impl Checker {
    pub fn is_begun(&self) -> bool {
        self.0.held
    }

    pub fn begin(&mut self) -> CheckerAnswer {
        unsafe { cefindrato_checker_begin(&mut self.0) }
    }

    pub fn add_clause(&mut self, clause: &[Lit]) -> CheckerAnswer {
        unsafe { cefindrato_checker_add_clause(&mut self.0, clause.as_ptr(), clause.len()) }
    }

    pub fn check_step(&mut self, kind: u8, lits: &[Lit], hashes: &[u64]) -> CheckerAnswer {
        unsafe {
            cefindrato_checker_check_step(&mut self.0, kind, lits.as_ptr(), lits.len(), hashes.as_ptr(), hashes.len())
        }
    }

    pub fn unsat(&mut self) -> bool {
        unsafe { cefindrato_checker_unsat(&mut self.0) }
    }
}
