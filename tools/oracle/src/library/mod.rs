//! The proved library, in a build that links it: its functions on two images and on
//! one, and what is run through them beside the oracle.

use crate::answer::Verdict;

#[cfg(vexil)]
pub mod bench;
mod guarded;
pub mod hammer;
mod held;
#[cfg(vexil)]
mod realistic;
#[cfg(second)]
pub mod second;
#[cfg(vexil)]
mod timed;
#[cfg(vexil)]
mod worst;

type VerdictCall = unsafe extern "C" fn(*const u8, usize, *const u8, usize, u64) -> u64;
type ValuesCall = unsafe extern "C" fn(*const u8, usize, *const u8, usize, *mut u64, usize) -> u64;
type ReportCall = unsafe extern "C" fn(*const u8, usize, *const u8, usize, *mut u8, usize) -> u64;

// As in include/vexil_compat.h: the images, and the selector or the buffer.
macro_rules! calls {
    ($calls:ident, $verdict:ident, $values:ident, $report:ident) => {
        extern "C" {
            fn $verdict(o: *const u8, m: usize, n: *const u8, k: usize, selector: u64) -> u64;
            fn $values(
                o: *const u8,
                m: usize,
                n: *const u8,
                k: usize,
                v: *mut u64,
                p: usize,
            ) -> u64;
            fn $report(o: *const u8, m: usize, n: *const u8, k: usize, t: *mut u8, r: usize)
                -> u64;
        }

        pub const $calls: Calls = Calls {
            verdict: $verdict,
            values: $values,
            report: $report,
        };
    };
}

/// The calls of one verdict.
pub struct Calls {
    verdict: VerdictCall,
    values: ValuesCall,
    report: ReportCall,
}

calls!(
    PLAIN,
    vexil_compat_verdict,
    vexil_compat_values,
    vexil_compat_report
);
calls!(
    IMPORTS,
    vexil_compat_imports_verdict,
    vexil_compat_imports_values,
    vexil_compat_imports_report
);
calls!(
    MENDED,
    vexil_compat_mended_verdict,
    vexil_compat_mended_values,
    vexil_compat_mended_report
);

pub fn calls_of(verdict: Verdict) -> &'static Calls {
    match verdict {
        Verdict::Plain => &PLAIN,
        Verdict::Imports => &IMPORTS,
        Verdict::Mended => &MENDED,
    }
}

impl Calls {
    pub fn verdict(&self, old: &[u8], new: &[u8], selector: u64) -> u64 {
        // A slice's pointer is valid for its length and never null; the callee only reads.
        unsafe { (self.verdict)(old.as_ptr(), old.len(), new.as_ptr(), new.len(), selector) }
    }

    pub fn values(&self, old: &[u8], new: &[u8], out: &mut [u64]) -> u64 {
        let (place, room) = (out.as_mut_ptr(), out.len());
        // As above; `out` overlaps neither image, for it is borrowed alone.
        unsafe {
            (self.values)(
                old.as_ptr(),
                old.len(),
                new.as_ptr(),
                new.len(),
                place,
                room,
            )
        }
    }

    pub fn report(&self, old: &[u8], new: &[u8], out: &mut [u8]) -> u64 {
        let (place, room) = (out.as_mut_ptr(), out.len());
        // As above.
        unsafe {
            (self.report)(
                old.as_ptr(),
                old.len(),
                new.as_ptr(),
                new.len(),
                place,
                room,
            )
        }
    }
}

extern "C" {
    fn vexil_compat_listing(image: *const u8, m: usize, t: *mut u8, r: usize) -> u64;
    fn vexil_compat_listing_verdict(image: *const u8, m: usize, r: u64, selector: u64) -> u64;
}

/// Writes the contents of one image.
pub fn listing(image: &[u8], out: &mut [u8]) -> u64 {
    let (place, room) = (out.as_mut_ptr(), out.len());
    // As above.
    unsafe { vexil_compat_listing(image.as_ptr(), image.len(), place, room) }
}

/// What the call above answers for a buffer of `room` bytes.
pub fn listing_verdict(image: &[u8], room: u64, selector: u64) -> u64 {
    // As above; no buffer is lent.
    unsafe { vexil_compat_listing_verdict(image.as_ptr(), image.len(), room, selector) }
}
