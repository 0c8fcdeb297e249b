//! The calls of include/gwaunidor.h under the same names, of the proved library
//! and of the quick program.

use crate::border::{self, AmountsBytes, ReportBytes, StateBytes, TableBytes};

pub struct Calls {
    pub read: fn(&[u8], &mut TableBytes) -> u32,
    pub check: fn(&TableBytes) -> u32,
    pub report: fn(&TableBytes, &mut ReportBytes) -> u32,
    pub bound: fn(&TableBytes, u32, &mut u32) -> u32,
    pub fresh: fn(&TableBytes, &AmountsBytes, &mut StateBytes) -> u32,
    pub step: fn(&TableBytes, &mut StateBytes, u32) -> u32,
    pub post: fn(&TableBytes, &mut StateBytes, u32, i64) -> u32,
    pub run: fn(&TableBytes, &mut StateBytes, u32, &mut u32) -> u32,
    pub write: fn(&TableBytes, &mut [u8], &mut u32) -> u32,
    pub size: fn(&TableBytes, &mut u32) -> u32,
    pub lines: fn(&[u8], &mut [u8], &mut u32) -> u32,
    pub rows: fn(&[u8], &mut ReportBytes) -> u32,
}

macro_rules! calls_of {
    ($program:ident) => {
        Calls {
            read: $program::read,
            check: $program::check,
            report: $program::report,
            bound: $program::bound,
            fresh: $program::fresh,
            step: $program::step,
            post: $program::post,
            run: $program::run,
            write: $program::write,
            size: $program::size,
            lines: $program::lines,
            rows: $program::rows,
        }
    };
}

pub static LIBRARY: Calls = calls_of!(border);
pub static QUICK: Calls = calls_of!(quick);
