//! Notes from which lines tables are read and written, so that the order in which the
//! unchanged pass names identifiers, and the place it names them from, can be read off.

use std::cell::{Cell, RefCell};
use std::panic::Location;

/// A write by index: the row, the line of the write, and the lines of the two reads before it.
#[derive(Clone, Copy, Debug)]
pub struct Write {
    pub index: usize,
    pub line: u32,
    pub read: u32,
    pub read_before: u32,
}

thread_local! {
    static READS: Cell<(u32, u32)> = const { Cell::new((0, 0)) };
    static WRITES: RefCell<Vec<Write>> = const { RefCell::new(Vec::new()) };
}

#[inline]
#[track_caller]
pub(crate) fn read() {
    let line = Location::caller().line();
    READS.with(|reads| reads.set((reads.get().1, line)));
}

#[inline]
#[track_caller]
pub(crate) fn write(index: usize) {
    let line = Location::caller().line();
    let (read_before, read) = READS.with(Cell::get);
    WRITES.with(|writes| writes.borrow_mut().push(Write { index, line, read, read_before }));
}

/// The writes since the last call, in order.
pub fn take() -> Vec<Write> {
    WRITES.with(|writes| std::mem::take(&mut *writes.borrow_mut()))
}
