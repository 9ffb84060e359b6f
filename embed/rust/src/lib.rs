//! The proved monitor of Mission-time LTL: a safe wrapper of its C library, without dependencies and without `std`.
//!
//! A [`Monitor`] is closed when it is dropped. It is `Send`: one thread may open it and another may pass it rows. Opening a
//! monitor allocates, and nothing else does: by `malloc`, or with the feature `arena` from an array of the caller.
//!
//! ```no_run
//! # fn main() -> Result<(), r2u2::Error> {
//! let program = [0; 276]; // the bytes of a compiled program
//! let mut monitor = r2u2::Monitor::open_under(&program, b"# request,grant")?;
//! for report in monitor.row(&[1, 0])? {
//!     let _ = (report.output, report.time, report.word);
//! }
//! # Ok(())
//! # }
//! ```
#![no_std]
#![warn(missing_docs, missing_debug_implementations)]

#[cfg(feature = "arena")]
pub mod arena;

use core::cell::UnsafeCell;
use core::ffi::c_void;
use core::fmt;

const DONE: u32 = 0;
const REFUSED: u32 = 3;
const REPORTS_LEFT: u32 = 5;
const NOT_A_ROW: u32 = 6;
const DAMAGED: u32 = 9;
const NO_ROOM: u32 = 10;
/// Bytes that hold each name with its zero byte.
const NAME_BYTES: usize = 65;

#[repr(C)]
struct Struct {
    at: *mut c_void,
    rows: u64,
    width: u32,
    outputs: u32,
    signals: u32,
    steps: u64,
    most_reports: u64,
}

impl Struct {
    const fn closed() -> Struct {
        Struct { at: core::ptr::null_mut(), rows: 0, width: 0, outputs: 0, signals: 0, steps: 0, most_reports: 0 }
    }
}

#[repr(C)]
struct RawFault {
    kind: u32,
    part: u32,
    place: u64,
    text: [u8; 96],
}

impl RawFault {
    fn none() -> RawFault {
        RawFault { kind: 0, part: 0, place: 0, text: [0; 96] }
    }

    /// The result of a call with this code.
    fn unless_done(&self, code: u32) -> Result<(), Error> {
        match code {
            DONE => Ok(()),
            REFUSED => Err(Error::Refused {
                kind: self.kind,
                part: self.part,
                place: self.place,
                text: Text::before_zero(&self.text),
            }),
            DAMAGED => Err(Error::Damaged),
            _ => Err(Error::NoMemory),
        }
    }
}

#[repr(C)]
#[derive(Default)]
struct RawRowFault {
    why: u32,
    column: u32,
}

impl RawRowFault {
    /// The result of a call with this code that took rows.
    fn unless_done(&self, code: u32) -> Result<(), Error> {
        match code {
            DONE => Ok(()),
            REPORTS_LEFT => Err(Error::ReportsLeft),
            NOT_A_ROW => Err(Error::NotARow { column: self.column }),
            NO_ROOM => Err(Error::NoRoom),
            _ => Err(Error::TooManyRows),
        }
    }
}

extern "C" {
    fn r2u2_open(it: *mut Struct, program: *const u8, count: usize, fault: *mut RawFault) -> u32;
    fn r2u2_open_under(
        it: *mut Struct,
        program: *const u8,
        count: usize,
        header: *const u8,
        header_count: usize,
        fault: *mut RawFault,
    ) -> u32;
    fn r2u2_open_checked(
        it: *mut Struct,
        program: *const u8,
        count: usize,
        digest: *const u8,
        fault: *mut RawFault,
    ) -> u32;
    fn r2u2_bytes(program: *const u8, count: usize, bytes: *mut u64, fault: *mut RawFault) -> u32;
    fn r2u2_width(it: *const Struct) -> u32;
    fn r2u2_outputs(it: *const Struct) -> u32;
    fn r2u2_rows(it: *const Struct) -> u64;
    fn r2u2_delay(it: *mut Struct, k: u32) -> u32;
    fn r2u2_steps(it: *const Struct) -> u64;
    fn r2u2_most_reports(it: *const Struct) -> u64;
    fn r2u2_output_kind(it: *mut Struct, k: u32) -> u32;
    fn r2u2_signals(it: *const Struct) -> u32;
    fn r2u2_signal(it: *mut Struct, k: u32, column: *mut u32, kind: *mut u32, name: *mut u8, count: usize) -> u32;
    fn r2u2_version() -> u32;
    fn r2u2_name(it: *mut Struct, k: u32, buffer: *mut u8, count: usize) -> u32;
    fn r2u2_row(it: *mut Struct, numbers: *const i64, count: usize, fault: *mut RawRowFault) -> u32;
    fn r2u2_next(it: *mut Struct, style: u32, report: *mut Report) -> u32;
    fn r2u2_next_many(it: *mut Struct, style: u32, reports: *mut Report, room: usize, count: *mut usize) -> u32;
    fn r2u2_row_many(
        it: *mut Struct,
        style: u32,
        numbers: *const i64,
        count: usize,
        reports: *mut Report,
        room: usize,
        batch: *mut Batch,
        fault: *mut RawRowFault,
    ) -> u32;
    fn r2u2_reset(it: *mut Struct) -> u32;
    fn r2u2_close_struct(it: *mut Struct);
}

/// A text of at most 96 bytes: a name or a message.
#[derive(Clone, Copy, PartialEq, Eq)]
pub struct Text {
    bytes: [u8; 96],
    len: usize,
}

impl Text {
    /// The bytes before the first zero byte.
    fn before_zero(from: &[u8]) -> Text {
        let len = from.iter().position(|byte| *byte == 0).unwrap_or(from.len()).min(96);
        let mut bytes = [0; 96];
        bytes[..len].copy_from_slice(&from[..len]);
        Text { bytes, len }
    }

    /// Returns the text. Names and messages of the library are ASCII.
    #[must_use]
    pub fn as_str(&self) -> &str {
        core::str::from_utf8(&self.bytes[..self.len]).unwrap_or("")
    }
}

impl core::ops::Deref for Text {
    type Target = str;

    fn deref(&self) -> &str {
        self.as_str()
    }
}

impl fmt::Display for Text {
    fn fmt(&self, out: &mut fmt::Formatter<'_>) -> fmt::Result {
        out.write_str(self.as_str())
    }
}

impl fmt::Debug for Text {
    fn fmt(&self, out: &mut fmt::Formatter<'_>) -> fmt::Result {
        fmt::Debug::fmt(self.as_str(), out)
    }
}

/// Why a call failed.
#[derive(Clone, Debug, PartialEq, Eq)]
#[non_exhaustive]
pub enum Error {
    /// The program or the header has a fault.
    Refused {
        /// The kind, an `r2u2_fault_kind` of `r2u2.h`.
        kind: u32,
        /// The part of the instruction: 1 bz, 2 ft, 3 pt; 0 if the fault has none.
        part: u32,
        /// The byte, instruction, output or signal, counted from 0.
        place: u64,
        /// The message, as `operand ft 3`.
        text: Text,
    },
    /// Out of memory.
    NoMemory,
    /// Ask for the reports of the last row first.
    ReportsLeft,
    /// The number of this column, counted from 0, doesn't fit, or it is the first that is missing or too many.
    NotARow {
        /// The column, counted from 0.
        column: u32,
    },
    /// 1,099,511,627,776 rows were taken.
    TooManyRows,
    /// The program has another digest.
    Damaged,
    /// Less room than the reports of one row may need.
    NoRoom,
}

impl fmt::Display for Error {
    fn fmt(&self, out: &mut fmt::Formatter<'_>) -> fmt::Result {
        match self {
            Error::Refused { text, .. } => out.write_str(text),
            Error::NoMemory => out.write_str("out of memory"),
            Error::ReportsLeft => out.write_str("reports left"),
            Error::NotARow { column } => write!(out, "no number that fits in column {}", column + 1),
            Error::TooManyRows => out.write_str("too many rows"),
            Error::Damaged => out.write_str("damaged"),
            Error::NoRoom => out.write_str("no room"),
        }
    }
}

impl core::error::Error for Error {}

/// The word of an output at a time.
#[repr(u32)]
#[derive(Clone, Copy, Debug, Default, PartialEq, Eq)]
pub enum Word {
    /// The formula is false.
    #[default]
    False = 0,
    /// The formula is true.
    True = 1,
    /// The assumption of a contract is false.
    Inactive = 2,
    /// The assumption of a contract is true, and its guarantee is false.
    Invalid = 3,
    /// Both formulas of a contract are true.
    Verified = 4,
}

impl fmt::Display for Word {
    fn fmt(&self, out: &mut fmt::Formatter<'_>) -> fmt::Result {
        out.write_str(match self {
            Word::False => "F",
            Word::True => "T",
            Word::Inactive => "inactive",
            Word::Invalid => "invalid",
            Word::Verified => "verified",
        })
    }
}

/// The verdict of an output at a time. The library writes it: it is laid out as `struct r2u2_report`, without padding.
#[repr(C)]
#[derive(Clone, Copy, Debug, Default, PartialEq, Eq)]
pub struct Report {
    /// The time in rows, the first of which has time 0.
    pub time: u64,
    /// The output, counted from 0.
    pub output: u32,
    /// The verdict.
    pub word: Word,
}

const _: () = assert!(size_of::<Report>() == 16 && size_of::<Struct>() == 48 && size_of::<RawFault>() == 112);

/// The numbers of rows and reports of one call.
#[repr(C)]
#[derive(Clone, Copy, Debug, Default, PartialEq, Eq)]
pub struct Batch {
    /// The rows that were taken.
    pub rows: usize,
    /// The reports that were written.
    pub reports: usize,
}

/// How times are reported.
#[derive(Clone, Copy, Debug, PartialEq, Eq)]
pub enum Style {
    /// One by one.
    Each = 0,
    /// One report for each longest run of newly known times with one word, with its last time.
    Runs = 1,
}

/// A signal that a program stores.
#[derive(Clone, Copy, Debug, PartialEq, Eq)]
pub struct Signal {
    /// The name.
    pub name: Text,
    /// The column, counted from 0.
    pub column: u32,
    /// Whether it is Boolean; otherwise it is an integer.
    pub truth: bool,
}

/// Returns the version of the library: 10,000, 100 and 1 times its three numbers.
#[must_use]
pub fn version() -> u32 {
    // SAFETY: it takes nothing.
    unsafe { r2u2_version() }
}

/// An open monitor. Queries take `&self`, and one thread makes them at a time: it isn't `Sync`.
pub struct Monitor {
    // Some queries write to the struct while they run, and leave it as it was.
    it: UnsafeCell<Struct>,
}

impl Monitor {
    /// Opens the program of these bytes.
    ///
    /// # Errors
    ///
    /// `Refused` with the first fault of the program, `NoMemory`.
    pub fn open(program: &[u8]) -> Result<Monitor, Error> {
        // SAFETY: the struct is all zero, the fault was written, and both pointers have their true counts.
        Monitor::by(|it, fault| unsafe { r2u2_open(it, program.as_ptr(), program.len(), fault) })
    }

    /// Opens a program with its signals in the columns of a header, as `#request,grant`.
    ///
    /// # Errors
    ///
    /// `Refused` with the first fault of the program or of the header, `NoMemory`.
    pub fn open_under(program: &[u8], header: &[u8]) -> Result<Monitor, Error> {
        // SAFETY: as above.
        Monitor::by(|it, fault| unsafe {
            r2u2_open_under(it, program.as_ptr(), program.len(), header.as_ptr(), header.len(), fault)
        })
    }

    /// Opens the program of these bytes if its SHA-256 is the digest.
    ///
    /// # Errors
    ///
    /// `Damaged` if the program has another digest; `Refused` with its first fault, `NoMemory`.
    pub fn open_checked(program: &[u8], digest: &[u8; 32]) -> Result<Monitor, Error> {
        // SAFETY: as above, and the digest has its 32 bytes.
        Monitor::by(|it, fault| unsafe {
            r2u2_open_checked(it, program.as_ptr(), program.len(), digest.as_ptr(), fault)
        })
    }

    fn by(call: impl FnOnce(*mut Struct, *mut RawFault) -> u32) -> Result<Monitor, Error> {
        let mut monitor = Monitor { it: UnsafeCell::new(Struct::closed()) };
        let mut fault = RawFault::none();
        let code = allocating(|| call(monitor.it.get_mut(), &raw mut fault));
        fault.unless_done(code).map(|()| monitor)
    }

    /// Returns how many bytes a monitor of this program holds while it is open.
    ///
    /// # Errors
    ///
    /// `Refused` with the first fault of the program, `NoMemory`.
    pub fn bytes(program: &[u8]) -> Result<u64, Error> {
        let (mut bytes, mut fault) = (0, RawFault::none());
        // SAFETY: both results were written, and the pointer has its true count.
        let code =
            allocating(|| unsafe { r2u2_bytes(program.as_ptr(), program.len(), &raw mut bytes, &raw mut fault) });
        fault.unless_done(code).map(|()| bytes)
    }

    /// Returns how many numbers a row has.
    #[must_use]
    pub fn width(&self) -> u32 {
        // SAFETY: the struct has an open monitor, here and below.
        unsafe { r2u2_width(self.it.get()) }
    }

    /// Returns how many outputs there are.
    #[must_use]
    pub fn outputs(&self) -> u32 {
        // SAFETY: as above.
        unsafe { r2u2_outputs(self.it.get()) }
    }

    /// Returns how many rows were taken.
    #[must_use]
    pub fn rows(&self) -> u64 {
        // SAFETY: as above.
        unsafe { r2u2_rows(self.it.get()) }
    }

    /// Returns the worst-case delay of an output in rows, if there is one of this number.
    #[must_use]
    pub fn delay(&self, output: u32) -> Option<u32> {
        // SAFETY: as above. No other reference to the struct is used meanwhile: the monitor isn't `Sync`, here and below.
        (output < self.outputs()).then(|| unsafe { r2u2_delay(self.it.get(), output) })
    }

    /// Returns the most steps of one row, from taking it to its last report.
    #[must_use]
    pub fn steps(&self) -> u64 {
        // SAFETY: as above.
        unsafe { r2u2_steps(self.it.get()) }
    }

    /// Returns the most reports that one row brings, in either style.
    #[must_use]
    pub fn most_reports(&self) -> u64 {
        // SAFETY: as above.
        unsafe { r2u2_most_reports(self.it.get()) }
    }

    /// Returns whether an output is an assume-guarantee contract, if there is one of this number; else it is a formula.
    #[must_use]
    pub fn is_contract(&self, output: u32) -> Option<bool> {
        // SAFETY: as above.
        (output < self.outputs()).then(|| unsafe { r2u2_output_kind(self.it.get(), output) == 2 })
    }

    /// Returns the signals that the program stores, in order of declaration.
    pub fn signals(&self) -> impl Iterator<Item = Signal> + '_ {
        // SAFETY: as above.
        let count = unsafe { r2u2_signals(self.it.get()) };
        (0..count).filter_map(move |k| self.signal(k))
    }

    /// Returns signal `k`, counted from 0 in order of declaration, if there is one.
    #[must_use]
    pub fn signal(&self, k: u32) -> Option<Signal> {
        let (mut column, mut kind, mut buffer) = (0, 0, [0; NAME_BYTES]);
        // SAFETY: as above; the results were written, and the buffer has its true count.
        let length =
            unsafe { r2u2_signal(self.it.get(), k, &raw mut column, &raw mut kind, buffer.as_mut_ptr(), buffer.len()) };
        (length > 0).then(|| Signal { name: Text::before_zero(&buffer), column, truth: kind == 1 })
    }

    /// Returns the name of an output, if there is one of this number.
    #[must_use]
    pub fn name(&self, output: u32) -> Option<Text> {
        let mut buffer = [0; NAME_BYTES];
        // SAFETY: as above, and the buffer has its true count.
        let length = unsafe { r2u2_name(self.it.get(), output, buffer.as_mut_ptr(), buffer.len()) };
        (length > 0).then(|| Text::before_zero(&buffer))
    }

    /// Takes a row, and returns its reports. Reports that the caller doesn't iterate over stay, and the next row isn't taken
    /// before them.
    ///
    /// # Errors
    ///
    /// `ReportsLeft`, `NotARow` and `TooManyRows`: the first of these that holds; the monitor is unchanged then.
    pub fn row(&mut self, numbers: &[i64]) -> Result<Reports<'_>, Error> {
        let mut fault = RawRowFault::default();
        // SAFETY: the pointer of a slice is aligned and not null, even of an empty one.
        let code = unsafe { r2u2_row(self.it.get_mut(), numbers.as_ptr(), numbers.len(), &raw mut fault) };
        fault.unless_done(code).map(|()| self.reports(Style::Each))
    }

    /// Takes rows one after another, [`width`](Monitor::width) numbers each without gaps, and writes the reports of each to
    /// `reports` before it takes the next. Returns how many rows and reports there were. It stops before a row whose reports
    /// might not fit, and before a row that can't be taken: call it again with the rest of the numbers.
    ///
    /// # Errors
    ///
    /// `NoRoom` if there is less room than [`most_reports`](Monitor::most_reports); `ReportsLeft`, `NotARow` and
    /// `TooManyRows` if the first row can't be taken. The monitor is unchanged then.
    pub fn row_many(&mut self, numbers: &[i64], style: Style, reports: &mut [Report]) -> Result<Batch, Error> {
        let (mut batch, mut fault) = (Batch::default(), RawRowFault::default());
        // SAFETY: as above; slices don't overlap, and the library writes reports with the words that there are.
        let code = unsafe {
            r2u2_row_many(
                self.it.get_mut(),
                style as u32,
                numbers.as_ptr(),
                numbers.len(),
                reports.as_mut_ptr(),
                reports.len(),
                &raw mut batch,
                &raw mut fault,
            )
        };
        fault.unless_done(code).map(|()| batch)
    }

    /// Writes the next reports of the rows so far to `reports`, as many as there is room for, and returns how many. If they
    /// are fewer than the room, none is left.
    pub fn next_many(&mut self, style: Style, reports: &mut [Report]) -> usize {
        let mut count = 0;
        // SAFETY: as above. The monitor is open, so the code is always 0.
        unsafe {
            r2u2_next_many(self.it.get_mut(), style as u32, reports.as_mut_ptr(), reports.len(), &raw mut count)
        };
        count
    }

    /// Resets the monitor to its state before the first row, in the memory that it has.
    pub fn reset(&mut self) {
        // SAFETY: as above. It is open, so the code is always 0.
        unsafe { r2u2_reset(self.it.get_mut()) };
    }

    /// Returns the reports that are left.
    pub fn reports(&mut self, style: Style) -> Reports<'_> {
        Reports { monitor: self, style }
    }
}

impl fmt::Debug for Monitor {
    fn fmt(&self, out: &mut fmt::Formatter<'_>) -> fmt::Result {
        let (width, outputs, rows) = (self.width(), self.outputs(), self.rows());
        out.debug_struct("Monitor").field("width", &width).field("outputs", &outputs).field("rows", &rows).finish()
    }
}

// SAFETY: the library proves `Send` of its struct, and no call is made from two threads at once.
unsafe impl Send for Monitor {}

impl Drop for Monitor {
    fn drop(&mut self) {
        // SAFETY: the struct has an open monitor, or is all zero.
        allocating(|| unsafe { r2u2_close_struct(self.it.get_mut()) });
    }
}

/// Makes a call that allocates or frees: from an arena by one thread at a time.
fn allocating<T>(call: impl FnOnce() -> T) -> T {
    #[cfg(feature = "arena")]
    let _lock = arena::lock();
    call()
}

/// The reports of the rows so far.
#[derive(Debug)]
#[must_use = "the next row isn't taken before these reports are read"]
pub struct Reports<'a> {
    monitor: &'a mut Monitor,
    style: Style,
}

impl Reports<'_> {
    /// Returns the same reports in this style.
    pub fn by(self, style: Style) -> Self {
        Reports { style, ..self }
    }
}

impl Iterator for Reports<'_> {
    type Item = Report;

    fn next(&mut self) -> Option<Report> {
        let mut report = Report::default();
        // SAFETY: as above, and the report was written.
        let code = unsafe { r2u2_next(self.monitor.it.get_mut(), self.style as u32, &raw mut report) };
        (code == DONE).then_some(report)
    }
}
