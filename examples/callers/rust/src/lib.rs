//! A safe call of the library colregs: a scenario and a log in memory in, the report of one mode out.
//!
//! ```no_run
//! let report = colregs::report(colregs::Mode::Plan, b"..", b"..", b"", &colregs::Options::default())?;
//! # Ok::<(), colregs::OutOfMemory>(())
//! ```

use std::error::Error;
use std::fmt;

/// The number of the interface that this crate calls.
const INTERFACE: u32 = 1;
const OWN_START: u64 = u64::MAX;
const OWN_TICKS: u32 = 0;
const OUT_OF_MEMORY: u8 = 8;

/// The options as numbers, as C lays them out.
#[repr(C)]
struct Numbers {
    start: u64,
    ticks: u32,
    seed: u32,
    flags: u32,
}

unsafe extern "C" {
    fn colregs_interface() -> u32;
    fn colregs_report(
        mode: u32,
        scenario: *const u8,
        scenario_length: usize,
        log: *const u8,
        log_length: usize,
        rows: *const u8,
        rows_length: usize,
        options: *const Numbers,
        out: *mut u8,
        room: usize,
        length: *mut usize,
        fault: *mut u8,
        fault_room: usize,
        fault_length: *mut usize,
    ) -> u8;
}

/// What to do.
#[derive(Clone, Copy, Debug, PartialEq, Eq)]
#[repr(u32)]
pub enum Mode {
    Points = 0,
    Audit = 1,
    Plan = 2,
    Drill = 3,
    Migrate = 4,
    Recheck = 5,
    Watch = 6,
}

/// The options of a call.
#[derive(Clone, Debug, PartialEq, Eq)]
pub struct Options {
    /// The start of the window, in seconds since the Unix epoch, at most 9999999999, instead of the scenario's own.
    pub start: Option<u64>,
    /// The length of the window, in ticks, 1 to 20000, instead of the scenario's own.
    pub ticks: Option<u32>,
    /// The seed of a drill's log, at most 999999.
    pub seed: u32,
    /// Whether a plan says why every plan fails.
    pub why: bool,
}

impl Default for Options {
    fn default() -> Options {
        Options { start: None, ticks: None, seed: 1, why: false }
    }
}

impl Options {
    /// Returns the options as numbers. What means nothing stays out of its range, and does not become the scenario's own.
    fn numbers(&self) -> Numbers {
        Numbers {
            start: self.start.map_or(OWN_START, |start| start.min(OWN_START - 1)),
            ticks: self.ticks.map_or(OWN_TICKS, |ticks| if ticks == OWN_TICKS { u32::MAX } else { ticks }),
            seed: self.seed,
            flags: u32::from(self.why),
        }
    }
}

/// A report and how the call ended.
#[derive(Clone, Debug, PartialEq, Eq)]
pub struct Report {
    /// The exit status of the program.
    pub status: u8,
    /// The report.
    pub text: Vec<u8>,
    /// The line of standard error, with its line feed; empty if the status is 0 or 1.
    pub fault: Vec<u8>,
}

/// Memory ran out.
#[derive(Clone, Copy, Debug, PartialEq, Eq)]
pub struct OutOfMemory;

impl fmt::Display for OutOfMemory {
    fn fmt(&self, f: &mut fmt::Formatter<'_>) -> fmt::Result {
        f.write_str("out of memory")
    }
}

impl Error for OutOfMemory {}

/// Returns the report of a mode on a log. `rows` are the rows `why` that a recheck checks.
///
/// # Panics
/// If the library that is linked has another interface.
pub fn report(mode: Mode, scenario: &[u8], log: &[u8], rows: &[u8], options: &Options) -> Result<Report, OutOfMemory> {
    // SAFETY: it takes nothing and reads nothing.
    assert_eq!(unsafe { colregs_interface() }, INTERFACE, "libcolregs.a has another interface");
    let numbers = options.numbers();
    let mut text = vec![0; 4096];
    let mut fault = vec![0; 256];
    loop {
        let (mut length, mut fault_length) = (0, 0);
        // SAFETY: each pointer is that of a slice, a vector or a variable, never null, and valid for its length; what is written is borrowed by this function alone.
        let status = unsafe {
            colregs_report(
                mode as u32,
                scenario.as_ptr(),
                scenario.len(),
                log.as_ptr(),
                log.len(),
                rows.as_ptr(),
                rows.len(),
                &numbers,
                text.as_mut_ptr(),
                text.len(),
                &mut length,
                fault.as_mut_ptr(),
                fault.len(),
                &mut fault_length,
            )
        };
        if status == OUT_OF_MEMORY {
            return Err(OutOfMemory);
        }
        let fits = length <= text.len() && fault_length <= fault.len();
        // A vector that was too small gets the length that it needs, and the second call fits.
        text.resize(length, 0);
        fault.resize(fault_length, 0);
        if fits {
            return Ok(Report { status, text, fault });
        }
    }
}
