//! The calls that the proved libraries export, for Rust on x86-64: those of nedluvo.h behind functions that are safe to call. What a caller in C answers for,
//! lengths, alignment, values and no overlap, slices and references bring with them; the stack is still the caller's to provide (library/README.md).
//! Each call reads and judges the case text anew. `Err` has the number of a refusal (docs/FORMATS.md, "The numbers"), and then all that was lent is as it was.
#![allow(dead_code)]

/// No case text may have more bytes; one that has is refused with 1.
pub const CASE_BYTES: usize = 4096;
/// No line of a plan has more bytes, its end included.
pub const LINE_BYTES: usize = 45;
/// Refused: a table or a buffer is too short.
pub const SPACE: u8 = 9;
/// In a figure table: this placement has no figure.
pub const NONE: u32 = u32::MAX;

/// What a search notes between its rounds.
pub type Marks = [u32; 61440];

/// In a table of runs: there is no way from the one section to the other.
pub const NO_RUN: u8 = 255;

/// The shortest runs of a heading: `table[x - 1][y - 1]` is how many sections a train enters at least on its way from section x to section y, or `NO_RUN`,
/// which also stands in the rows and columns of sections that the case does not have.
pub type Runs = [[u8; 48]; 48];

/// A check of a plan, kept by the caller from call to call.
pub struct Check([u32; 3]);

/// A search, kept by the caller from call to call.
pub struct Search([u32; 3]);

impl Search {
    /// How many rounds are finished.
    pub fn rounds(&self) -> u32 {
        self.0[0]
    }
}

/// What a call for the plan's lines gives: so many bytes of lines; or no line is left; or there is no plan.
pub enum Lines {
    Written(usize),
    End,
    NoPlan,
}

/// What a placement shows.
pub enum Shown {
    Figure(u32),
    NotYet,
    Without,
}

extern "C" {
    #[link_name = "solve_case"]
    fn c_solve(text: *const u8, bytes: usize, figures: *mut u32, figure_entries: usize, settings: *mut u32, setting_entries: usize) -> u8;
    #[link_name = "write_plan_lines"]
    fn c_write(
        text: *const u8, bytes: usize, figures: *const u32, figure_entries: usize, settings: *const u32, setting_entries: usize, place: *mut u64, out: *mut u8,
        room: usize, written: *mut usize,
    ) -> u8;
    #[link_name = "begin_check"]
    fn c_begin(text: *const u8, bytes: usize, state: *mut u32, figures: *mut u32, figure_entries: usize, settings: *mut u32, setting_entries: usize) -> u8;
    #[link_name = "take_plan_lines"]
    fn c_take(
        text: *const u8, bytes: usize, state: *mut u32, plan: *const u8, plan_bytes: usize, figures: *mut u32, figure_entries: usize, settings: *mut u32,
        setting_entries: usize, taken: *mut usize,
    ) -> u8;
    #[link_name = "test_plan"]
    fn c_test(text: *const u8, bytes: usize, state: *const u32, figures: *const u32, figure_entries: usize, settings: *const u32, setting_entries: usize) -> u8;
    #[link_name = "open_search"]
    fn c_open(
        text: *const u8, bytes: usize, state: *mut u32, figures: *mut u32, figure_entries: usize, settings: *mut u32, setting_entries: usize, marks: *mut u32,
    ) -> u8;
    #[link_name = "search_round"]
    fn c_round(
        text: *const u8, bytes: usize, state: *mut u32, figures: *mut u32, figure_entries: usize, settings: *mut u32, setting_entries: usize, marks: *mut u32,
    ) -> u8;
    #[link_name = "look_up"]
    fn c_look(
        text: *const u8, bytes: usize, state: *const u32, figures: *const u32, figure_entries: usize, settings: *const u32, setting_entries: usize,
        sections: *const u8, figure: *mut u32,
    ) -> u8;
    #[link_name = "runs_case"]
    fn c_runs(text: *const u8, bytes: usize, up: *mut u8, down: *mut u8) -> u8;
}

/// Fills both tables, also where the start has no figure.
pub fn solve_case(text: &[u8], figures: &mut [u32], settings: &mut [u32]) -> Result<(), u8> {
    match unsafe { c_solve(text.as_ptr(), text.len(), figures.as_mut_ptr(), figures.len(), settings.as_mut_ptr(), settings.len()) } {
        0 => Ok(()),
        number => Err(number),
    }
}

/// The plan's lines from a place on (0 at first), as many as have room in `out`; the place is moved behind them.
pub fn write_plan_lines(text: &[u8], figures: &[u32], settings: &[u32], place: &mut u64, out: &mut [u8]) -> Result<Lines, u8> {
    let mut written = 0;
    let answer = unsafe {
        c_write(
            text.as_ptr(), text.len(), figures.as_ptr(), figures.len(), settings.as_ptr(), settings.len(), place, out.as_mut_ptr(), out.len(), &mut written,
        )
    };
    match answer {
        0 => Ok(Lines::Written(written)),
        255 => Ok(Lines::End),
        254 => Ok(Lines::NoPlan),
        number => Err(number),
    }
}

/// A check begins: both tables are made fresh.
pub fn begin_check(text: &[u8], figures: &mut [u32], settings: &mut [u32]) -> Result<Check, u8> {
    let mut check = Check([0; 3]);
    let answer =
        unsafe { c_begin(text.as_ptr(), text.len(), check.0.as_mut_ptr(), figures.as_mut_ptr(), figures.len(), settings.as_mut_ptr(), settings.len()) };
    match answer {
        0 => Ok(check),
        number => Err(number),
    }
}

/// Takes the lines in front of a plan's text up to the first that is refused, and says how many bytes they have.
pub fn take_plan_lines(text: &[u8], check: &mut Check, plan: &[u8], figures: &mut [u32], settings: &mut [u32]) -> Result<usize, u8> {
    let mut taken = 0;
    let answer = unsafe {
        c_take(
            text.as_ptr(), text.len(), check.0.as_mut_ptr(), plan.as_ptr(), plan.len(), figures.as_mut_ptr(), figures.len(), settings.as_mut_ptr(),
            settings.len(), &mut taken,
        )
    };
    match answer {
        0 => Ok(taken),
        number => Err(number),
    }
}

/// The lines taken are a plan that passes; else `Err` with 10 (there are none) or 11 (it fails).
pub fn test_plan(text: &[u8], check: &Check, figures: &[u32], settings: &[u32]) -> Result<(), u8> {
    match unsafe { c_test(text.as_ptr(), text.len(), check.0.as_ptr(), figures.as_ptr(), figures.len(), settings.as_ptr(), settings.len()) } {
        0 => Ok(()),
        number => Err(number),
    }
}

/// Opens a search of which no round is finished.
pub fn open_search(text: &[u8], figures: &mut [u32], settings: &mut [u32], marks: &mut Marks) -> Result<Search, u8> {
    let mut search = Search([0; 3]);
    let answer = unsafe {
        c_open(
            text.as_ptr(), text.len(), search.0.as_mut_ptr(), figures.as_mut_ptr(), figures.len(), settings.as_mut_ptr(), settings.len(), marks.as_mut_ptr(),
        )
    };
    match answer {
        0 => Ok(search),
        number => Err(number),
    }
}

/// Finishes one round and says whether the search goes on; where it does not, the tables are those of `solve_case`.
pub fn search_round(text: &[u8], search: &mut Search, figures: &mut [u32], settings: &mut [u32], marks: &mut Marks) -> Result<bool, u8> {
    let answer = unsafe {
        c_round(
            text.as_ptr(), text.len(), search.0.as_mut_ptr(), figures.as_mut_ptr(), figures.len(), settings.as_mut_ptr(), settings.len(), marks.as_mut_ptr(),
        )
    };
    match answer {
        0 => Ok(true),
        255 => Ok(false),
        number => Err(number),
    }
}

/// What the placement shows that has train t on section `sections[t - 1]`; of trains that the case does not have any number will do.
pub fn look_up(text: &[u8], search: &Search, figures: &[u32], settings: &[u32], sections: &[u8; 4]) -> Result<Shown, u8> {
    let mut figure = 0;
    let answer = unsafe {
        c_look(
            text.as_ptr(), text.len(), search.0.as_ptr(), figures.as_ptr(), figures.len(), settings.as_ptr(), settings.len(), sections.as_ptr(), &mut figure,
        )
    };
    match answer {
        0 => Ok(Shown::Figure(figure)),
        254 => Ok(Shown::NotYet),
        255 => Ok(Shown::Without),
        number => Err(number),
    }
}

/// Fills the tables of shortest runs, `up` for trains that head up and `down` for those that head down; no search is made.
pub fn runs_case(text: &[u8], up: &mut Runs, down: &mut Runs) -> Result<(), u8> {
    match unsafe { c_runs(text.as_ptr(), text.len(), up.as_mut_ptr().cast(), down.as_mut_ptr().cast()) } {
        0 => Ok(()),
        number => Err(number),
    }
}
