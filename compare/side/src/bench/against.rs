//! Another build of the corrector beside the linked one, whose symbols have the same names: made a shared library and loaded. Unsafe code, to load
//! and call it.
#![allow(unsafe_code)]
use crate::referee::calls::{Answer, Job, Report};
use crate::referee::set::Refusal;
use std::ffi::{c_char, c_int, c_void, CStr, CString};
use std::path::Path;
use std::process::Command;

extern "C" {
    fn dlopen(file: *const c_char, flags: c_int) -> *mut c_void;
    fn dlsym(library: *mut c_void, name: *const c_char) -> *mut c_void;
}

const RTLD_NOW: c_int = 2;
const BATCH: &CStr = c"corrector_batch";

/// What the other build's `corrector_batch` takes between the set and the job: nothing before document 02's W7, an index before W8, then counts too.
#[derive(Clone, Copy, Debug, PartialEq, Eq)]
pub enum Offers {
    Nothing,
    Index,
    Counts,
}

impl Offers {
    pub const ALL: [Offers; 3] = [Offers::Nothing, Offers::Index, Offers::Counts];
}

/// `corrector_batch` as corrector.h had it at that time: set, what is offered, job, batch, output, work, answer.
#[rustfmt::skip]
mod calls {
    type In = *const u8;
    type Out = *mut u8;
    type Answer = *mut u64;
    pub type Plain = unsafe extern "C" fn(In, usize, In, usize, In, usize, Out, usize, Out, usize, Answer, usize) -> u64;
    pub type Indexed = unsafe extern "C" fn(In, usize, In, usize, In, usize, In, usize, Out, usize, Out, usize, Answer, usize) -> u64;
    pub type Counted =
        unsafe extern "C" fn(In, usize, In, usize, *const u32, usize, In, usize, In, usize, Out, usize, Out, usize, Answer, usize) -> u64;
}

enum BatchCall {
    Plain(calls::Plain),
    Indexed(calls::Indexed),
    Counted(calls::Counted),
}

pub struct Against {
    batch: BatchCall,
}

impl Against {
    /// Loads a static library, for as long as the program runs.
    pub fn load(library: &str, offers: Offers) -> Result<Self, String> {
        let shared = std::env::temp_dir().join(format!("compare-against-{}.so", std::process::id()));
        let batch = share(library, &shared).and_then(|()| symbol(&shared, BATCH));
        let _ = std::fs::remove_file(&shared);
        let batch = batch.map_err(|error| format!("{library}: {error}"))?;
        // SAFETY: the symbol is the function that the library's corrector.h declares so, if `offers` is right, and is not unloaded.
        let batch = unsafe {
            match offers {
                Offers::Nothing => BatchCall::Plain(std::mem::transmute::<*mut c_void, calls::Plain>(batch)),
                Offers::Index => BatchCall::Indexed(std::mem::transmute::<*mut c_void, calls::Indexed>(batch)),
                Offers::Counts => BatchCall::Counted(std::mem::transmute::<*mut c_void, calls::Counted>(batch)),
            }
        };
        Ok(Against { batch })
    }

    pub fn correct_batch(&self, set: &[u8], job: &Job, output: &mut [u8], work: &mut [u8]) -> Answer {
        match self.call(set, job, output, work) {
            [0, _, written, turns, lookups, attempts, accepted, yields] => {
                // What a build may not tell yet is left out.
                Ok(Report { written, turns, lookups, attempts, accepted, yields, support: None, quotient: 0, remainder: 0, bases: 0 })
            }
            [number, place, ..] => Err(Refusal { number, place }),
        }
    }

    /// The only call of the other library; it is offered nothing. The first numbers of its answer are those of every build.
    fn call(&self, set: &[u8], job: &Job, output: &mut [u8], work: &mut [u8]) -> [u64; 8] {
        let (entries, input, mut answer) = (&job.entries[..], &job.input[..], [0; 8]);
        let (index, counts): (&[u8], &[u32]) = (&[], &[]);
        macro_rules! with {
            ($batch:expr, $($slice:expr),*) => {
                // SAFETY: each pointer and length are a live slice's; `output`, `work` and `answer` are lent to this call alone.
                unsafe {
                    $batch(
                        $($slice.as_ptr(), $slice.len(),)*
                        output.as_mut_ptr(), output.len(), work.as_mut_ptr(), work.len(), answer.as_mut_ptr(), answer.len(),
                    )
                }
            };
        }
        match self.batch {
            BatchCall::Plain(batch) => with!(batch, set, entries, input),
            BatchCall::Indexed(batch) => with!(batch, set, index, entries, input),
            BatchCall::Counted(batch) => with!(batch, set, index, counts, entries, input),
        };
        answer
    }
}

/// Makes a shared library of a static one; its calls of itself stay in it.
fn share(library: &str, shared: &Path) -> Result<(), String> {
    if !Path::new(library).is_file() {
        return Err("no such library".to_string());
    }
    let flags = ["-shared", "-Wl,-Bsymbolic", "-Wl,--whole-archive", library, "-Wl,--no-whole-archive", "-o"];
    let status = Command::new("gcc").args(flags).arg(shared).status().map_err(|error| format!("gcc: {error}"))?;
    status.success().then_some(()).ok_or("gcc made no shared library of it".to_string())
}

fn symbol(shared: &Path, name: &CStr) -> Result<*mut c_void, String> {
    let path = CString::new(shared.as_os_str().as_encoded_bytes()).map_err(|error| error.to_string())?;
    // SAFETY: both texts end with 0; the libraries of the corrector run nothing when they are loaded.
    let symbol = unsafe {
        let library = dlopen(path.as_ptr(), RTLD_NOW);
        if library.is_null() {
            return Err("cannot be loaded".to_string());
        }
        dlsym(library, name.as_ptr())
    };
    if symbol.is_null() {
        return Err("has no corrector_batch".to_string());
    }
    Ok(symbol)
}
