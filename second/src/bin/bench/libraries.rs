//! Two builds of the shared library, this one's and an earlier one's, loaded side by side. The
//! earlier one may be from before request E7: then it has no `jilghvani_make`, its record ends
//! before the figures, and its conversion is handed none.

use second::figures::HOUSE;
use second::plant::Plant;
use second::tables::{Asm1, Digester};
use std::ffi::{c_char, c_int, c_void, CStr, CString};
use std::mem::transmute;
use std::os::unix::ffi::OsStringExt;
use std::path::Path;

/// `jilghvani_feed`; a `Plant` is the 61 numbers of its record in their order. A library from
/// before request E7 takes the first 52 of them, and leaves the others as they are.
type Feed = extern "C" fn(&mut Plant, u64, &mut [u64; 4]) -> u64;

/// `jilghvani_asm_to_adm`.
type ByFigures = extern "C" fn(&[u64; 9], &Asm1, &mut Digester, &mut [u64; 4]) -> u64;

/// `jilghvani_asm_to_adm` from before request E7.
type ByHouseSet = extern "C" fn(&Asm1, &mut Digester, &mut [u64; 4]) -> u64;

/// The conversion of one library, or the one in Rust.
#[derive(Clone, Copy)]
pub enum Conversion {
    ByFigures(ByFigures),
    ByHouseSet(ByHouseSet),
}

impl Conversion {
    /// Converts a vector by the house set.
    pub fn convert(self, v: &Asm1, d: &mut Digester, told: &mut [u64; 4]) -> u64 {
        const FIGURES: [u64; 9] = HOUSE.numbers();
        match self {
            Conversion::ByFigures(convert) => convert(&FIGURES, v, d, told),
            Conversion::ByHouseSet(convert) => convert(v, d, told),
        }
    }

    /// Where its code stands.
    fn place(self) -> usize {
        match self {
            Conversion::ByFigures(convert) => convert as usize,
            Conversion::ByHouseSet(convert) => convert as usize,
        }
    }
}

/// The timed functions of one library, or those in Rust.
#[derive(Clone, Copy)]
pub struct Functions {
    pub feed: Feed,
    pub asm_to_adm: Conversion,
}

/// All names are looked up when a library is loaded, and none of them is lent to the other one.
const RTLD_NOW: c_int = 2;

extern "C" {
    fn dlopen(path: *const c_char, mode: c_int) -> *mut c_void;
    fn dlsym(library: *mut c_void, name: *const c_char) -> *mut c_void;
    fn dlerror() -> *const c_char;
}

/// What the loader gave, or its message where it gave none.
fn checked(given: *mut c_void) -> Result<*mut c_void, String> {
    if !given.is_null() {
        return Ok(given);
    }
    // The message, where there is one, ends in a zero and stands until the next call.
    let message = unsafe { dlerror().as_ref().map(|first| CStr::from_ptr(first)) };
    Err(message.map_or("the loader found nothing".into(), |text| text.to_string_lossy().into()))
}

/// Loads a library, which then stays, and finds the timed functions in it.
fn load(path: &Path) -> Result<Functions, String> {
    let whole = path.canonicalize().map_err(|error| format!("{}: {error}", path.display()))?;
    let whole = CString::new(whole.into_os_string().into_vec()).map_err(|e| e.to_string())?;
    // The functions have these types in host/jilghvani.h, before request E7 and since.
    unsafe {
        let library = checked(dlopen(whole.as_ptr(), RTLD_NOW))?;
        let feed = checked(dlsym(library, c"jilghvani_feed".as_ptr()))?;
        let convert = checked(dlsym(library, c"jilghvani_asm_to_adm".as_ptr()))?;
        let has_figures = !dlsym(library, c"jilghvani_make".as_ptr()).is_null();
        let asm_to_adm = match has_figures {
            true => Conversion::ByFigures(transmute::<*mut c_void, ByFigures>(convert)),
            false => Conversion::ByHouseSet(transmute::<*mut c_void, ByHouseSet>(convert)),
        };
        Ok(Functions { feed: transmute::<*mut c_void, Feed>(feed), asm_to_adm })
    }
}

/// Whether a file is missing or older than another one.
fn is_stale(file: &Path, other: &Path) -> bool {
    let time = |path: &Path| path.metadata().and_then(|data| data.modified()).ok();
    time(file).is_none() || time(file) < time(other)
}

/// Loads this build's shared library and an earlier one. Both may have the same soname, so that the
/// loader could give one of them twice.
pub fn load_both(earlier: &Path) -> Result<[Functions; 2], String> {
    let target = Path::new(env!("CARGO_MANIFEST_DIR")).join("../target");
    let own = target.join("host/libjilghvani.so");
    if is_stale(&own, &target.join("staticlib/libhost.a")) {
        return Err(format!("{} is missing or stale: host/build makes it", own.display()));
    }
    let (now, before) = (load(&own)?, load(earlier)?);
    let same = now.feed as usize == before.feed as usize
        || now.asm_to_adm.place() == before.asm_to_adm.place();
    match same {
        true => Err(format!("{} and {} are one library", own.display(), earlier.display())),
        false => Ok([now, before]),
    }
}
