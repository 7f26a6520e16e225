//! The one place where the library is called, and so the one with `unsafe`.

use crate::{bytes, choice, diagnose, Error, Flags, Roots};
use mulkavesh_sys as library;

type Plain = unsafe extern "C" fn(*const u8, usize, *mut u8, usize, *mut usize) -> u32;

type Flagged = unsafe extern "C" fn(*const u8, usize, u32, *mut u8, usize, *mut usize) -> u32;

type OfList =
    unsafe extern "C" fn(*const u8, usize, *const u8, usize, *mut u8, usize, *mut usize) -> u32;

type FlaggedList = unsafe extern "C" fn(
    *const u8,
    usize,
    u32,
    *const u8,
    usize,
    *mut u8,
    usize,
    *mut usize,
) -> u32;

type FlaggedLists = unsafe extern "C" fn(
    *const u8,
    usize,
    u32,
    *const u8,
    usize,
    *const u8,
    usize,
    *mut u8,
    usize,
    *mut usize,
) -> u32;

/// A function of the library, and what it takes beside the input, flags and the room: lists of
/// NAMEs, as `choice` makes them, and in the second place of two a text too.
enum Form<'a> {
    Plain(Plain),
    Flagged(Flagged),
    OfList(OfList, &'a [u8]),
    FlaggedList(FlaggedList, &'a [u8]),
    FlaggedLists(FlaggedLists, &'a [u8], &'a [u8]),
}

/// What the library is asked, but for the input. None is made outside this file, so that each
/// function in one is of the library, and keeps what its header promises.
pub(crate) struct Call<'a> {
    form: Form<'a>,
    /// Those that the call goes by: the default where it takes none.
    flags: Flags,
    /// Those of which the form has the list: the default where it has none.
    roots: Roots<'a>,
    /// Whether what nothing reaches goes, of a list of edits.
    collects: bool,
}

/// Why a list of edits has no answer.
pub(crate) enum Refused {
    /// For a cause that other calls have too.
    Call(Error),
    /// So many edits can be made, and the next one can't.
    Edit(usize),
    /// All can be made, and what they leave can't be written: the number of the cause.
    Whole(u32),
}

/// A choice of exports, and the list of it that the library takes.
pub(crate) struct Chosen<'a> {
    roots: Roots<'a>,
    list: Vec<u8>,
}

impl<'a> Chosen<'a> {
    pub(crate) fn of(roots: Roots<'a>) -> Result<Self, Error> {
        let list = choice::roots(roots)?;
        Ok(Chosen { roots, list })
    }
}

impl<'a> Call<'a> {
    fn of(form: Form<'a>, flags: Flags) -> Self {
        let roots = Roots::default();
        Call {
            form,
            flags,
            roots,
            collects: false,
        }
    }

    fn chosen(call: FlaggedList, flags: Flags, chosen: &'a Chosen<'_>) -> Self {
        let form = Form::FlaggedList(call, &chosen.list);
        Call {
            roots: chosen.roots,
            ..Call::of(form, flags)
        }
    }

    fn explained(
        call: FlaggedLists,
        flags: Flags,
        chosen: &'a Chosen<'_>,
        function: &'a str,
    ) -> Self {
        let form = Form::FlaggedLists(call, &chosen.list, function.as_bytes());
        Call {
            roots: chosen.roots,
            ..Call::of(form, flags)
        }
    }

    pub(crate) fn gc(flags: Flags, chosen: &'a Chosen<'_>) -> Self {
        Call::chosen(library::mulkavesh_gc, flags, chosen)
    }

    pub(crate) fn report(flags: Flags, chosen: &'a Chosen<'_>) -> Self {
        Call::chosen(library::mulkavesh_report, flags, chosen)
    }

    pub(crate) fn list(flags: Flags, chosen: &'a Chosen<'_>) -> Self {
        Call::chosen(library::mulkavesh_list, flags, chosen)
    }

    pub(crate) fn dropped(flags: Flags, chosen: &'a Chosen<'_>) -> Self {
        Call::chosen(library::mulkavesh_dropped, flags, chosen)
    }

    pub(crate) fn exports(flags: Flags, chosen: &'a Chosen<'_>) -> Self {
        Call::chosen(library::mulkavesh_exports, flags, chosen)
    }

    pub(crate) fn imports(flags: Flags, chosen: &'a Chosen<'_>) -> Self {
        Call::chosen(library::mulkavesh_imports, flags, chosen)
    }

    pub(crate) fn why(flags: Flags, chosen: &'a Chosen<'_>, function: &'a str) -> Self {
        Call::explained(library::mulkavesh_why, flags, chosen, function)
    }

    pub(crate) fn callers(flags: Flags, chosen: &'a Chosen<'_>, function: &'a str) -> Self {
        Call::explained(library::mulkavesh_callers, flags, chosen, function)
    }

    pub(crate) fn diagnose(flags: Flags) -> Self {
        Call::of(Form::Flagged(library::mulkavesh_diagnose), flags)
    }

    pub(crate) fn sections() -> Self {
        let form = Form::Plain(library::mulkavesh_sections);
        Call::of(form, Flags::default())
    }

    pub(crate) fn parts() -> Self {
        let form = Form::Plain(library::mulkavesh_parts);
        Call::of(form, Flags::default())
    }

    pub(crate) fn strip(choice: &'a [u8]) -> Self {
        let form = Form::OfList(library::mulkavesh_strip, choice);
        Call::of(form, Flags::default())
    }

    /// All in the list go.
    pub(crate) fn snip(flags: Flags, functions: &'a [u8]) -> Self {
        let form = Form::FlaggedList(library::mulkavesh_snip, functions);
        Call::of(form, flags)
    }

    pub(crate) fn stub(flags: Flags, modules: &'a [u8], names: &'a [u8]) -> Self {
        let form = Form::FlaggedLists(library::mulkavesh_stub, modules, names);
        Call::of(form, flags)
    }

    pub(crate) fn read() -> Self {
        let form = Form::Flagged(library::mulkavesh_read);
        Call::of(form, Flags::default())
    }

    pub(crate) fn edit(flags: Flags, collects: bool, edits: &'a [u8]) -> Self {
        let form = Form::FlaggedList(library::mulkavesh_edit, edits);
        Call {
            collects,
            ..Call::of(form, flags)
        }
    }

    /// The answer for this input. One call serves where this much room, in bytes, is enough; where
    /// it isn't, the library says how much is, and a second one does.
    pub(crate) fn answer(&self, input: &[u8], guess: usize) -> Result<Vec<u8>, Error> {
        self.edited(input, guess).map_err(|refused| match refused {
            Refused::Call(error) => error,
            Refused::Edit(_) | Refused::Whole(_) => unreachable!("the call makes no edits"),
        })
    }

    /// The same, of a list of edits.
    pub(crate) fn edited(&self, input: &[u8], guess: usize) -> Result<Vec<u8>, Refused> {
        let mut room = guess;
        loop {
            let mut output = with_room(room).map_err(Refused::Call)?;
            let (status, length) = self.made(input, &mut output);
            match status {
                library::MULKAVESH_DONE => return Ok(output),
                library::MULKAVESH_NO_ROOM => room = length,
                _ => {
                    drop(output);
                    return Err(self.refused(status, length, input));
                }
            }
        }
    }

    /// Why there is no answer, by the status and the length that the library tells.
    fn refused(&self, status: u32, length: usize, input: &[u8]) -> Refused {
        Refused::Call(match status {
            library::MULKAVESH_BAD_EDIT => return Refused::Edit(length),
            library::MULKAVESH_BAD_MODULE => return Refused::Whole(length as u32),
            library::MULKAVESH_INVALID => self.refusal(input),
            library::MULKAVESH_TOO_LARGE => Error::TooLarge,
            library::MULKAVESH_NO_MEMORY => Error::NoMemory,
            library::MULKAVESH_NOT_FOUND => self.missing(length),
            other => unreachable!("the library answers with status {other}"),
        })
    }

    /// Why this input is invalid, which a second call finds out, under the same flags.
    fn refusal(&self, input: &[u8]) -> Error {
        match diagnose(input, self.flags) {
            Ok(Some(fault)) => Error::Invalid(fault),
            Ok(None) => unreachable!("the library finds nothing wrong with what it refuses"),
            Err(error) => error,
        }
    }

    /// What isn't there, where the library tells this number.
    fn missing(&self, number: usize) -> Error {
        match self
            .roots
            .name(number)
            .map(|name| bytes::copied(name.as_bytes()))
        {
            None => Error::NotFound,
            Some(Ok(name)) => Error::Unfit(name),
            Some(Err(error)) => error,
        }
    }

    /// Makes the call once, and gives its status and the length that it tells. The answer, where
    /// there is one, takes the place of what stood in `output`.
    fn made(&self, input: &[u8], output: &mut Vec<u8>) -> (u32, usize) {
        let (start, size) = (input.as_ptr(), input.len());
        let (to, room) = (output.as_mut_ptr(), output.capacity());
        let flags = self.flags.bits() + u32::from(self.collects) * library::MULKAVESH_GC;
        let mut length = 0;
        let told: *mut usize = &mut length;
        // SAFETY: `start` and `size` are of one slice, as pointer and length of the others are, and
        // `to` and `room` of one vector, which nothing else reaches meanwhile. None of the
        // pointers is null. The library reads no byte of the room that it hasn't written, and
        // keeps no pointer.
        let status = unsafe {
            match self.form {
                Form::Plain(call) => call(start, size, to, room, told),
                Form::Flagged(call) => call(start, size, flags, to, room, told),
                Form::OfList(call, list) => {
                    call(start, size, list.as_ptr(), list.len(), to, room, told)
                }
                Form::FlaggedList(call, list) => {
                    let (place, count) = (list.as_ptr(), list.len());
                    call(start, size, flags, place, count, to, room, told)
                }
                Form::FlaggedLists(call, list, more) => {
                    let (place, count) = (list.as_ptr(), list.len());
                    let (behind, rest) = (more.as_ptr(), more.len());
                    call(
                        start, size, flags, place, count, behind, rest, to, room, told,
                    )
                }
            }
        };
        if status == library::MULKAVESH_DONE {
            // SAFETY: the library wrote the first `length` bytes of the room, which has as many.
            unsafe { output.set_len(length) };
        }
        (status, length)
    }
}

/// A vector with room for so many bytes, whose pages are touched only where an answer is written.
fn with_room(room: usize) -> Result<Vec<u8>, Error> {
    let mut output = Vec::new();
    match output.try_reserve_exact(room) {
        Ok(()) => Ok(output),
        Err(_) => Err(Error::NoMemory),
    }
}

/// The version of the library, as it says it.
pub(crate) fn version() -> u32 {
    // SAFETY: it takes nothing, and reads and writes nothing.
    unsafe { library::mulkavesh_version() }
}

#[cfg(test)]
mod tests {
    use super::*;
    use crate::{Beginning, Fault};

    // Three custom sections, each of a byte: `a`, `a` and `b`.
    const SECTIONS: &[u8] = b"\0asm\x01\0\0\0\0\x03\x01a\x01\0\x03\x01a\x02\0\x03\x01b\x03";

    const LEFT: &[u8] = b"\0asm\x01\0\0\0\0\x03\x01b\x03";

    // The choice of those called `a`, and of those called `c`.
    const A_GOES: &[u8] = b"\0\x01\0\0\0a";

    const C_GOES: &[u8] = b"\0\x01\0\0\0c";

    const NO_PRODUCERS: Flags = Flags {
        no_names: false,
        no_producers: true,
        no_legacy: false,
    };

    #[test]
    fn every_guess_of_the_room_serves() {
        for guess in 0..LEFT.len() + 2 {
            let answer = Call::strip(A_GOES).answer(SECTIONS, guess);
            assert_eq!(answer.as_deref(), Ok(LEFT), "with room for {guess} bytes");
        }
        let ample = Call::sections().answer(SECTIONS, 1024).expect("sections");
        for guess in 0..ample.len() + 2 {
            let answer = Call::sections().answer(SECTIONS, guess);
            assert_eq!(answer.as_ref(), Ok(&ample), "with room for {guess} bytes");
        }
    }

    #[test]
    fn a_refusal_needs_no_room() {
        let strip = Call::strip(C_GOES);
        assert_eq!(strip.answer(SECTIONS, 0), Err(Error::NotFound));
        let chosen = Chosen::of(Roots::default()).expect("a list");
        let why = Call::why(NO_PRODUCERS, &chosen, "0");
        assert_eq!(why.answer(SECTIONS, 0), Err(Error::NotFound));
        let invalid = Err(Error::Invalid(Fault::Header(Beginning::Empty)));
        let stub = Call::stub(NO_PRODUCERS, A_GOES, b"");
        assert_eq!(stub.answer(SECTIONS, 0), Err(Error::NotFound));
        assert_eq!(stub.answer(b"", 0), invalid);
        assert_eq!(Call::strip(A_GOES).answer(b"", 0), invalid);
        assert_eq!(Call::sections().answer(b"", 0), invalid);
        let told = Call::diagnose(NO_PRODUCERS).answer(b"", 0);
        assert_eq!(told.as_deref(), Ok(&[1, 0, 0, 0, 1, 0, 0, 0][..]));
    }

    #[test]
    fn the_name_that_fits_nothing_is_told() {
        let roots = Roots {
            keep: &["*"],
            drop: &["é"],
        };
        let chosen = Chosen::of(roots).expect("a list");
        let gc = Call::gc(NO_PRODUCERS, &chosen);
        // There is no export at all.
        assert_eq!(gc.answer(SECTIONS, 0), Err(Error::Unfit("*".to_string())));
        assert_eq!(gc.missing(1), Error::Unfit("é".to_string()));
        assert_eq!(gc.missing(2), Error::NotFound);
    }

    #[test]
    fn room_that_no_machine_has_is_refused() {
        let strip = Call::strip(A_GOES);
        for guess in [isize::MAX as usize, usize::MAX] {
            assert_eq!(strip.answer(SECTIONS, guess), Err(Error::NoMemory));
        }
    }

    #[test]
    fn each_flag_has_its_bit() {
        for bits in 0..8 {
            let flags = Flags {
                no_names: bits & 1 != 0,
                no_producers: bits & 2 != 0,
                no_legacy: bits & 4 != 0,
            };
            assert_eq!(flags.bits(), bits);
        }
    }
}
