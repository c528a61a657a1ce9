//! A macro that declares an entry of the static library and calls it.

/// `entry!(NAME: KIND ARGUMENT, ..)` declares the entry `NAME` and calls it. The kinds of arguments are:
///
/// - `text`, `numbers`: bytes or numbers that are read, passed as a pointer and a length;
/// - `out`, `slots`: bytes or numbers that are written, passed as a pointer and a length;
/// - `number`, `flag`, `float`: a plain `usize`, `bool` or `f64`;
/// - `time`: two floats that are written, passed as one pointer;
/// - `pairs`: the bytes, the places and the number of pairs of a list; `list`: these and its mark;
/// - `map`: a list and the two floats of its time offset;
/// - `route`: the bytes, the places, the numbers of the legs and the number of legs of a route;
/// - `paths`: the bytes, the spots and the number of many paths.
macro_rules! entry {
    (@ $name:ident [$($type:ty = $value:expr,)*]) => {{
        unsafe extern "C" {
            fn $name($(_: $type),*) -> usize;
        }
        // SAFETY: the library validates everything that it reads, accesses only the slices that it is passed, writes
        // only to those that are borrowed mutably for this call, and keeps no pointer.
        $crate::ffi::Reply(unsafe { $name($($value),*) })
    }};
    (@ $name:ident [$($done:tt)*] text $x:expr, $($rest:tt)*) => {
        entry!(@ $name [$($done)* *const u8 = $x.as_ptr(), usize = $x.len(),] $($rest)*)
    };
    (@ $name:ident [$($done:tt)*] numbers $x:expr, $($rest:tt)*) => {
        entry!(@ $name [$($done)* *const usize = $x.as_ptr(), usize = $x.len(),] $($rest)*)
    };
    (@ $name:ident [$($done:tt)*] out $x:expr, $($rest:tt)*) => {
        entry!(@ $name [$($done)* *mut u8 = $x.as_mut_ptr(), usize = $x.len(),] $($rest)*)
    };
    (@ $name:ident [$($done:tt)*] slots $x:expr, $($rest:tt)*) => {
        entry!(@ $name [$($done)* *mut usize = $x.as_mut_ptr(), usize = $x.len(),] $($rest)*)
    };
    (@ $name:ident [$($done:tt)*] number $x:expr, $($rest:tt)*) => {
        entry!(@ $name [$($done)* usize = $x,] $($rest)*)
    };
    (@ $name:ident [$($done:tt)*] flag $x:expr, $($rest:tt)*) => {
        entry!(@ $name [$($done)* bool = $x,] $($rest)*)
    };
    (@ $name:ident [$($done:tt)*] float $x:expr, $($rest:tt)*) => {
        entry!(@ $name [$($done)* f64 = $x,] $($rest)*)
    };
    (@ $name:ident [$($done:tt)*] time $x:expr, $($rest:tt)*) => {
        entry!(@ $name [$($done)* &mut [f64; 2] = $x,] $($rest)*)
    };
    (@ $name:ident [$($done:tt)*] pairs $x:expr, $($rest:tt)*) => {
        entry!(@ $name [$($done)*] text $x.store, numbers $x.places, number $x.count, $($rest)*)
    };
    (@ $name:ident [$($done:tt)*] list $x:expr, $($rest:tt)*) => {
        entry!(@ $name [$($done)*] pairs $x, flag $x.mark, $($rest)*)
    };
    (@ $name:ident [$($done:tt)*] map $x:expr, $($rest:tt)*) => {
        entry!(@ $name [$($done)*] list $x.list, float $x.time[0], float $x.time[1], $($rest)*)
    };
    (@ $name:ident [$($done:tt)*] route $x:expr, $($rest:tt)*) => {
        entry!(@ $name [$($done)*] text $x.store, numbers $x.places, numbers $x.legs, number $x.count, $($rest)*)
    };
    (@ $name:ident [$($done:tt)*] paths $x:expr, $($rest:tt)*) => {
        entry!(@ $name [$($done)*] text $x.texts, numbers $x.spots, number $x.count, $($rest)*)
    };
    ($name:ident: $($arguments:tt)*) => {
        entry!(@ $name [] $($arguments)*)
    };
}

pub(crate) use entry;
