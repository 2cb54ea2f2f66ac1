//! The exports of `libunit.a`, declared once as `include/unit.h` has them: each a call over slices, for the types of the crate that
//! links the archive.
//!
//! Why each call is sound: a slice's pointer is valid, aligned and lent for its length, and the borrow checker keeps every `&mut`
//! slice apart from all other arguments. Of what `include/unit.h` asks of a caller two things are left. The float environment is
//! the usual one in every Rust program: Rust itself takes it so, and to change it is undefined. Room on the stack: less than
//! 76,000 bytes for `unit_cover_mask`, less than 3,000 for every other export. Where it is missing the program ends and no other memory
//! is touched: the archive's code touches each page of a frame in turn, and so meets the stack's guard page, which Rust gives every
//! thread that it starts. A test of `yoltzimur` sees it end so. The types must be laid out as C has them: their sizes
//! are asserted here, what stands where by the crates that name the fields, and tests of `yoltzimur` hold each field to its place.
//!
//! A crate that makes these calls refers to `unit_abi_0_3`, as each file does that includes `include/unit.h`, so that it does not
//! link with an archive of another version.

pub mod constants;

/// The nine buffers that are lent to each session call, in their order.
#[derive(Debug)]
pub struct Buffers<'a> {
    pub backward: &'a mut [u8],
    pub forward: &'a mut [u8],
    pub table: &'a [u8],
    pub grid: &'a mut [i32],
    pub xs: &'a mut [u16],
    pub ys: &'a mut [u16],
    pub averages: &'a mut [u8],
    pub map: &'a mut [u8],
    pub history: &'a mut [u8],
}

/// The nine buffers of a caller that keeps them for a session.
#[derive(Clone, Debug, PartialEq, Eq)]
pub struct Owned {
    pub backward: Vec<u8>,
    pub forward: Vec<u8>,
    pub table: [u8; constants::TABLE_LEN],
    pub grid: Vec<i32>,
    pub xs: Vec<u16>,
    pub ys: Vec<u16>,
    pub averages: Vec<u8>,
    pub map: Vec<u8>,
    pub history: Vec<u8>,
}

impl Owned {
    pub fn lend(&mut self) -> Buffers<'_> {
        Buffers {
            backward: &mut self.backward,
            forward: &mut self.forward,
            table: &self.table,
            grid: &mut self.grid,
            xs: &mut self.xs,
            ys: &mut self.ys,
            averages: &mut self.averages,
            map: &mut self.map,
            history: &mut self.history,
        }
    }
}

/// The version, the guard that refers to it, and the calls that know no session. Of record, sizes and class the first field is the
/// number, beside which a refusal leaves zeros.
#[macro_export]
macro_rules! field_calls {
    (shape: $shape:ty, limits: $limits:ty, record: $record:ty, sizes: $sizes:ty, class: $class:ty) => {
        $crate::laid_out! { $shape: 44, $limits: 20, $record: 52, $sizes: 104, $class: 8 }

        /// The export that is named after major and minor: an archive of another version has none of this name.
        #[used]
        static LINK_GUARD: unsafe extern "C" fn() -> u32 = {
            unsafe extern "C" {
                fn unit_abi_0_3() -> u32;
            }
            unit_abi_0_3
        };

        $crate::call! { unit_version as version() -> u32 }
        $crate::call! { unit_vector_data as vector_data(data: &[u8]) -> $record }
        $crate::call! { unit_shape_of as shape_of(record: $record) -> $shape }
        $crate::call! { unit_sizes as sizes(shape: $shape) -> $sizes }
        $crate::call! { unit_update as update(
            shape: $shape, payload: &[u8], backward: &mut [u8], forward: &mut [u8]
        ) -> u32 }
        $crate::call! { unit_avg_luma as avg_luma(
            shape: $shape, backward: &[u8], forward: &[u8], table: &[u8], averages: &mut [u8]
        ) -> u32 }
        $crate::call! { unit_pack as pack(
            shape: $shape, side: u32, backward: &[u8], forward: &[u8], xs: &mut [u16], ys: &mut [u16]
        ) -> u32 }
        $crate::call! { unit_quality_map as quality_map(
            shape: $shape, side: u32, limits: $limits, backward: &[u8], forward: &[u8], averages: &[u8], map: &mut [u8]
        ) -> u32 }
        $crate::call! { unit_quality as quality(
            shape: $shape, side: u32, limits: $limits, backward: &[u8], forward: &[u8], averages: &[u8]
        ) -> $class }
        $crate::call! { unit_cover_mask as cover_mask(
            shape: $shape, side: u32, backward: &[u8], forward: &[u8], cover: i32, sad_scale: f64, time: i32,
            scratch: &mut [i32], mask: &mut [u8]
        ) -> u32 }
        $crate::call! { unit_sad_mask as sad_mask(
            shape: $shape, side: u32, backward: &[u8], forward: &[u8], cover: i32, sad_scale: f64, mask: &mut [u8]
        ) -> u32 }
    };
}

/// The session's calls. An answer is its number, then the session after the call; any values of a session are safe. The class is
/// that of `field_calls`.
#[macro_export]
macro_rules! session_calls {
    (shape: $shape:ty, limits: $limits:ty, session: $session:ty, answer: $answer:ty, class: $class:ty) => {
        $crate::laid_out! { $shape: 44, $limits: 20, $session: 96, $answer: 100, $class: 8 }

        $crate::call! { unit_open as open(
            shape: $shape, side: u32, limits: $limits, time: i32, b: &mut Buffers
        ) -> $answer }
        $crate::call! { unit_take as take(session: $session, payload: &[u8], b: &mut Buffers) -> $answer }
        $crate::call! { unit_pool as pool(
            session: $session, first: &[u8], second: &[u8], b: &mut Buffers
        ) -> $answer }
        $crate::call! { unit_put as put(
            session: $session, side: u32, block: u32, x: i16, y: i16, sad: i32, luma: u8, gesture: u32, b: &mut Buffers
        ) -> $answer }
        $crate::call! { unit_undo as undo(session: $session, b: &mut Buffers) -> $answer }
        $crate::call! { unit_redo as redo(session: $session, b: &mut Buffers) -> $answer }
        $crate::call! { unit_retime as retime(session: $session, time: i32, b: &mut Buffers) -> $answer }
        $crate::call! { unit_kept_class as kept_class(session: $session) -> $class }
    };
}

/// Holds types to the sizes that `include/unit.h` gives them on x86-64, and fields to their places.
#[macro_export]
macro_rules! laid_out {
    ($($type:ty: $size:literal $({ $($field:ident: $place:literal),* })?),*) => {
        const _: () = {
            $(
                assert!(::core::mem::size_of::<$type>() == $size);
                $($(assert!(::core::mem::offset_of!($type, $field) == $place);)*)?
            )*
        };
    };
}

/// One call. Its arguments are taken one by one into three lists: those of the call, the types of the export's, what it is passed.
/// A slice goes as its pointer and its length, the nine buffers as nine slices; those that a call only reads are `const` in C,
/// which is the same to a linker.
#[doc(hidden)]
#[macro_export]
macro_rules! call {
    ($export:ident as $call:ident() -> $answer:ty) => {
        $crate::call! { @ ($export $call $answer) [] [] [] }
    };
    ($export:ident as $call:ident($($argument:tt)*) -> $answer:ty) => {
        $crate::call! { @ ($export $call $answer) [] [] [] $($argument)*, }
    };
    (@ ($export:ident $call:ident $answer:ty) [$($given:tt)*] [$($type:ty,)*] [$($passed:expr,)*]) => {
        #[allow(clippy::too_many_arguments)]
        pub fn $call($($given)*) -> $answer {
            unsafe extern "C" {
                fn $export($(_: $type),*) -> $answer;
            }
            // SAFETY: as the head of this file says.
            unsafe { $export($($passed),*) }
        }
    };
    (@ $of:tt [$($given:tt)*] [$($type:tt)*] [$($passed:tt)*] $slice:ident: &mut [$item:ty], $($rest:tt)*) => {
        $crate::call! { @ $of
            [$($given)* $slice: &mut [$item],]
            [$($type)* *mut $item, usize,]
            [$($passed)* $slice.as_mut_ptr(), $slice.len(),]
            $($rest)*
        }
    };
    (@ $of:tt [$($given:tt)*] [$($type:tt)*] [$($passed:tt)*] $slice:ident: &[$item:ty], $($rest:tt)*) => {
        $crate::call! { @ $of
            [$($given)* $slice: &[$item],]
            [$($type)* *const $item, usize,]
            [$($passed)* $slice.as_ptr(), $slice.len(),]
            $($rest)*
        }
    };
    (@ $of:tt [$($given:tt)*] [$($type:tt)*] [$($passed:tt)*] $b:ident: &mut Buffers, $($rest:tt)*) => {
        $crate::call! { @ $of
            [$($given)* $b: &mut $crate::Buffers<'_>,]
            [
                $($type)* *mut u8, usize, *mut u8, usize, *const u8, usize, *mut i32, usize, *mut u16, usize,
                *mut u16, usize, *mut u8, usize, *mut u8, usize, *mut u8, usize,
            ]
            [
                $($passed)*
                $b.backward.as_mut_ptr(), $b.backward.len(),
                $b.forward.as_mut_ptr(), $b.forward.len(),
                $b.table.as_ptr(), $b.table.len(),
                $b.grid.as_mut_ptr(), $b.grid.len(),
                $b.xs.as_mut_ptr(), $b.xs.len(),
                $b.ys.as_mut_ptr(), $b.ys.len(),
                $b.averages.as_mut_ptr(), $b.averages.len(),
                $b.map.as_mut_ptr(), $b.map.len(),
                $b.history.as_mut_ptr(), $b.history.len(),
            ]
            $($rest)*
        }
    };
    (@ $of:tt [$($given:tt)*] [$($type:tt)*] [$($passed:tt)*] $value:ident: $kind:ty, $($rest:tt)*) => {
        $crate::call! { @ $of [$($given)* $value: $kind,] [$($type)* $kind,] [$($passed)* $value,] $($rest)* }
    };
}
