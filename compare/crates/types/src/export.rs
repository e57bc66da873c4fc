//! The exports of the static libraries as safe functions.

/// Makes a safe function of an export that takes numbers, the thirteen thresholds, perhaps more
/// numbers, and slices, each as a pointer and a length: first those that it reads, then those that it
/// writes. Its thresholds are a [`Thresholds`](crate::Thresholds), its slices are borrowed, and its
/// result is the export's.
///
/// It is for the exports of the Rattle libraries alone, since it relies on what is proved of them.
#[macro_export]
macro_rules! export {
    (
        $(#[$about:meta])*
        fn $name:ident = $export:ident($($number:ident),*) $(and ($($more:ident),*))?
            reads ($($read:ident: [$read_type:ty]),*)
            writes ($($written:ident: [$written_type:ty]),*)
    ) => {
        $(#[$about])*
        pub fn $name(
            $($number: u32,)*
            t: &$crate::Thresholds,
            $($($more: u32,)*)?
            $($read: &[$read_type],)*
            $($written: &mut [$written_type],)*
        ) -> u32 {
            unsafe extern "C" {
                fn $export(
                    $($number: u32,)*
                    th0: f64,
                    z2: u32,
                    th2: u32,
                    z3: u32,
                    th3: u32,
                    zdf5: u32,
                    th6: u32,
                    zdf7: u32,
                    th8: f64,
                    zf8: u32,
                    th10: u32,
                    th13: u32,
                    th14: u32,
                    $($($more: u32,)*)?
                    $($read: *const $read_type, _: usize,)*
                    $($written: *mut $written_type, _: usize,)*
                ) -> u32;
            }
            // SAFETY: the function is proved to read nothing but the elements of these slices, to
            // write nothing but those of the mutable ones, and to keep nothing; it has no
            // precondition.
            unsafe {
                $export(
                    $($number,)*
                    t.th0,
                    t.z2,
                    t.th2,
                    t.z3,
                    t.th3,
                    t.zdf5,
                    t.th6,
                    t.zdf7,
                    t.th8,
                    t.zf8,
                    t.th10,
                    t.th13,
                    t.th14,
                    $($($more,)*)?
                    $($read.as_ptr(), $read.len(),)*
                    $($written.as_mut_ptr(), $written.len(),)*
                )
            }
        }
    };
}
