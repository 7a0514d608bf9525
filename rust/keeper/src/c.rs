//! The calls as include/keeper.h has them: the number is given back, table and
//! place are written into `detail`, which may have any length.

/// So many stores are lent to a call.
pub const STORES: usize = 3;
/// The stores in the order of include/keeper.h, to be read.
pub type Lent<'a> = [&'a [u8]; STORES];
/// The stores in the order of include/keeper.h, to be written to.
pub type LentMut<'a> = [&'a mut [u8]; STORES];

/// Declares calls of include/keeper.h, `SYMBOL as NAME(ARGUMENTS);` for each, and
/// wraps them: a slice goes over as its pointer and its length, stores as those
/// of each, a number as it is.
macro_rules! calls {
    ($($symbol:ident as $name:ident($($argument:tt)*);)*) => {
        $(calls!(@ ($symbol $name ($($argument)*)) [] [] $($argument)*,);)*
    };
    // One argument after the other: what C declares of it, and what it is given.
    (@ $call:tt [$($c:tt)*] [$($given:tt)*] $s:ident: Lent<'_>, $($rest:tt)*) => {
        calls!(@ $call [$($c)*] [$($given)*] $s[0]: &[u8], $s[1]: &[u8], $s[2]: &[u8], $($rest)*);
    };
    (@ $call:tt [$($c:tt)*] [$($given:tt)*] $s:ident: LentMut<'_>, $($rest:tt)*) => {
        calls!(@ $call [$($c)*] [$($given)*]
            $s[0]: &mut [u8], $s[1]: &mut [u8], $s[2]: &mut [u8], $($rest)*);
    };
    (@ $call:tt [$($c:tt)*] [$($given:tt)*] $a:ident $([$n:tt])?: &[$t:ty], $($rest:tt)*) => {
        calls!(@ $call [$($c)* *const $t, usize,]
            [$($given)* $a $([$n])?.as_ptr(), $a $([$n])?.len(),] $($rest)*);
    };
    (@ $call:tt [$($c:tt)*] [$($given:tt)*] $a:ident $([$n:tt])?: &mut [$t:ty], $($rest:tt)*) => {
        calls!(@ $call [$($c)* *mut $t, usize,]
            [$($given)* $a $([$n])?.as_mut_ptr(), $a $([$n])?.len(),] $($rest)*);
    };
    (@ $call:tt [$($c:tt)*] [$($given:tt)*] $a:ident: $t:ty, $($rest:tt)*) => {
        calls!(@ $call [$($c)* $t,] [$($given)* $a,] $($rest)*);
    };
    // All arguments are taken.
    (@ ($symbol:ident $name:ident $argument:tt) [$($c:ty,)*] [$($given:expr,)*]) => {
        #[doc = concat!("`", stringify!($symbol), "`")]
        #[allow(clippy::too_many_arguments)]
        pub fn $name $argument -> u64 {
            unsafe extern "C" {
                fn $symbol($(_: $c),*) -> u64;
            }
            // SAFETY: each pointer is a slice's, with its length; what is written
            // is borrowed mutably, so it overlaps nothing.
            unsafe { $symbol($($given),*) }
        }
    };
}

calls! {
    keeper_load as load(sheet: &[u8], stores: LentMut<'_>, detail: &mut [u64]);
    keeper_write as write(stores: Lent<'_>, output: &mut [u8], detail: &mut [u64]);
    keeper_audit as audit(stores: Lent<'_>, detail: &mut [u64]);
    keeper_plain_change as plain_change(change: &[u8], stores: LentMut<'_>, detail: &mut [u64]);
    keeper_quick_change as quick_change(change: &[u8], stores: LentMut<'_>, detail: &mut [u64]);
    keeper_depth as depth(stores: Lent<'_>, class_number: u16, detail: &mut [u64]);
}
