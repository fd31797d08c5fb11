//! The calls as the library has them: slices in, sixteen numbers out. `tickdrizzle.h` says what each does.
//!
//! All unsafe code of this package is in the one macro here. What the library asks of a caller holds by the types: a slice
//! has as many bytes as its length says, its pointer is not null, and a `&mut` slice overlaps nothing else that is lent.

/// How many numbers an answer has.
pub const ANSWERS: usize = 16;

/// The number of the earliest failed question or 0, the side it names or 0, then values and zeros.
pub type Answer = [u64; ANSWERS];

/// Declares calls of the library, `tickdrizzle_` and the name, and makes a safe function of each. A slice is handed over as
/// a pointer and a length, any other argument as it is. The arguments are taken from the front one by one: those of the safe
/// function, the types that the library declares and the values handed over grow in the three brackets after them.
macro_rules! calls {
    ($($name:ident($($argument:tt)*);)*) => {
        $(calls! { @take $name ($($argument)*,) [] [] [] })*
    };
    (@take $name:ident ($slice:ident: &[u8], $($rest:tt)*) [$($safe:tt)*] [$($declared:tt)*] [$($value:tt)*]) => {
        calls! { @take $name ($($rest)*) [$($safe)* $slice: &[u8],] [$($declared)* _: *const u8, _: usize,]
            [$($value)* $slice.as_ptr(), $slice.len(),] }
    };
    (@take $name:ident ($slice:ident: &mut [u8], $($rest:tt)*) [$($safe:tt)*] [$($declared:tt)*] [$($value:tt)*]) => {
        calls! { @take $name ($($rest)*) [$($safe)* $slice: &mut [u8],] [$($declared)* _: *mut u8, _: usize,]
            [$($value)* $slice.as_mut_ptr(), $slice.len(),] }
    };
    (@take $name:ident ($number:ident: $type:ty, $($rest:tt)*) [$($safe:tt)*] [$($declared:tt)*] [$($value:tt)*]) => {
        calls! { @take $name ($($rest)*) [$($safe)* $number: $type,] [$($declared)* _: $type,] [$($value)* $number,] }
    };
    (@take $name:ident () [$($safe:tt)*] [$($declared:tt)*] [$($value:tt)*]) => {
        #[allow(clippy::too_many_arguments)]
        pub fn $name($($safe)* answer: &mut Answer) {
            extern "C" {
                #[link_name = concat!("tickdrizzle_", stringify!($name))]
                fn call($($declared)* _: *mut u64);
            }
            // SAFETY: The declaration is the header's. Each pointer and its length come from one slice; a slice that is
            // written, and the answer with its sixteen numbers, is borrowed by `&mut` and so overlaps no other.
            unsafe { call($($value)* answer.as_mut_ptr()) }
        }
    };
}

calls! {
    check_table(cells: &[u8], order: usize);
    index_period(cells: &[u8], order: usize, element: usize);
    profile(cells: &[u8], order: usize, element: usize);
    check_map(source: &[u8], source_order: usize, target: &[u8], target_order: usize, map: &[u8]);
    check_generated(cells: &[u8], order: usize, generators: &[u8]);
    subsemigroup(cells: &[u8], order: usize, chosen: &[u8], part: &mut [u8], elements: &mut [u8]);
    first_embedding(source: &[u8], source_order: usize, target: &[u8], target_order: usize, map: &mut [u8], scratch: &mut [u8]);
    next_embedding(source: &[u8], source_order: usize, target: &[u8], target_order: usize, map: &mut [u8], scratch: &mut [u8]);
    first_isomorphism(source: &[u8], source_order: usize, target: &[u8], target_order: usize, map: &mut [u8], scratch: &mut [u8]);
    next_isomorphism(source: &[u8], source_order: usize, target: &[u8], target_order: usize, map: &mut [u8], scratch: &mut [u8]);
    first_reversed_isomorphism(source: &[u8], source_order: usize, target: &[u8], target_order: usize, map: &mut [u8], scratch: &mut [u8]);
    next_reversed_isomorphism(source: &[u8], source_order: usize, target: &[u8], target_order: usize, map: &mut [u8], scratch: &mut [u8]);
    transformations(degree: usize, cells: &mut [u8]);
    load(text: &[u8], cells: &mut [u8]);
    save(cells: &[u8], order: usize, text: &mut [u8]);
    first_embedding_within(source: &[u8], source_order: usize, target: &[u8], target_order: usize, map: &mut [u8], scratch: &mut [u8], limit: u32);
    first_isomorphism_within(source: &[u8], source_order: usize, target: &[u8], target_order: usize, map: &mut [u8], scratch: &mut [u8], limit: u32);
    first_reversed_isomorphism_within(source: &[u8], source_order: usize, target: &[u8], target_order: usize, map: &mut [u8], scratch: &mut [u8], limit: u32);
    first_embedding_among(source: &[u8], source_order: usize, target: &[u8], target_order: usize, pairs: &[u8], map: &mut [u8], scratch: &mut [u8]);
    next_embedding_among(source: &[u8], source_order: usize, target: &[u8], target_order: usize, pairs: &[u8], map: &mut [u8], scratch: &mut [u8]);
    least_degree(cells: &[u8], order: usize, positions: &mut [u8]);
    load_names(text: &[u8], names: &mut [u8], lengths: &mut [u8]);
    save_names(names: &[u8], lengths: &[u8], text: &mut [u8]);
    copies(source: &[u8], source_order: usize, target: &[u8], target_order: usize, scratch: &mut [u8]);
}
