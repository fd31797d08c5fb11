//! Multiplication tables of finite semigroups: checks, invariants, generators, embeddings, isomorphisms, CSV text and
//! least degrees, over a library that is proved for every input.
//!
//! Start with [`Table`]: it is checked once, answers questions about itself, and walks through its maps to other tables.
//!
//! ```
//! use tickdrizzle::{Copies, Table};
//!
//! let swap = Table::load(b"1,2\r\n2,1\r\n")?;
//! let all = Table::transformations(2)?;
//! assert_eq!(swap.embeddings(&all).next(), Some(vec![2, 3]));
//! assert_eq!(swap.copies(&all), Copies::Number(1));
//! # Ok::<(), tickdrizzle::Refusal>(())
//! ```
//!
//! A table of order n is n × n bytes, row after row, each 1 to n: the cell in row i, column j is the product i·j. A map
//! is one byte for each source element, its image. Elements count from 1, and byte 0 stands for no element. [`Names`]
//! holds what elements are called.
//!
//! Below these stand the calls of the library as functions that take slices, such as [`first_embedding`]. Every call takes
//! any content, any order and buffers of any length. It answers what was asked for, or a [`Refusal`]: the earliest question
//! that failed. A refused call changes no byte of any buffer, and bytes after the part that a call is said to write stay as
//! they were. [`abi`] has the same calls with sixteen numbers, as C has them.
//!
//! # Threads
//!
//! No call keeps state or allocates, and every type here is `Send` and `Sync`: any number of threads may ask the same
//! tables at one time. A search between tables of order 120 needs up to 1 MB of stack, which Rust's own threads have.
//!
//! # Linking
//!
//! In the repository the package links the archive that `hosts/built exports` makes. Anywhere else it links the installed
//! library that `pkg-config` finds, and needs no toolchain but Rust's.

#![warn(missing_docs, clippy::missing_errors_doc)]

#[allow(missing_docs)]
pub mod abi;
mod answers;
mod names;
mod table;

use abi::Answer;
pub use answers::{Copies, IndexPeriod, LimitedSearch, MapCheck, Profile, Question, Refusal, Search, Side};
pub use names::Names;
pub use table::{Maps, Part, Table};

/// The greatest order of a table.
pub const GREATEST_ORDER: usize = 120;
/// The cells of a table of the greatest order.
pub const MOST_CELLS: usize = GREATEST_ORDER * GREATEST_ORDER;
/// The scratch bytes of a search between tables of the greatest order.
pub const MOST_SCRATCH: usize = scratch_size(GREATEST_ORDER, GREATEST_ORDER);
/// The text of a table of the greatest order whose cells have three digits each.
pub const LONGEST_TEXT: usize = 57_720;
/// The most names on a sheet.
pub const MOST_NAMES: usize = 120;
/// The most bytes of a name.
pub const LONGEST_NAME: usize = 40;
/// The greatest degree of a table of transformations.
pub const GREATEST_DEGREE: usize = 3;
/// The greatest number of copies that is counted.
pub const MOST_COPIES: usize = 65_535;
/// Stack bytes that are enough for any call, as measured.
pub const STACK: usize = 1_000_000;

/// The scratch bytes that a search between tables of these orders asks for: a bit for each pair.
#[must_use]
pub const fn scratch_size(source_order: usize, target_order: usize) -> usize {
    (source_order * target_order).div_ceil(8)
}

/// Makes a call and decodes what it answers.
fn answered<T>(call: impl FnOnce(&mut Answer), decode: impl FnOnce(&Answer) -> T) -> Result<T, Refusal> {
    let mut answer = [0; abi::ANSWERS];
    call(&mut answer);
    match Refusal::decode(&answer) {
        Some(refusal) => Err(refusal),
        None => Ok(decode(&answer)),
    }
}

/// What a call says of a [`Table`] or [`Names`], which were accepted before, with buffers that are long enough.
fn not_refused<T>(said: Result<T, Refusal>) -> T {
    said.expect("what was accepted is not refused")
}

/// Asks whether the cells are a table of this order.
///
/// # Errors
/// The earliest of the questions 1 to 4 that fails.
pub fn check_table(cells: &[u8], order: usize) -> Result<(), Refusal> {
    answered(|answer| abi::check_table(cells, order, answer), |_| ())
}

/// The least index p and period r of an element, for which power p + r equals power p, and the one power that is its
/// own square.
///
/// # Errors
/// The earliest of the questions 1 to 4 and 7 that fails.
pub fn index_period(cells: &[u8], order: usize, element: usize) -> Result<IndexPeriod, Refusal> {
    answered(|answer| abi::index_period(cells, order, element, answer), IndexPeriod::decode)
}

/// The profile of an element: index, period, the power that is its own square, how often the element stands in the
/// table, its diagonal, row and column, and how many elements it commutes with.
///
/// # Errors
/// The earliest of the questions 1 to 4 and 7 that fails.
pub fn profile(cells: &[u8], order: usize, element: usize) -> Result<Profile, Refusal> {
    answered(|answer| abi::profile(cells, order, element, answer), Profile::decode)
}

/// Asks whether a map is an embedding of the source in the target.
///
/// # Errors
/// The earliest of the questions 1 to 4 of the source, of the target, and 5 that fails.
pub fn check_map(
    source: &[u8],
    source_order: usize,
    target: &[u8],
    target_order: usize,
    map: &[u8],
) -> Result<MapCheck, Refusal> {
    answered(|answer| abi::check_map(source, source_order, target, target_order, map, answer), MapCheck::decode)
}

/// Asks whether the cells are a table of this order, by its generators: a list of elements of which all others are products,
/// in any order and with repeats. Only triples with their middle on the list are looked at, and of these the first that
/// fails is said; whether the table is accepted is what [`check_table`] says.
///
/// # Errors
/// The earliest of the questions 1 to 3, 50, 51 and 4 that fails.
pub fn check_generated(cells: &[u8], order: usize, generators: &[u8]) -> Result<(), Refusal> {
    answered(|answer| abi::check_generated(cells, order, generators, answer), |_| ())
}

/// Writes the smallest part of a table that holds the chosen elements and every product of its own members: its k elements,
/// in rising order, to the front of `elements`, and their table, renumbered 1 to k, to the front of `part`; k. The elements
/// are then an embedding of the part in the table.
///
/// # Errors
/// The earliest of the questions 1 to 4, 60, 61 and 62 that fails.
pub fn subsemigroup(
    cells: &[u8],
    order: usize,
    chosen: &[u8],
    part: &mut [u8],
    elements: &mut [u8],
) -> Result<usize, Refusal> {
    answered(|answer| abi::subsemigroup(cells, order, chosen, part, elements, answer), answers::size)
}

/// The searches, which differ in the map they are after.
macro_rules! searches {
    ($($(#[$says:meta])* $name:ident;)*) => {$(
        $(#[$says])*
        ///
        /// Found: `map` holds it. None: there is no such map, and `map` is as it was. After both, `scratch` begins with a bit
        /// for each pair, [`scratch_size`] bytes of them: with k = (i − 1) × target order + (j − 1), the bit worth 2 to the
        /// power k modulo 8 of byte k / 8 is 1 where target element j has the index and period (for isomorphisms: the profile;
        /// for reversed ones: the profile with row and column counts exchanged) of source element i, else 0. Unused bits of the
        /// last byte are 0.
        ///
        /// # Errors
        /// The earliest of the questions 1 to 4 of the source, of the target, 5 and 6 that fails.
        pub fn $name(
            source: &[u8],
            source_order: usize,
            target: &[u8],
            target_order: usize,
            map: &mut [u8],
            scratch: &mut [u8],
        ) -> Result<Search, Refusal> {
            answered(
                |answer| abi::$name(source, source_order, target, target_order, map, scratch, answer),
                Search::decode,
            )
        }
    )*};
}

searches! {
    /// The earliest embedding of the source in the target, lists compared byte by byte from the front.
    first_embedding;
    /// The earliest embedding that is later than the bytes in `map`, whatever they are.
    next_embedding;
    /// The earliest isomorphism of the source onto the target.
    first_isomorphism;
    /// The earliest isomorphism that is later than the bytes in `map`: called again and again from zeros, it finds each
    /// isomorphism once.
    next_isomorphism;
    /// The earliest reversed isomorphism of the source onto the target: one to one, onto, and the image of i·j is the image
    /// of j times the image of i.
    first_reversed_isomorphism;
    /// The earliest reversed isomorphism that is later than the bytes in `map`.
    next_reversed_isomorphism;
}

/// The searches for embeddings among given pairs.
macro_rules! searches_among {
    ($($(#[$says:meta])* $name:ident;)*) => {$(
        $(#[$says])*
        ///
        /// `pairs` has a bit for each pair, laid out as those of `scratch` are after [`first_embedding`]: 1 where source element i
        /// may go to target element j. An embedding is allowed if that holds for each element and its image. Unused bits and
        /// later bytes are not looked at. After found and none, `scratch` has a 1 exactly where it has one after
        /// [`first_embedding`] and `pairs` has one.
        ///
        /// # Errors
        /// The earliest of the questions 1 to 4 of the source, of the target, 5, 6 and 70 that fails.
        pub fn $name(
            source: &[u8],
            source_order: usize,
            target: &[u8],
            target_order: usize,
            pairs: &[u8],
            map: &mut [u8],
            scratch: &mut [u8],
        ) -> Result<Search, Refusal> {
            answered(
                |answer| abi::$name(source, source_order, target, target_order, pairs, map, scratch, answer),
                Search::decode,
            )
        }
    )*};
}

searches_among! {
    /// The earliest embedding of the source in the target that the pairs allow.
    first_embedding_among;
    /// The earliest embedding that the pairs allow and that is later than the bytes in `map`, whatever they are.
    next_embedding_among;
}

/// The searches with a limit, which differ in the map they are after.
macro_rules! limited_searches {
    ($($(#[$says:meta])* $name:ident;)*) => {$(
        $(#[$says])*
        ///
        /// A trial is one candidate, unused so far, tested as the image of the next element; images are tried in rising order,
        /// elements from 1 upward. Stopped: more trials are needed, `map` is as it was, and `scratch` is filled as after
        /// none. A larger limit never changes a map or a none.
        ///
        /// # Errors
        /// The earliest of the questions 1 to 4 of the source, of the target, 5 and 6 that fails.
        pub fn $name(
            source: &[u8],
            source_order: usize,
            target: &[u8],
            target_order: usize,
            map: &mut [u8],
            scratch: &mut [u8],
            limit: u32,
        ) -> Result<LimitedSearch, Refusal> {
            answered(
                |answer| abi::$name(source, source_order, target, target_order, map, scratch, limit, answer),
                LimitedSearch::decode,
            )
        }
    )*};
}

limited_searches! {
    /// The earliest embedding of the source in the target, within so many trials.
    first_embedding_within;
    /// The earliest isomorphism of the source onto the target, within so many trials.
    first_isomorphism_within;
    /// The earliest reversed isomorphism of the source onto the target, within so many trials.
    first_reversed_isomorphism_within;
}

/// Writes the table of all transformations of `degree` points, numbered in list order and composed from left to right,
/// to the front of `cells`; its order.
///
/// # Errors
/// The earliest of the questions 8 and 9 that fails.
pub fn transformations(degree: usize, cells: &mut [u8]) -> Result<usize, Refusal> {
    answered(|answer| abi::transformations(degree, cells, answer), answers::size)
}

/// Writes the cells of a CSV text to the front of `cells`; their order. Cells above the order load too: ask
/// [`check_table`].
///
/// # Errors
/// The earliest of the questions 20, 21, then 24, 23 and 25 of each field, 26, 1 and 27 that fails.
pub fn load(text: &[u8], cells: &mut [u8]) -> Result<usize, Refusal> {
    answered(|answer| abi::load(text, cells, answer), answers::size)
}

/// Writes the CSV text of the cells to the front of `text`; its length.
///
/// # Errors
/// The earliest of the questions 1, 2, 3 and 28 that fails.
pub fn save(cells: &[u8], order: usize, text: &mut [u8]) -> Result<usize, Refusal> {
    answered(|answer| abi::save(cells, order, text, answer), answers::size)
}

/// The fewest rest positions of a table: the least degree d from 1 to 3 whose table of transformations holds an embedding of
/// it, or `None`. Writes for each element in turn the d positions, each 1 to d, where its image under the first embedding
/// takes the points 1 to d, to the front of `positions`, which has at least three bytes for each element.
///
/// ```
/// // Two elements that exchange two positions.
/// let mut positions = [0; 6];
/// assert_eq!(tickdrizzle::least_degree(&[1, 2, 2, 1], 2, &mut positions), Ok(Some(2)));
/// assert_eq!(positions, [1, 2, 2, 1, 0, 0]);
/// ```
///
/// # Errors
/// The earliest of the questions 1 to 4 and 80 that fails.
pub fn least_degree(cells: &[u8], order: usize, positions: &mut [u8]) -> Result<Option<usize>, Refusal> {
    answered(|answer| abi::least_degree(cells, order, positions, answer), answers::degree)
}

/// Writes the names on a sheet, one after another, to the front of `names` and their lengths to the front of `lengths`; how
/// many there are. A sheet has one record for each name: its number, rising by one from 1, and the name, each quoted or not.
///
/// # Errors
/// The earliest of the questions 40, then 42 and 41 of each record, and 27 that fails.
pub fn load_names(text: &[u8], names: &mut [u8], lengths: &mut [u8]) -> Result<usize, Refusal> {
    answered(|answer| abi::load_names(text, names, lengths, answer), answers::size)
}

/// Writes the sheet of the names that stand one after another in `names`, with these lengths, to the front of `text`; its
/// length. Bytes of `names` past the last length are not looked at.
///
/// # Errors
/// The earliest of the questions 42, then 41 of each name, and 28 that fails.
pub fn save_names(names: &[u8], lengths: &[u8], text: &mut [u8]) -> Result<usize, Refusal> {
    answered(|answer| abi::save_names(names, lengths, text, answer), answers::size)
}

/// The number of different copies of the source in the target, that is of the image sets of its embeddings, up to 65,535, or that
/// there are more. Each copy comes from as many embeddings as the source has isomorphisms onto itself. After both, `scratch` is
/// as after [`first_embedding`].
///
/// # Errors
/// The earliest of the questions 1 to 4 of the source, of the target, and 6 that fails.
pub fn copies(
    source: &[u8],
    source_order: usize,
    target: &[u8],
    target_order: usize,
    scratch: &mut [u8],
) -> Result<Copies, Refusal> {
    answered(|answer| abi::copies(source, source_order, target, target_order, scratch, answer), Copies::decode)
}
