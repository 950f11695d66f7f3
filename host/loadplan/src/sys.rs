//! The proved archive's functions, as include/loadplan.h declares them, each behind a safe function on slices.
//!
//! This is the only module of the crate with `unsafe`. What every block in it relies on: the archive reads and writes no
//! more elements than the length beside a pointer says, and keeps no pointer beyond the call. A slice gives both, also an
//! empty one, whose pointer is not NULL and is not followed.
//!
//! Values come back in arrays, in the order that loadplan.h gives; a refusal is its number.

/// What the archive answers: the values, or the number of the refusal.
pub type Answer<const N: usize> = Result<[u64; N], u32>;

/// A plan's refusal (0 for none), with refusal 20 the reader's number, and how many records were written.
#[repr(C)]
#[derive(Clone, Copy, Debug, PartialEq, Eq)]
pub struct Planned {
    pub refusal: u32,
    pub reader: u32,
    pub records: u64,
}

extern "C" {
    fn loadplan_open(file: *const u8, file_len: usize, out: &mut [u64; 23]) -> u32;
    fn loadplan_section_at(file: *const u8, file_len: usize, i: usize, out: &mut [u64; 10]) -> u32;
    fn loadplan_segment_at(file: *const u8, file_len: usize, i: usize, out: &mut [u64; 8]) -> u32;
    fn loadplan_name_table(file: *const u8, file_len: usize, out: &mut [u64; 3]) -> u32;
    fn loadplan_section_by_name(
        file: *const u8,
        file_len: usize,
        name: *const u8,
        name_len: usize,
        out: &mut [u64; 2],
    ) -> u32;
    fn loadplan_section_data(
        file: *const u8,
        file_len: usize,
        kind: u32,
        offset: u64,
        size: u64,
        out: &mut [u64; 2],
    ) -> u32;
    fn loadplan_section_strings(
        file: *const u8,
        file_len: usize,
        kind: u32,
        offset: u64,
        size: u64,
        out: &mut [u64; 2],
    ) -> u32;
    fn loadplan_section_rels(
        file: *const u8,
        file_len: usize,
        kind: u32,
        offset: u64,
        size: u64,
        out: &mut [u64; 2],
    ) -> u32;
    fn loadplan_section_relas(
        file: *const u8,
        file_len: usize,
        kind: u32,
        offset: u64,
        size: u64,
        out: &mut [u64; 2],
    ) -> u32;
    fn loadplan_section_dynamic(
        file: *const u8,
        file_len: usize,
        kind: u32,
        offset: u64,
        size: u64,
        entsize: u64,
        out: &mut [u64; 2],
    ) -> u32;
    fn loadplan_section_symbols(
        file: *const u8,
        file_len: usize,
        offset: u64,
        size: u64,
        link: u32,
        entsize: u64,
        out: &mut [u64; 4],
    ) -> u32;
    fn loadplan_segment_data(file: *const u8, file_len: usize, offset: u64, filesz: u64, out: &mut [u64; 2]) -> u32;
    fn loadplan_symbol_table(file: *const u8, file_len: usize, out: &mut [u64; 5]) -> u32;
    fn loadplan_dynamic_symbol_table(file: *const u8, file_len: usize, out: &mut [u64; 5]) -> u32;
    fn loadplan_dynamic(file: *const u8, file_len: usize, out: &mut [u64; 3]) -> u32;
    fn loadplan_common(file: *const u8, file_len: usize, out: &mut [u64; 16]) -> u32;

    fn loadplan_section(
        class_: u8,
        order: u8,
        table: *const u8,
        table_len: usize,
        i: usize,
        out: &mut [u64; 10],
    ) -> u32;
    fn loadplan_segment(class_: u8, order: u8, table: *const u8, table_len: usize, i: usize, out: &mut [u64; 8])
        -> u32;
    fn loadplan_symbol(class_: u8, order: u8, table: *const u8, table_len: usize, i: usize, out: &mut [u64; 6]) -> u32;
    fn loadplan_rel(class_: u8, order: u8, table: *const u8, table_len: usize, i: usize, out: &mut [u64; 3]) -> u32;
    fn loadplan_rela(class_: u8, order: u8, table: *const u8, table_len: usize, i: usize, out: &mut [u64; 4]) -> u32;
    fn loadplan_dyn(class_: u8, order: u8, table: *const u8, table_len: usize, i: usize, out: &mut [u64; 2]) -> u32;

    fn loadplan_sections(
        class_: u8,
        order: u8,
        table: *const u8,
        table_len: usize,
        from: usize,
        out: *mut u64,
        out_len: usize,
    ) -> usize;
    fn loadplan_segments(
        class_: u8,
        order: u8,
        table: *const u8,
        table_len: usize,
        from: usize,
        out: *mut u64,
        out_len: usize,
    ) -> usize;
    fn loadplan_symbols(
        class_: u8,
        order: u8,
        table: *const u8,
        table_len: usize,
        from: usize,
        out: *mut u64,
        out_len: usize,
    ) -> usize;
    fn loadplan_packed_symbols(
        class_: u8,
        order: u8,
        table: *const u8,
        table_len: usize,
        from: usize,
        out: *mut u64,
        out_len: usize,
    ) -> usize;
    fn loadplan_rels(
        class_: u8,
        order: u8,
        table: *const u8,
        table_len: usize,
        from: usize,
        out: *mut u64,
        out_len: usize,
    ) -> usize;
    fn loadplan_relas(
        class_: u8,
        order: u8,
        table: *const u8,
        table_len: usize,
        from: usize,
        out: *mut u64,
        out_len: usize,
    ) -> usize;
    fn loadplan_dyns(
        class_: u8,
        order: u8,
        table: *const u8,
        table_len: usize,
        from: usize,
        out: *mut u64,
        out_len: usize,
    ) -> usize;

    fn loadplan_string(table: *const u8, table_len: usize, offset: usize, out: &mut [u64; 2]) -> u32;
    fn loadplan_string_utf8(table: *const u8, table_len: usize, offset: usize, out: &mut [u64; 2]) -> u32;
    fn loadplan_sysv_hash(name: *const u8, name_len: usize) -> u32;
    fn loadplan_hash_header(order: u8, table: *const u8, table_len: usize, out: &mut [u64; 2]) -> u32;
    fn loadplan_hash_find(
        class_: u8,
        order: u8,
        table: *const u8,
        table_len: usize,
        symbols: *const u8,
        symbols_len: usize,
        strings: *const u8,
        strings_len: usize,
        name: *const u8,
        name_len: usize,
        out: &mut [u64; 2],
    ) -> u32;

    fn loadplan_plan(
        file: *const u8,
        file_len: usize,
        window_start: u64,
        window_length: u64,
        table: *mut u8,
        table_len: usize,
    ) -> Planned;
    fn loadplan_carry_out(
        file: *const u8,
        file_len: usize,
        window_start: u64,
        window_length: u64,
        table: *const u8,
        table_len: usize,
        records: u64,
        memory: *mut u8,
        memory_len: usize,
    ) -> u32;
    fn loadplan_load(
        file: *const u8,
        file_len: usize,
        window_start: u64,
        window_length: u64,
        table: *mut u8,
        table_len: usize,
        memory: *mut u8,
        memory_len: usize,
    ) -> Planned;
}

/// Lends an array for the values of one answer.
#[inline]
fn answered<const N: usize>(ask: impl FnOnce(&mut [u64; N]) -> u32) -> Answer<N> {
    let mut out = [0; N];
    match ask(&mut out) {
        0 => Ok(out),
        refusal => Err(refusal),
    }
}

/// Safe functions for questions of a whole file that take numbers and answer with an array.
macro_rules! of_a_file {
    ($($(#[$doc:meta])* $name:ident = $c:ident ($($number:ident: $kind:ty),*) -> $values:literal;)*) => {$(
        $(#[$doc])*
        #[inline]
        pub fn $name(file: &[u8] $(, $number: $kind)*) -> Answer<$values> {
            // SAFETY: pointer and length are one slice's; out has as many elements as the header asks for.
            answered(|out| unsafe { $c(file.as_ptr(), file.len() $(, $number)*, out) })
        }
    )*};
}

of_a_file! {
    /// Opens a file.
    open = loadplan_open() -> 23;
    /// Section header `i`.
    section_at = loadplan_section_at(i: usize) -> 10;
    /// Program header `i`.
    segment_at = loadplan_segment_at(i: usize) -> 8;
    /// The table of section names.
    name_table = loadplan_name_table() -> 3;
    /// The bytes of a section.
    section_data = loadplan_section_data(kind: u32, offset: u64, size: u64) -> 2;
    /// The bytes of a section of strings.
    section_strings = loadplan_section_strings(kind: u32, offset: u64, size: u64) -> 2;
    /// The bytes of a section of relocations without addends.
    section_rels = loadplan_section_rels(kind: u32, offset: u64, size: u64) -> 2;
    /// The bytes of a section of relocations with addends.
    section_relas = loadplan_section_relas(kind: u32, offset: u64, size: u64) -> 2;
    /// The bytes of a section of dynamic entries.
    section_dynamic = loadplan_section_dynamic(kind: u32, offset: u64, size: u64, entsize: u64) -> 2;
    /// The bytes of a section of symbols, and of their strings.
    section_symbols = loadplan_section_symbols(offset: u64, size: u64, link: u32, entsize: u64) -> 4;
    /// The bytes of a segment that stand in the file.
    segment_data = loadplan_segment_data(offset: u64, filesz: u64) -> 2;
    /// The first symbol table and its strings.
    symbol_table = loadplan_symbol_table() -> 5;
    /// The first dynamic symbol table and its strings.
    dynamic_symbol_table = loadplan_dynamic_symbol_table() -> 5;
    /// The dynamic entries.
    dynamic = loadplan_dynamic() -> 3;
    /// The tables that most callers want, found in one walk over the sections.
    common = loadplan_common() -> 16;
}

/// Safe functions for the entries of a table: one entry, and as many as a lent array has room for.
macro_rules! of_a_table {
    ($($(#[$doc:meta])* $one:ident = $one_c:ident, $many:ident = $many_c:ident -> $values:literal;)*) => {$(
        $(#[$doc])*
        #[inline]
        pub fn $one(class: u8, order: u8, table: &[u8], i: usize) -> Answer<$values> {
            // SAFETY: pointer and length are one slice's; out has as many elements as the header asks for.
            answered(|out| unsafe { $one_c(class, order, table.as_ptr(), table.len(), i, out) })
        }

        /// The same for as many entries, from number `from` on, as there are and as `out` has room for; how many.
        #[inline]
        pub fn $many(class: u8, order: u8, table: &[u8], from: usize, out: &mut [u64]) -> usize {
            // SAFETY: each pointer and the length behind it are one slice's.
            unsafe { $many_c(class, order, table.as_ptr(), table.len(), from, out.as_mut_ptr(), out.len()) }
        }
    )*};
}

of_a_table! {
    /// Section header `i` of a table.
    section = loadplan_section, sections = loadplan_sections -> 10;
    /// Program header `i` of a table.
    segment = loadplan_segment, segments = loadplan_segments -> 8;
    /// Symbol `i` of a table.
    symbol = loadplan_symbol, symbols = loadplan_symbols -> 6;
    /// Relocation `i` of a table without addends.
    rel = loadplan_rel, rels = loadplan_rels -> 3;
    /// Relocation `i` of a table with addends.
    rela = loadplan_rela, relas = loadplan_relas -> 4;
    /// Dynamic entry `i` of a table.
    dyn_ = loadplan_dyn, dyns = loadplan_dyns -> 2;
}

/// The same as [symbols] with four values an entry: info, other and section index share the second.
#[inline]
pub fn packed_symbols(class: u8, order: u8, table: &[u8], from: usize, out: &mut [u64]) -> usize {
    // SAFETY: each pointer and the length behind it are one slice's.
    unsafe { loadplan_packed_symbols(class, order, table.as_ptr(), table.len(), from, out.as_mut_ptr(), out.len()) }
}

/// The first section with that name.
#[inline]
pub fn section_by_name(file: &[u8], name: &[u8]) -> Answer<2> {
    // SAFETY: each pointer and the length behind it are one slice's; out has two elements.
    answered(|out| unsafe { loadplan_section_by_name(file.as_ptr(), file.len(), name.as_ptr(), name.len(), out) })
}

/// The string at an offset of a string table.
#[inline]
pub fn string(table: &[u8], offset: usize) -> Answer<2> {
    // SAFETY: pointer and length are one slice's; out has two elements.
    answered(|out| unsafe { loadplan_string(table.as_ptr(), table.len(), offset, out) })
}

/// The string at an offset of a string table, if it is UTF-8.
#[inline]
pub fn string_utf8(table: &[u8], offset: usize) -> Answer<2> {
    // SAFETY: pointer and length are one slice's; out has two elements.
    answered(|out| unsafe { loadplan_string_utf8(table.as_ptr(), table.len(), offset, out) })
}

/// The SysV hash of a name.
#[inline]
pub fn sysv_hash(name: &[u8]) -> u32 {
    // SAFETY: pointer and length are one slice's.
    unsafe { loadplan_sysv_hash(name.as_ptr(), name.len()) }
}

/// The bucket count and the chain count of a SysV hash table whose parts lie in it.
#[inline]
pub fn hash_header(order: u8, table: &[u8]) -> Answer<2> {
    // SAFETY: pointer and length are one slice's; out has two elements.
    answered(|out| unsafe { loadplan_hash_header(order, table.as_ptr(), table.len(), out) })
}

/// Looks a name up in a SysV hash table over these symbols and strings.
#[inline]
pub fn hash_find(class: u8, order: u8, table: &[u8], symbols: &[u8], strings: &[u8], name: &[u8]) -> Answer<2> {
    // SAFETY: each pointer and the length behind it are one slice's; out has two elements.
    answered(|out| unsafe {
        loadplan_hash_find(
            class,
            order,
            table.as_ptr(),
            table.len(),
            symbols.as_ptr(),
            symbols.len(),
            strings.as_ptr(),
            strings.len(),
            name.as_ptr(),
            name.len(),
            out,
        )
    })
}

/// Plans a file for a window; the records go to the front of `table`.
#[inline]
pub fn plan(file: &[u8], window_start: u64, window_length: u64, table: &mut [u8]) -> Planned {
    // SAFETY: each pointer and the length behind it are one slice's.
    unsafe { loadplan_plan(file.as_ptr(), file.len(), window_start, window_length, table.as_mut_ptr(), table.len()) }
}

/// Carries the first `records` records of `table` out over `memory`; 0, or the number of the refusal.
#[inline]
pub fn carry_out(
    file: &[u8],
    window_start: u64,
    window_length: u64,
    table: &[u8],
    records: u64,
    memory: &mut [u8],
) -> u32 {
    // SAFETY: each pointer and the length behind it are one slice's.
    unsafe {
        loadplan_carry_out(
            file.as_ptr(),
            file.len(),
            window_start,
            window_length,
            table.as_ptr(),
            table.len(),
            records,
            memory.as_mut_ptr(),
            memory.len(),
        )
    }
}

/// Plans a file and carries the plan out over `memory`.
#[inline]
pub fn load(file: &[u8], window_start: u64, window_length: u64, table: &mut [u8], memory: &mut [u8]) -> Planned {
    // SAFETY: each pointer and the length behind it are one slice's.
    unsafe {
        loadplan_load(
            file.as_ptr(),
            file.len(),
            window_start,
            window_length,
            table.as_mut_ptr(),
            table.len(),
            memory.as_mut_ptr(),
            memory.len(),
        )
    }
}
