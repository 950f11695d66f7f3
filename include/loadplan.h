/* Loadplan: an ELF reader and a load plan, proved total and in bounds.
 *
 * Every function may be called with any bytes and any numbers: nothing is asked of the caller but that each pointer
 * points to as many elements as the length beside it says (a length of 0 asks for no element; the pointer is then not
 * followed, but must not be NULL for the Rust that calls through it). Nothing is allocated, nothing is kept between
 * calls, no function calls back, and no state of a caller is believed: whatever a question needs of a file it tests
 * again. What the functions answer is proved equal to the definitions that docs/CLAIMS.md names.
 *
 * An answer of 0 means that the values were written; any other answer is the number of a refusal, and then every lent
 * buffer is as it was. Ranges are pairs "from, to": the bytes from `from` up to, not including, `to`. Where something
 * may be absent, the first value says whether it is there (1) or not (0); the values behind a 0 are 0.
 *
 * Link with libloadplan.a. The archive needs memset, memcpy, memmove and memcmp of its host, and nothing else.
 */
#ifndef LOADPLAN_H
#define LOADPLAN_H

#include <stddef.h>
#include <stdint.h>

#ifdef __cplusplus
extern "C" {
#endif

/* Answers. The first test that fails, in the order of the format, decides; of a plan, the smallest number. */
enum loadplan_answer {
    LOADPLAN_OK = 0,
    LOADPLAN_BAD_MAGIC = 1,          /* the first four bytes are not 7f 45 4c 46 */
    LOADPLAN_BAD_CLASS = 2,          /* neither 32 nor 64 bits */
    LOADPLAN_BAD_ORDER = 3,          /* neither lowest nor highest byte first */
    LOADPLAN_BAD_VERSION = 4,        /* the identification's version is not 1 */
    LOADPLAN_BAD_OFFSET = 5,         /* an index or an offset beyond the end, or an empty table */
    LOADPLAN_NO_ZERO = 6,            /* a string without its zero byte */
    LOADPLAN_ENTRY_SIZE = 7,         /* an entry size that is not the format's */
    LOADPLAN_SECTION_TYPE = 8,       /* a section of another type */
    LOADPLAN_SEGMENT_TYPE = 9,       /* a segment of another type */
    LOADPLAN_ALIGNMENT = 10,         /* an alignment that cannot be */
    LOADPLAN_OUTSIDE = 11,           /* a range outside the data */
    LOADPLAN_OVERFLOW = 12,          /* a sum or a product that overflows 64 bits */
    LOADPLAN_NOT_UTF8 = 13,          /* a string that is not UTF-8 */
    LOADPLAN_NO_ROOM = 14,           /* no room in a lent table */
    LOADPLAN_NOT_OPENED = 20,        /* the file cannot be opened, is too long, or has no segments */
    LOADPLAN_FILE_TYPE = 21,         /* neither an executable nor position independent */
    LOADPLAN_SEGMENT_BYTES = 22,     /* file size above memory size, or bytes that are not in the file */
    LOADPLAN_SEGMENT_ALIGNMENT = 23, /* no power of two, or address and offset differ modulo it */
    LOADPLAN_WINDOW = 24,            /* addresses leave the window, or no such window */
    LOADPLAN_SEGMENT_ORDER = 25,     /* addresses not ascending, or pages that overlap */
    LOADPLAN_WRITE_EXECUTE = 26,     /* a segment that is writable and executable */
    LOADPLAN_ENTRY_POINT = 27        /* the entry point is not in an executable segment */
};

/* ---- a whole file ---------------------------------------------------------------------------------------------- */

/* Opens a file. out: class (1: 32 bits, 2: 64), order (1: lowest byte first, 2: highest), osabi, abiversion, version,
 * type, machine, entry, phoff, shoff, flags, ehsize, phentsize, phnum, shentsize, shnum, shstrndx; then the section
 * headers (there, from, to) and the program headers (there, from, to). */
uint32_t loadplan_open(const uint8_t *file, size_t file_len, uint64_t out[23]);

/* Section header i and program header i of a file, as loadplan_section and loadplan_segment give them. */
uint32_t loadplan_section_at(const uint8_t *file, size_t file_len, size_t i, uint64_t out[10]);
uint32_t loadplan_segment_at(const uint8_t *file, size_t file_len, size_t i, uint64_t out[8]);

/* The table of section names. out: there, from, to. */
uint32_t loadplan_name_table(const uint8_t *file, size_t file_len, uint64_t out[3]);

/* The first section with that name, whole and as UTF-8. out: there, its number. Some 1.5 KiB of stack. */
uint32_t loadplan_section_by_name(const uint8_t *file, size_t file_len, const uint8_t *name, size_t name_len, uint64_t out[2]);

/* The bytes of a section, by the numbers of its header (type 8 has none: 0, 0). The flag for compressed data is ignored.
 * out: from, to. _strings asks for type 3, _rels for 9, _relas for 4, _dynamic for 6 and the dynamic entry's size. */
uint32_t loadplan_section_data(const uint8_t *file, size_t file_len, uint32_t type, uint64_t offset, uint64_t size, uint64_t out[2]);
uint32_t loadplan_section_strings(const uint8_t *file, size_t file_len, uint32_t type, uint64_t offset, uint64_t size, uint64_t out[2]);
uint32_t loadplan_section_rels(const uint8_t *file, size_t file_len, uint32_t type, uint64_t offset, uint64_t size, uint64_t out[2]);
uint32_t loadplan_section_relas(const uint8_t *file, size_t file_len, uint32_t type, uint64_t offset, uint64_t size, uint64_t out[2]);
uint32_t loadplan_section_dynamic(const uint8_t *file, size_t file_len, uint32_t type, uint64_t offset, uint64_t size, uint64_t entsize, uint64_t out[2]);

/* A section as symbols, with the strings of the section that its link field names. out: from, to of the symbols, from, to of the strings. */
uint32_t loadplan_section_symbols(const uint8_t *file, size_t file_len, uint64_t offset, uint64_t size, uint32_t link, uint64_t entsize, uint64_t out[4]);

/* The bytes of a segment that stand in the file. out: from, to. */
uint32_t loadplan_segment_data(const uint8_t *file, size_t file_len, uint64_t offset, uint64_t filesz, uint64_t out[2]);

/* The symbols of the first section of type 2, of type 11. out: there, from, to of the symbols, from, to of the strings. */
uint32_t loadplan_symbol_table(const uint8_t *file, size_t file_len, uint64_t out[5]);
uint32_t loadplan_dynamic_symbol_table(const uint8_t *file, size_t file_len, uint64_t out[5]);

/* The dynamic entries: of the first section of type 6 if there are sections, else of the first segment of type 2. out: there, from, to. */
uint32_t loadplan_dynamic(const uint8_t *file, size_t file_len, uint64_t out[3]);

/* The last symbol tables of types 2 and 11 (5 values each), the dynamic entries of the last section of type 6, else of
 * the first segment of type 2 (3 values), and the last hash table of type 5 from its header to the end of its chains
 * (3 values); any fault among them is the answer. */
uint32_t loadplan_common(const uint8_t *file, size_t file_len, uint64_t out[16]);

/* ---- tables: a part of a file with entries of one kind. class_ and order as loadplan_open gives them ------------ */

/* Entry i. _section: name, type, flags, addr, offset, size, link, info, addralign, entsize. _segment: type, offset,
 * vaddr, paddr, filesz, memsz, flags, align. _symbol: name, shndx, info, other, value, size. _rel: offset, symbol, type.
 * _rela: offset, symbol, type, addend (two's complement). _dyn: tag (two's complement), value. */
uint32_t loadplan_section(uint8_t class_, uint8_t order, const uint8_t *table, size_t table_len, size_t i, uint64_t out[10]);
uint32_t loadplan_segment(uint8_t class_, uint8_t order, const uint8_t *table, size_t table_len, size_t i, uint64_t out[8]);
uint32_t loadplan_symbol(uint8_t class_, uint8_t order, const uint8_t *table, size_t table_len, size_t i, uint64_t out[6]);
uint32_t loadplan_rel(uint8_t class_, uint8_t order, const uint8_t *table, size_t table_len, size_t i, uint64_t out[3]);
uint32_t loadplan_rela(uint8_t class_, uint8_t order, const uint8_t *table, size_t table_len, size_t i, uint64_t out[4]);
uint32_t loadplan_dyn(uint8_t class_, uint8_t order, const uint8_t *table, size_t table_len, size_t i, uint64_t out[2]);

/* A walk, in batches: as many whole entries from number `from` on as there are and as `out` has room for, one behind the
 * other, the same values an entry. Answers how many; the rest of out is as it was. A class or an order that is neither
 * 1 nor 2 has no entries. _packed_symbols: four values an entry: the name; info in bits 0 to 7, other in 8 to 15, shndx in
 * 16 to 31; value; size. */
size_t loadplan_sections(uint8_t class_, uint8_t order, const uint8_t *table, size_t table_len, size_t from, uint64_t *out, size_t out_len);
size_t loadplan_segments(uint8_t class_, uint8_t order, const uint8_t *table, size_t table_len, size_t from, uint64_t *out, size_t out_len);
size_t loadplan_symbols(uint8_t class_, uint8_t order, const uint8_t *table, size_t table_len, size_t from, uint64_t *out, size_t out_len);
size_t loadplan_packed_symbols(uint8_t class_, uint8_t order, const uint8_t *table, size_t table_len, size_t from, uint64_t *out, size_t out_len);
size_t loadplan_rels(uint8_t class_, uint8_t order, const uint8_t *table, size_t table_len, size_t from, uint64_t *out, size_t out_len);
size_t loadplan_relas(uint8_t class_, uint8_t order, const uint8_t *table, size_t table_len, size_t from, uint64_t *out, size_t out_len);
size_t loadplan_dyns(uint8_t class_, uint8_t order, const uint8_t *table, size_t table_len, size_t from, uint64_t *out, size_t out_len);

/* The string at an offset of a string table, without its zero byte; _utf8 asks that it is UTF-8. out: from, to in the table. */
uint32_t loadplan_string(const uint8_t *table, size_t table_len, size_t offset, uint64_t out[2]);
uint32_t loadplan_string_utf8(const uint8_t *table, size_t table_len, size_t offset, uint64_t out[2]);

/* The SysV hash table. _header: bucket count, chain count. _find: the first symbol with that name in the chain of its
 * bucket; out: there, its number; some 1.3 KiB of stack. */
uint32_t loadplan_sysv_hash(const uint8_t *name, size_t name_len);
uint32_t loadplan_hash_header(uint8_t order, const uint8_t *table, size_t table_len, uint64_t out[2]);
uint32_t loadplan_hash_find(uint8_t class_, uint8_t order, const uint8_t *table, size_t table_len, const uint8_t *symbols, size_t symbols_len,
                            const uint8_t *strings, size_t strings_len, const uint8_t *name, size_t name_len, uint64_t out[2]);

/* ---- the load plan ---------------------------------------------------------------------------------------------- */

/* A plan: refusal 0 and how many records it has; or the refusal (20 to 27, 14), with 20 the reader's number, and no records. */
struct loadplan_planned {
    uint32_t refusal;
    uint32_t reader;
    uint64_t records;
};

/* A record of a plan: 48 bytes, six numbers of 8 bytes, lowest byte first, in this order. */
enum loadplan_record {
    LOADPLAN_RECORD_PAGE = 0,     /* where its pages start */
    LOADPLAN_RECORD_LENGTH = 8,   /* how long they are together */
    LOADPLAN_RECORD_FLAGS = 16,   /* 1 executable, 2 writable, 4 readable */
    LOADPLAN_RECORD_AT = 24,      /* where its file bytes start */
    LOADPLAN_RECORD_COUNT = 32,   /* how many they are */
    LOADPLAN_RECORD_FROM = 40,    /* from which offset of the file */
    LOADPLAN_RECORD_SIZE = 48
};

/* The plan of a file for a window of memory: start and length, multiples of 4,096, length at most 4 GiB; the file at
 * most 1 GiB. The records go to the front of the table; the rest of the table, and all of it on a refusal, is as it was. */
struct loadplan_planned loadplan_plan(const uint8_t *file, size_t file_len, uint64_t window_start, uint64_t window_length, uint8_t *table,
                                      size_t table_len);

/* Carries a plan out: memory is the window's bytes. All bytes of a record's pages become 0, then its file bytes are put
 * in place. Any table may be handed in: if one of its records does not lie in the window and the file, or memory_len is
 * not the window's length, or the table is too short for so many records, the answer is not 0 and memory is as it was. */
uint32_t loadplan_carry_out(const uint8_t *file, size_t file_len, uint64_t window_start, uint64_t window_length, const uint8_t *table,
                            size_t table_len, uint64_t records, uint8_t *memory, size_t memory_len);

/* Plans and carries out. On a refusal table and memory are as they were; memory_len must be window_length (24). */
struct loadplan_planned loadplan_load(const uint8_t *file, size_t file_len, uint64_t window_start, uint64_t window_length, uint8_t *table,
                                      size_t table_len, uint8_t *memory, size_t memory_len);

#ifdef __cplusplus
}
#endif

#endif
