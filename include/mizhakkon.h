/*
 * The entries of libentries.a, for C and C++ on x86-64 Linux.
 *
 * Tables. Every table is plain bytes: its records one after another, little-endian, packed, without a header. A pointer may
 * have any alignment.
 *
 * Lending. Each table is lent for one call, as a pointer and a length in bytes. The pointer must not be NULL, even where the
 * length is 0, and the whole length must be readable, for an output also writable. NO TWO LENT TABLES OF ONE CALL MAY
 * OVERLAP, and nothing else may write to them during the call: an entry can't see either. There is no other duty: every
 * content and every length has an answer.
 *
 * Inputs are never written. An accepted output holds its records, and then zeros to the end of the lent bytes; in join_pieces,
 * write_srecords, mend_splits and import_elf lent bytes past an accepted output, and past its size or counts, stay as they were. After a
 * refusal every output is zeros throughout, unless the refusal says otherwise (61).
 *
 * Counts. Each entry whose outputs hold records is lent `counts` last: for each output before it, in order, how many records
 * it holds, a number of two bytes. `counts` is cut to what is lent: a number for which fewer than two bytes are left is not
 * written, and lent bytes without a number are zeros. Being short is never a reason to refuse.
 *
 * Numbers. An entry that gives one number has an output of four bytes for it. Where fewer are lent it is not written and they
 * are zeros, which is no reason to refuse either; lent bytes past it are zeros.
 *
 * Size. An output of plain bytes is followed by `size`: how many bytes it holds, a number of eight bytes. Where fewer are lent
 * it is not written, which is no reason to refuse; lent bytes without it, or past it, stay as they were.
 */
#ifndef MIZHAKKON_H
#define MIZHAKKON_H

#include <stddef.h>
#include <stdint.h>

#ifdef __cplusplus
extern "C" {
#endif

/*
 * Answers. 0 is accepted. Any other answer is a refusal: its number in the upper 16 bits, then its place, a section in 16
 * bits and an address in 32 bits.
 */
#define MIZHAKKON_ACCEPTED ((uint64_t)0)

static inline uint16_t mizhakkon_number(uint64_t answer)
{
    return (uint16_t)(answer >> 48);
}

static inline uint16_t mizhakkon_section(uint64_t answer)
{
    return (uint16_t)(answer >> 32);
}

static inline uint32_t mizhakkon_address(uint64_t answer)
{
    return (uint32_t)answer;
}

/* Refusals. */
#define MIZHAKKON_CUT 1        /* a table isn't whole records; address: how many whole ones it has, at most 0xFFFFFFFF. Or
                                  a record's bytes aren't all there; address: the record */
#define MIZHAKKON_TOO_MANY 2   /* a count above its ceiling; address: the first record too many */
#define MIZHAKKON_NAME 3       /* a name's byte or length, in stage tables also one that stands there twice; address: the record */
#define MIZHAKKON_SECTION 4    /* a section's end, kind or name; address: the record */
#define MIZHAKKON_SYMBOL 5     /* a symbol's section, name, kind, size known, start, end or alignment; address: the record */
#define MIZHAKKON_RELOCATION 6 /* a relocation's kind, section, target or address; address: the record */
#define MIZHAKKON_SPLIT 7      /* a split's names, alignment, flags, start or end; address: the record */
#define MIZHAKKON_UNIT 8       /* a unit's name or yes-or-no byte; address: the record */
#define MIZHAKKON_SHORT_LIST 10     /* `.ctors` or `.dtors` has 1 to 3 bytes; at the section and its start */
#define MIZHAKKON_BACKWARDS 11      /* a range starts above its end; at its section and its start */
#define MIZHAKKON_NO_SECTION 20     /* a section, or a split or piece that was asked for, isn't there; each entry says its place */
#define MIZHAKKON_END_OUTSIDE 21    /* merge, at the split's section and start, as to 27: it ends above its section's end */
#define MIZHAKKON_SEVERAL_SPLITS 22 /* its unit has several splits in the section */
#define MIZHAKKON_TWO_ALIGNMENTS 23 /* it and its unit's split have different alignments */
#define MIZHAKKON_COMMON_DIFFERS 24 /* one of the two is common, the other isn't */
#define MIZHAKKON_HAND_SPLIT 25     /* the joint range holds a hand split of another unit */
#define MIZHAKKON_EMPTY_RANGE 26    /* the joint range holds no split */
#define MIZHAKKON_SPLITS_FULL 27    /* the split table is full */
#define MIZHAKKON_NAMES_FULL 28     /* the name table is full */
#define MIZHAKKON_SEVERAL_BSS 30    /* a start is given, and several sections are named .bss */
#define MIZHAKKON_NO_BSS 31         /* a start is given, and no section is named .bss */
#define MIZHAKKON_BELOW_CURRENT 40  /* gaps, at the section and the current address, as to 42: the next split starts below it */
#define MIZHAKKON_NAME_MISFITS 41   /* a name occurs again in the gap, at no multiple of 4 */
#define MIZHAKKON_EMPTY_GAP 42      /* the gap would end where it starts */
#define MIZHAKKON_OVERLAP 50        /* check, at the split's section and start, as to 54: it starts below the end of the one before */
#define MIZHAKKON_BAD_END 51        /* it ends at 0, or below its start */
#define MIZHAKKON_START_INSIDE 52   /* it starts inside a symbol */
#define MIZHAKKON_END_INSIDE 53     /* it ends inside a symbol */
#define MIZHAKKON_NO_FALL 54        /* trim: its end falls, but the last split at that start ends at or below it and isn't open */
#define MIZHAKKON_ORDER_TWICE 60    /* two units have one order number */
#define MIZHAKKON_CYCLE 61     /* the edges hold a cycle */
#define MIZHAKKON_NO_NODE 62   /* an edge from or to no node; address: the edge's number */
#define MIZHAKKON_NO_SPLIT 70  /* walk, at the section and the current address, as to 75: no split there */
#define MIZHAKKON_NOT_CURRENT 71 /* the first split doesn't start at the section's start */
#define MIZHAKKON_OUTSIDE 72   /* the range behind a split lies outside its section */
#define MIZHAKKON_NONZERO 73   /* a byte behind a split isn't zero */
#define MIZHAKKON_NOT_LISTED 74 /* the split's unit isn't in the unit table */
#define MIZHAKKON_MISFIT 75    /* the split's alignment doesn't fit its start */
#define MIZHAKKON_NO_ROOM 76   /* an output table has fewer places than are needed */
#define MIZHAKKON_SHORT_OUTPUT 80 /* the lent output is too short; at (0, 0), as 82, 83, 86 and 87 */
#define MIZHAKKON_NO_BYTES 82  /* a piece names no section that holds bytes, or reaches outside it */
#define MIZHAKKON_DIFFER 83    /* two pieces of one section differ at an address */
#define MIZHAKKON_NO_MEND 86   /* a mended end would be 0 or below its start */
#define MIZHAKKON_SHARED 87    /* two sections that hold bytes share an address */
#define MIZHAKKON_NOT_ELF 88   /* no ELF32 executable for PowerPC, or its header is cut; at (0, 0), as 89 */
#define MIZHAKKON_ELF_CUT 89   /* a table, section or name that is needed reaches outside the ELF file or its string table */

/* Ceilings. */
#define MIZHAKKON_MAX_NAMES 4096
#define MIZHAKKON_MAX_SECTIONS 64
#define MIZHAKKON_MAX_SYMBOLS 4096
#define MIZHAKKON_MAX_RELOCATIONS 4096
#define MIZHAKKON_MAX_SPLITS 1024
#define MIZHAKKON_MAX_UNITS 1024
#define MIZHAKKON_MAX_NODES 1024
#define MIZHAKKON_MAX_EDGES 2048
#define MIZHAKKON_MAX_PIECES 1024
#define MIZHAKKON_MAX_FILE 65536 /* bytes of a record file */

/* Kinds of a relocation: those of the Rust's ObjRelocKind, in its order, and what they are in the PowerPC ABI. */
#define MIZHAKKON_RELOC_ABSOLUTE 0  /* Absolute: R_PPC_ADDR32 */
#define MIZHAKKON_RELOC_ADDR16_HI 1 /* PpcAddr16Hi: R_PPC_ADDR16_HI */
#define MIZHAKKON_RELOC_ADDR16_HA 2 /* PpcAddr16Ha: R_PPC_ADDR16_HA */
#define MIZHAKKON_RELOC_ADDR16_LO 3 /* PpcAddr16Lo: R_PPC_ADDR16_LO */
#define MIZHAKKON_RELOC_REL24 4     /* PpcRel24: R_PPC_REL24 */
#define MIZHAKKON_RELOC_REL14 5     /* PpcRel14: R_PPC_REL14 */
#define MIZHAKKON_RELOC_EMB_SDA21 6 /* PpcEmbSda21: R_PPC_EMB_SDA21 */

/*
 * Sorts nodes so that every edge goes from an earlier to a later node, or finds a cycle.
 *
 *   nodes      how many nodes there are; they have the numbers 0 to nodes - 1
 *   edges      records of 4 bytes: from 2, to 2
 *   out_nodes  out: records of 2 bytes, a node each, in order
 *   counts     out: the number of records in out_nodes
 *
 * Of the possible orders it is that of a depth-first search that takes the nodes by number and a node's edges as they
 * stand in the table: when the last edge of a node is done, the node is put before all that were put so far.
 *
 * Refused, the first that holds:
 *   2   at (0, 1024)   more than 1,024 nodes
 *   1   at (0, n)      edges_len is no multiple of 4; n whole edges
 *   2   at (0, 2048)   more than 2,048 edges
 *   62  at (0, n)      edge n, the first such, is from or to a number that is no node's
 *   76  at (0, 0)      out_nodes has fewer places than there are nodes
 *   61  at (0, 0)      a cycle: out_nodes holds its nodes, each with an edge to the next and the last with one to the first,
 *                      then zeros, and counts holds its length
 */
uint64_t toposort(uint32_t nodes,
                  const uint8_t *edges, size_t edges_len,
                  uint8_t *out_nodes, size_t out_nodes_len,
                  uint8_t *counts, size_t counts_len);

/*
 * Checks a record file as the run does before it starts.
 *
 *   file    records one after another: the length of the payload 4, a kind 2, the payload (name 1, section 2, symbol 3,
 *           relocation 4, partial split 5, unit 6)
 *   counts  out: how many names, sections, symbols, relocations, splits and units it has, a repeated name not counted;
 *           zeros after a refusal
 *
 * A record refers only to records before it; a split's section isn't asked.
 *
 * Refused, the first that holds, n being the record's number in the file, from 0:
 *   1       at (0, 0)   file_len above 65,536
 *   1       at (0, n)   record n is cut, of unknown kind, or its payload has a length that its kind doesn't have
 *   2       at (0, n)   one more of its kind than its ceiling
 *   3 to 8  at (0, n)   a fault of its kind, kind + 2: name 3, section 4, symbol 5, relocation 6, split 7, unit 8
 */
uint64_t check_file(const uint8_t *file, size_t file_len,
                    uint8_t *counts, size_t counts_len);

/*
 * Checks the tables of an image: names, sections with their bytes, symbols, relocations, splits, units. Every other entry
 * makes the same checks of the tables that it takes, in the same order.
 *
 *   name_ends       records of 2 bytes: where a name ends in name_bytes; it starts where the one before it ends, the first at 0
 *   name_bytes      the names' bytes; bytes past the last end are no fault
 *   sections        records of 15 bytes: name 2, kind 1 (0 code, 1 data, 2 read-only, 3 bss), address 4, size 4, file offset 4
 *   section_places  records of 4 bytes: where the section of the same number starts in image; not looked at for kind 3
 *   image           bytes that hold the sections' bytes
 *   symbols         records of 20 bytes: name 2, section 2 (0xFFFF none), address 4, size 4, size known 1, kind 1 (0 unknown,
 *                   1 function, 2 object, 3 section), flags 2, alignment 4 (0 none)
 *   relocations     records of 23 bytes: section 2, address 4, kind 1 (0 Absolute, 1 PpcAddr16Hi, 2 PpcAddr16Ha, 3 PpcAddr16Lo,
 *                   4 PpcRel24, 5 PpcRel14, 6 PpcEmbSda21: MIZHAKKON_RELOC_..), target 4 (a symbol), addend 8 signed, module 4 (0xFFFFFFFF none)
 *   splits          records of 21 bytes: section 2, start 4, end 4 (0 open), unit 2 (a name), alignment 4 (0 none), flags 1
 *                   (1 common, 2 autogenerated, 4 skip), rename 2 (a name; 0xFFFF none), origin 2 (the number of the hand-made
 *                   partial split that made it, the least of several; 0xFFFF none; it is not checked)
 *   units           records of 8 bytes: name 2, autogenerated 1, has order 1, order 4 signed
 *
 * A name, section or symbol is referred to by its number in its table, from 0. An end is an address plus a size. An alignment
 * is bad if it isn't 0, and isn't a power of two up to 65,536.
 *
 * Refused, the first that holds; the tables stand in the order of the parameters. For each table, w bytes a record:
 *   1   at (0, n)        its length is no multiple of w; n whole records
 *   2   at (0, ceiling)  more records than its ceiling
 * and then for its records in order, at (0, n) for record n:
 *   names
 *     1   its end is below its start or above name_bytes_len
 *     3   a byte outside 0x21 to 0x7E, more than 128 bytes, or equal to an earlier name
 *   sections
 *     1   its kind isn't 3, and it has no place, or its place plus its size is above image_len
 *     4   an end above 0xF0000000, an unknown kind, a name that is unknown, empty or longer than 64 bytes
 *   symbols
 *     5   an unknown section, name or kind, size known above 1, an address outside its section (its end is inside), an end
 *         above 0xF0000000, a bad alignment
 *   relocations
 *     6   an unknown kind, section or target, an address that is no multiple of 4, outside its section (its end is outside),
 *         or not above that of the last relocation before it in the section
 *   splits
 *     7   a unit or a rename that is unknown or empty, a bad alignment, flags above 7, a start or end above 0xF0000000, an
 *         unknown section, an end above the section's end, a section below that of the split before, or the same section and
 *         a start below its start
 *   units
 *     8   a name that is unknown or empty, autogenerated or has order above 1
 */
uint64_t check_tables(const uint8_t *name_ends, size_t name_ends_len,
                      const uint8_t *name_bytes, size_t name_bytes_len,
                      const uint8_t *sections, size_t sections_len,
                      const uint8_t *section_places, size_t section_places_len,
                      const uint8_t *image, size_t image_len,
                      const uint8_t *symbols, size_t symbols_len,
                      const uint8_t *relocations, size_t relocations_len,
                      const uint8_t *splits, size_t splits_len,
                      const uint8_t *units, size_t units_len);

/*
 * Gives the splitting end of a section: how far it may be split. That is its address plus its size; less 4 if it is `.ctors`
 * or `.dtors` and its last four bytes are zero; and then, while the last symbol below it has a linker object's name, that
 * symbol's address. Symbols here are the section's objects (kind 2) of known size above 0 that aren't stripped, the last by
 * address and then by number; the names are `_eti_init_info`, `_rom_copy_info`, `_bss_init_info`, `_ctors$99` and
 * `_dtors$99`. A section of kind 3 or of size 0 ends at its address plus its size, whatever its name and its symbols.
 *
 *   name_ends .. symbols  the tables as check_tables takes them
 *   section               the number of the section that is asked
 *   end                   out: the end, 4 bytes
 *
 * Refused, the first that holds:
 *   1 to 5  as check_tables refuses these tables
 *   20      at (section, 0)          there is no section of this number
 *   10      at (section, its start)  it is `.ctors` or `.dtors`, not of kind 3, and has 1 to 3 bytes
 */
uint64_t end_for_section(const uint8_t *name_ends, size_t name_ends_len,
                         const uint8_t *name_bytes, size_t name_bytes_len,
                         const uint8_t *sections, size_t sections_len,
                         const uint8_t *section_places, size_t section_places_len,
                         const uint8_t *image, size_t image_len,
                         const uint8_t *symbols, size_t symbols_len,
                         uint16_t section,
                         uint8_t *end, size_t end_len);

/*
 * Gives the alignment of a split: the given one, else the larger of its section's default (4 for code, `.ctors`, `.dtors`,
 * `extab` and `extabindex`, else 8) and the highest alignment of the section's symbols of known size above 0, stripped ones
 * too, that lie at or above its start and below its end.
 *
 *   name_ends .. splits  the tables as check_tables takes them, without relocations
 *   which                the number of the split that is asked
 *   alignment            out: the alignment, 4 bytes
 *
 * Refused, the first that holds:
 *   1 to 5, 7  as check_tables refuses these tables
 *   20         at (0, which)                there is no split of this number
 *   11         at (its section, its start)  no alignment is given, it starts above its end, and its section has a symbol
 */
uint64_t split_alignment(const uint8_t *name_ends, size_t name_ends_len,
                         const uint8_t *name_bytes, size_t name_bytes_len,
                         const uint8_t *sections, size_t sections_len,
                         const uint8_t *section_places, size_t section_places_len,
                         const uint8_t *image, size_t image_len,
                         const uint8_t *symbols, size_t symbols_len,
                         const uint8_t *splits, size_t splits_len,
                         uint16_t which,
                         uint8_t *alignment, size_t alignment_len);

/*
 * Marks common: every split of the section named .bss from the given start on, else from the first common one on, becomes
 * common. "On" is by address, so splits that start where the first common one does become common too.
 *
 *   name_ends, name_bytes, sections, splits   as for check_tables
 *   has_start   0: no start; anything else: start is one
 *   start       an address; it need not lie in the section
 *   out_splits  out: the splits, in the same order
 *   counts      out: the number of records in out_splits
 *
 * Without a start nothing changes where no split of the .bss is common, and where no section or several are named .bss.
 *
 * Refused, the first that holds:
 *   1 to 4, 7   as for check_tables: names, sections (their bytes aren't asked), splits. The ceiling of splits is 1,024, or
 *               as many whole records as out_splits holds
 *   30          at (0, 0)   has_start isn't 0, and several sections are named .bss
 *   31          at (0, 0)   has_start isn't 0, and none is
 */
uint64_t update_common_splits(const uint8_t *name_ends, size_t name_ends_len,
                              const uint8_t *name_bytes, size_t name_bytes_len,
                              const uint8_t *sections, size_t sections_len,
                              const uint8_t *splits, size_t splits_len,
                              uint8_t has_start, uint32_t start,
                              uint8_t *out_splits, size_t out_splits_len,
                              uint8_t *counts, size_t counts_len);

/* A split as a struct: the fields of a split's record. */
typedef struct {
    uint16_t section;
    uint32_t start;
    uint32_t end; /* 0: open */
    uint16_t unit;
    uint32_t alignment; /* 0: none */
    uint8_t flags; /* 1 common, 2 autogenerated, 4 skip */
    uint16_t rename; /* 0xFFFF: none */
    uint16_t origin; /* 0xFFFF: none */
} mizhakkon_split;

/*
 * Marks common in split structs: sets flag 1 of those whose section is `section` and that start at `address` or above, and
 * leaves everything else as it was. Here the length is the number of structs, and the pointer has the alignment of the struct.
 */
void mark_common_splits(mizhakkon_split *splits, size_t splits_count, uint16_t section, uint32_t address);

/*
 * Checks a split table against itself and the symbols.
 *
 *   name_ends .. splits  the tables as check_tables takes them; the sections' bytes aren't asked
 *
 * Refused, the first that holds:
 *   1 to 5, 7   as check_tables refuses these tables
 *   then at (section, start) of the first split that breaks a rule:
 *   50          it starts below the end of the split before it in its section
 *   51          it ends at 0, or below its start
 *   52          it starts inside a symbol
 *   53          it ends inside a symbol
 * For 52 and 53 only the last symbol of its section below the address is looked at that has a known size above 0 and isn't
 * stripped.
 */
uint64_t validate_splits(const uint8_t *name_ends, size_t name_ends_len,
                         const uint8_t *name_bytes, size_t name_bytes_len,
                         const uint8_t *sections, size_t sections_len,
                         const uint8_t *symbols, size_t symbols_len,
                         const uint8_t *splits, size_t splits_len);

/*
 * Trims the ends of splits: each falls to the end of the last symbol in the split that has a known size above 0 and isn't stripped, aligned up
 * by the split's alignment; in the last split at that start, if several start there. Then, where a section's splitting end isn't its
 * end, its last split is cut to the splitting end if it ends above it.
 *
 *   name_ends .. splits  the tables as check_tables takes them, without relocations
 *   out_splits           out: the splits, in the same order
 *   counts               out: the number of records in out_splits
 *
 * Refused, the first that holds:
 *   1 to 5, 7   as check_tables refuses these tables. The ceiling of splits is 1,024, or as many whole records as out_splits holds
 *   11          at (section, start)      a range of symbols starts above its end, and the section has a symbol
 *   54          at (section, start)      an end falls, but the last split at that start ends at or below it and isn't open
 *   10          at (section, its start)  the section is `.ctors` or `.dtors`, not of kind 3, and has 1 to 3 bytes
 */
uint64_t trim_splits(const uint8_t *name_ends, size_t name_ends_len,
                     const uint8_t *name_bytes, size_t name_bytes_len,
                     const uint8_t *sections, size_t sections_len,
                     const uint8_t *section_places, size_t section_places_len,
                     const uint8_t *image, size_t image_len,
                     const uint8_t *symbols, size_t symbols_len,
                     const uint8_t *splits, size_t splits_len,
                     uint8_t *out_splits, size_t out_splits_len,
                     uint8_t *counts, size_t counts_len);

/*
 * Merges partial splits into a split table, one after another.
 *
 *   name_ends, name_bytes, sections, splits   as for check_tables; the sections' bytes aren't looked at
 *   partials    records of 19 bytes, as in splits but without an origin: the partial splits; in any order, and their sections and ends are left to
 *               20 and 21. Partial split n, from 0, has the origin n, or 0xFFFF if it is autogenerated
 *   out_splits  out: the merged split table, records as in splits
 *   counts      out: the number of records in out_splits
 *
 * A partial split whose unit has no split in its section is put into the table, which lies by section, start, then end, the
 * newer of equals last. If it has one, both become one with the lower start and the higher end; autogenerated splits that start
 * in the joint range go, and their units take the new unit's name in all sections. A split inside its unit's own, or an
 * autogenerated one whose joint range holds a hand split, changes nothing. An end of 0 is open. The joint split has the smaller origin.
 *
 * Refused, the first that holds; names, sections, splits and partials are checked as by check_tables, in this order, but:
 *   2   at (0, n)   splits has more than n records: n is 1,024, or how many whole records out_splits_len has, if fewer
 *   7   at (0, n)   for partials: of a split's faults only those of its names, alignment, flags, start and end
 * and then for each partial split, at its section and start, after a join at those of the joint split:
 *   20  its section isn't there
 *   21  it ends above its section's end
 *   22  its unit has several splits in the section
 *   23  it and its unit's split both have an alignment, and they differ
 *   24  one of the two is common, the other isn't
 *   11  at the joint start: the joint range starts above its end
 *   25  the joint range holds a hand split of another unit
 *   26  the joint range holds no split
 *   27  its unit has no split in the section, and out_splits holds no more
 */
uint64_t add_splits(const uint8_t *name_ends, size_t name_ends_len,
                    const uint8_t *name_bytes, size_t name_bytes_len,
                    const uint8_t *sections, size_t sections_len,
                    const uint8_t *splits, size_t splits_len,
                    const uint8_t *partials, size_t partials_len,
                    uint8_t *out_splits, size_t out_splits_len,
                    uint8_t *counts, size_t counts_len);

/*
 * Mends a split list that overlaps. In each section an end that is 0, below its start or above the next split's start is replaced by that start, or by the section's
 * end for the section's last split; nothing else changes. The list given back has no overlap and no end that is 0 or below its start (50 and 51 of
 * validate_splits), and passes every table check; a list that has neither comes back as it was, with no line.
 *
 *   name_ends, name_bytes, sections, splits   as for check_tables; the sections' bytes aren't asked
 *   out_splits   out: the mended split table
 *   lines        out: a line for each end that was replaced, in table order: the section's number in decimal, then start, old end and new end in eight
 *                upper-case hexadecimal digits each, one blank between, a line feed at the end; at most 30 bytes each
 *   counts       out: the number of records in out_splits, and the number of bytes in lines
 *
 * Refused, the first that holds:
 *   1 to 4, 7   as check_tables refuses these tables; 2 of the splits where out_splits holds fewer
 *   86  at (0, 0)   a new end would be 0 or below its start
 *   80  at (0, 0)   the lines don't fit
 */
uint64_t mend_splits(const uint8_t *name_ends, size_t name_ends_len,
                     const uint8_t *name_bytes, size_t name_bytes_len,
                     const uint8_t *sections, size_t sections_len,
                     const uint8_t *splits, size_t splits_len,
                     uint8_t *out_splits, size_t out_splits_len,
                     uint8_t *lines, size_t lines_len,
                     uint8_t *counts, size_t counts_len);

/*
 * Gives the units that have splits in an order in which they can be linked, or shows a cycle of them.
 *
 *   name_ends, name_bytes, sections, splits, units   as for check_tables; the sections' bytes aren't asked
 *   out_units   out: records as in units, one for each unit that has a split, in order
 *   counts      out: the number of records in out_units
 *
 * Unit a must stand before unit b
 *   - if a split of a and then one of b are neighbours in the split table, in one section, unless the second alone is common,
 *     or the first is the first split of a section named `.ctors` or `.dtors`; or
 *   - if a's and b's records are neighbours by order number, lowest first, among the records that have an order number and
 *     whose units have splits.
 * A unit's record is the first of its name in units, as it stands; a unit without one gets a record without an order number,
 * autogenerated if all its splits are. Of the possible orders it is that of toposort, with the units by their first split
 * as nodes, and as edges the neighbours as they lie in the table, then those by order number.
 *
 * Refused, the first that holds:
 *   1 to 4, 7, 8   as check_tables refuses these tables
 *   60             at (0, 0)   two unit records that have an order number have the same one
 *   76             at (0, 0)   out_units has no room for the records of all units that have splits
 *   61             at (0, 0)   there is a cycle: out_units holds the records of its units, each of which must stand before the
 *                              next and the last before the first, none twice; their number is in counts, zeros follow
 */
uint64_t resolve_link_order(const uint8_t *name_ends, size_t name_ends_len,
                            const uint8_t *name_bytes, size_t name_bytes_len,
                            const uint8_t *sections, size_t sections_len,
                            const uint8_t *splits, size_t splits_len,
                            const uint8_t *units, size_t units_len,
                            uint8_t *out_units, size_t out_units_len,
                            uint8_t *counts, size_t counts_len);

/*
 * Walks the sections: gives the pieces of each unit, with their symbols and relocations, in the order of the walk.
 *
 *   name_ends .. units  the tables as check_tables takes them
 *   pieces              out: 30 bytes each: unit 2 (its place in units), number in its unit 2, section 2, name 2, address 4, size 4,
 *                       alignment 4, offset in the file 8, origin of its split 2
 *   piece_symbols       out: 12 bytes each: unit 2, piece 2 (its place in pieces, 0xFFFF for common), symbol 2 (its place in symbols), flags 2,
 *                       address 4 (in the piece; of a common one its alignment, or 4)
 *   piece_relocations   out: 8 bytes each: piece 2, relocation 2 (its place in relocations), offset in the piece 4, rounded down to fours
 *   counts              out: the numbers of records in pieces, piece_symbols and piece_relocations
 *
 * The first split of a section starts at its start; bytes between two splits, or from the last to the splitting end, are zero. A skipped split gives
 * nothing, a common one no piece and no relocations. A unit has each symbol once. Of units with one name the last takes the pieces.
 *
 * Refused, the first that holds:
 *   1 to 8      as check_tables refuses these tables
 *   10          at (section, its start)  the section is `.ctors` or `.dtors`, not of kind 3, and has 1 to 3 bytes
 * and then for each split, at (section, current), where current is the start of the split before which the walk stands:
 *   70          no split is left, but the splitting end isn't reached
 *   71          the split doesn't start there
 *   72          the range from its end to the next start, or to the splitting end, lies outside the section
 *   73          that range has a byte that isn't 0
 *   74          its unit isn't in units
 *   11          its range starts above its end, and its alignment has to be asked of symbols
 *   75          its alignment, halved while it is above 4, doesn't fit its start
 *   11          its range starts above its end, and the section has a relocation or a symbol, or the split isn't common
 *   76          one of the output tables has no room for what it gives: 1,024 pieces, 4,096 piece symbols, 4,096 piece relocations, or as many whole
 *               records as are lent
 */
uint64_t split_obj(const uint8_t *name_ends, size_t name_ends_len,
                   const uint8_t *name_bytes, size_t name_bytes_len,
                   const uint8_t *sections, size_t sections_len,
                   const uint8_t *section_places, size_t section_places_len,
                   const uint8_t *image, size_t image_len,
                   const uint8_t *symbols, size_t symbols_len,
                   const uint8_t *relocations, size_t relocations_len,
                   const uint8_t *splits, size_t splits_len,
                   const uint8_t *units, size_t units_len,
                   uint8_t *pieces, size_t pieces_len,
                   uint8_t *piece_symbols, size_t piece_symbols_len,
                   uint8_t *piece_relocations, size_t piece_relocations_len,
                   uint8_t *counts, size_t counts_len);

/*
 * Says where the bytes of a piece of split_obj lie in the image, so that they are read there and nothing is copied: `length` bytes of the image from
 * `offset` on. They never pass the image. A piece of a section of kind 3 has no bytes: offset 0 and length 0, whatever its size.
 *
 *   sections, section_places, image  as split_obj took them; of the image only the length is asked
 *   pieces                           as split_obj gave them, cut to their count; 30 bytes each
 *   which                            the number of the piece that is asked, its place in pieces
 *   place                            out: offset 4, length 4. Where fewer than 8 bytes are lent it is not written and they are zeros
 *
 * Nothing else of the tables is checked: no names, no other section, no other piece. Refused, the first that holds:
 *   1   at (0, whole records)      sections isn't whole records of 15 bytes
 *   2   at (0, 64)                 it has more than 64
 *   1   at (0, whole records)      pieces isn't whole records of 30 bytes
 *   2   at (0, 1024)               it has more than 1,024
 *   20  at (0, which)              there is no piece of this number
 *   20  at (its section, 0)        there is no section of the number that the piece has
 *   1   at (0, its section)        the section isn't of kind 3, and has no place, or its place plus its size is above the image's length or 0xFFFFFFFF
 *   72  at (its section, address)  the piece starts below the section's start, or ends above its end
 */
uint64_t piece_bytes(const uint8_t *sections, size_t sections_len,
                     const uint8_t *section_places, size_t section_places_len,
                     const uint8_t *image, size_t image_len,
                     const uint8_t *pieces, size_t pieces_len,
                     uint32_t which,
                     uint8_t *place, size_t place_len);

/*
 * Puts an image back from its pieces: writes the bytes of the sections that hold bytes (kind 0 to 2), by number and one after another, each section's size in
 * bytes. At each address stands the byte of the pieces that lie there, and 0 where none lies. Pieces may overlap if they agree, and their order alters nothing.
 *
 *   name_ends, name_bytes, sections   as for check_tables; the sections' bytes aren't looked at
 *   pieces      records as in a record file, one after another, of kind 7 only: payload length 4, kind 2, then the payload: section 2, address 4, the piece's
 *               bytes. At most 1,024; of any length in all
 *   joined      out: the joined bytes; lent bytes past them stay
 *   size        out: how many they are
 *
 * The pieces of split_obj, of sections that hold bytes, give back each section that has no skipped and no common split, up to its splitting end.
 *
 * Refused, the first that holds:
 *   1 to 4      as check_tables refuses names and sections
 * then for each record of pieces:
 *   1   at (0, n)      record n isn't whole, isn't of kind 7, or has a payload of fewer than 6 bytes
 *   2   at (0, 1024)   there are more than 1,024
 * and then, each at (0, 0):
 *   80  joined_len is less than the sum of the sizes of the sections that hold bytes
 *   82  a piece names no section that holds bytes, starts below its section's start or ends above its end
 *   83  two pieces of one section have different bytes at an address
 */
uint64_t join_pieces(const uint8_t *name_ends, size_t name_ends_len,
                     const uint8_t *name_bytes, size_t name_bytes_len,
                     const uint8_t *sections, size_t sections_len,
                     const uint8_t *pieces, size_t pieces_len,
                     uint8_t *joined, size_t joined_len,
                     uint8_t *size, size_t size_len);

/*
 * Reads a linked file: an ELF32 executable for PowerPC (machine 20), most significant byte first. Its allocated sections and its symbols become the tables that the other
 * entries take, and the file itself is the image: lend it for `image`, and the outputs cut to their counts.
 *
 *   file             the whole ELF file, of any length
 *   name_ends        out: records of 2 bytes: where each name ends in name_bytes. Names are numbered by first use, those of sections first
 *   name_bytes       out: their bytes
 *   sections         out: records of 15 bytes as check_tables takes them: the sections with SHF_ALLOC, in order. Kind 3 for SHT_NOBITS, else 0 with SHF_EXECINSTR, else 1 with
 *                    SHF_WRITE, else 2; sh_addr, sh_size, sh_offset
 *   section_places   out: records of 4 bytes: sh_offset, 0 for kind 3
 *   symbols          out: records of 20 bytes: the entries of the first SHT_SYMTAB section past the null one, in order. The section is that of st_shndx if it was taken over, else
 *                    0xFFFF (for 0 and from 0xFF00 on too); st_value, st_size, known if above 0; kind 1 for STT_FUNC, 2 for STT_OBJECT, 3 for STT_SECTION, else 0; flags 1
 *                    (Local) for STB_LOCAL, else 0; alignment 0
 *   counts           out: the numbers of names, of name bytes, of sections, of places (the same) and of symbols
 *
 * Lent bytes past the records, and past the whole counts, stay. At document 01's ceilings the outputs have 8,192, 65,535, 960, 256, 81,920 and 10 bytes.
 *
 * Refused, the first that holds:
 *   88  at (0, 0)      fewer than 52 bytes, or e_ident doesn't begin with 7F 45 4C 46, class 1, byte order 2, or e_type isn't 2, e_machine 20, e_shentsize 40
 *   89  at (0, 0)      the section headers (where e_shnum isn't 0), an allocated section's bytes (but of SHT_NOBITS) or the symbol table reach outside the file; the symbol
 *                      table isn't whole entries of 16 bytes; the name of an allocated section or of a symbol past the null one isn't ended in its string table, which is no
 *                      section, reaches outside the file or is too short
 *   2   at (0, name)   the first name that has no place, by count or by bytes: 4,096 names of 65,535 bytes, or as many as are lent
 *   3   at (0, name)   as check_tables
 *   2   at (0, section) more sections than 64, or than the shorter of both outputs holds
 *   4   at (0, section) as check_tables
 *   2   at (0, symbol) more symbols than 4,096, or than are lent
 *   5   at (0, symbol) as check_tables: linkers define symbols that lie outside the section that they name (docs/REFUSALS.md)
 * The tables of an accepted file pass check_tables.
 */
uint64_t import_elf(const uint8_t *file, size_t file_len,
                    uint8_t *name_ends, size_t name_ends_len,
                    uint8_t *name_bytes, size_t name_bytes_len,
                    uint8_t *sections, size_t sections_len,
                    uint8_t *section_places, size_t section_places_len,
                    uint8_t *symbols, size_t symbols_len,
                    uint8_t *counts, size_t counts_len);

/*
 * Writes the joined bytes of join_pieces as Motorola S-records: for each section that holds bytes, by number, S3 lines of 16 data bytes, the last of 1 to 16,
 * from the section's address on; a section of size 0 has no line. Then one S7 line with address 0. Digits are upper case, and each line ends with a line feed.
 * There is no S0 line.
 *
 *   name_ends, name_bytes, sections, pieces   as for join_pieces
 *   lines       out: the lines; lent bytes past them stay. A line takes 15 bytes and two for each data byte, so a section of n bytes takes
 *               15 * ((n + 15) / 16) + 2 * n, and the S7 line 15
 *   size        out: how many bytes the lines are
 *
 * Refused, the first that holds:
 *   1 to 4      as check_tables refuses names and sections
 *   1, 2        of the pieces, as in join_pieces
 * and then, each at (0, 0):
 *   87  two sections of kind 0 to 2 have an address in common
 *   82, 83      as in join_pieces
 *   80  the lines don't fit
 */
uint64_t write_srecords(const uint8_t *name_ends, size_t name_ends_len,
                        const uint8_t *name_bytes, size_t name_bytes_len,
                        const uint8_t *sections, size_t sections_len,
                        const uint8_t *pieces, size_t pieces_len,
                        uint8_t *lines, size_t lines_len,
                        uint8_t *size, size_t size_len);

/*
 * Finds the gaps between the splits of each section and fills them with autogenerated splits, each of a unit of its own.
 *
 *   name_ends .. splits   as for check_tables
 *   out_name_ends         out: the input's name ends, then those of the gap units' names that are new
 *   out_name_bytes        out: their bytes
 *   out_splits            out: the split table with the gaps in it
 *   counts                out: the numbers of names, of name bytes and of splits
 *
 * A gap starts at the current address if the next start, or the splitting end, lies above that address aligned up by the next split's alignment. It
 * ends there, or earlier at the first unstripped symbol whose name already occurred in the gap, or whose alignment the current address misses. Its unit is
 * `auto_`, the section's number in two digits, `_`, the address in eight hexadecimal digits, `_`, and the section's name without leading dots. All gaps
 * are found first; then they enter one after another by section and address, as add_splits merges a split.
 *
 * Refused, the first that holds:
 *   1           at (0, the number of whole ends)   name_ends isn't whole ends
 *   2           at (0, name)   the first name that doesn't fit the outputs, by count or by bytes: 4,096 names of 65,535 bytes, or as many as are lent
 *   1 to 5, 7   as check_tables refuses these tables; 2 of the splits where out_splits holds fewer
 * then for all sections in order, at (section, current) but for 10 and 11:
 *   10          at (section, its start)       the section is `.ctors` or `.dtors`, not of kind 3, and has 1 to 3 bytes
 *   11          at (section, split's start)   the next split's range is asked for its alignment and starts above its end
 *   40          the next split starts below the current address
 *   41          a name occurs again in the gap, and its symbol lies at no multiple of 4
 *   42          the gap would end where it starts
 * then for each gap, at (section, its start):
 *   28          its unit's name is new, and the name table has no place for it
 *   11, 22 to 24, 26, 27   as add_splits
 */
uint64_t create_gap_splits(const uint8_t *name_ends, size_t name_ends_len,
                           const uint8_t *name_bytes, size_t name_bytes_len,
                           const uint8_t *sections, size_t sections_len,
                           const uint8_t *section_places, size_t section_places_len,
                           const uint8_t *image, size_t image_len,
                           const uint8_t *symbols, size_t symbols_len,
                           const uint8_t *splits, size_t splits_len,
                           uint8_t *out_name_ends, size_t out_name_ends_len,
                           uint8_t *out_name_bytes, size_t out_name_bytes_len,
                           uint8_t *out_splits, size_t out_splits_len,
                           uint8_t *counts, size_t counts_len);

/*
 * The whole run over a record file: checks it, merges its partial splits, marks common (without a start), fills gaps, checks, trims, orders the units and walks.
 *
 *   file               as check_file takes it
 *   added_name_ends    out: records of 2 bytes: where each name ends in added_name_bytes that was added to the file's, those of gap units. The first
 *                      added name has the number after the file's last name
 *   added_name_bytes   out: their bytes
 *   out_splits         out: the split table as it was walked
 *   out_units          out: the units in link order, records as in check_tables's units
 *   pieces, piece_symbols, piece_relocations   out: as split_obj gives them; units are numbers in out_units, symbols and relocations the file's
 *   counts             out: the numbers of added names, of their bytes, of splits, units, pieces, piece symbols and piece relocations
 *
 * A shorter output has its own length as ceiling: 27 for out_splits, 28 for the names, 76 for the others. At document 01's ceilings the outputs have 8,192, 65,535,
 * 21,504, 8,192, 30,720, 49,152, 32,768 and 14 bytes.
 *
 * Refused, the first that holds, in the order of the stages:
 *   1 to 8                       as check_file
 *   11, 20 to 27                 as add_splits
 *   10, 11, 22 to 24, 26 to 28, 40 to 42   as create_gap_splits
 *   50 to 53                     as validate_splits
 *   10, 11                       as trim_splits
 *   60, 76, 61                   as resolve_link_order; after 61 out_units holds the cycle and its length is the fourth count, all else is zeros
 *   10, 11, 70, 71, 73, 75, 76   as split_obj
 */
uint64_t split_file(const uint8_t *file, size_t file_len,
                    uint8_t *added_name_ends, size_t added_name_ends_len,
                    uint8_t *added_name_bytes, size_t added_name_bytes_len,
                    uint8_t *out_splits, size_t out_splits_len,
                    uint8_t *out_units, size_t out_units_len,
                    uint8_t *pieces, size_t pieces_len,
                    uint8_t *piece_symbols, size_t piece_symbols_len,
                    uint8_t *piece_relocations, size_t piece_relocations_len,
                    uint8_t *counts, size_t counts_len);

#ifdef __cplusplus
}
#endif

#endif
