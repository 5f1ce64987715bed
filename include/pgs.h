/*
 * PGS (Blu-ray bitmap subtitle) streams: the C interface of the proved library, for C and C++.
 * Link dist/libpgs_c.a, which `make lib` writes (x86-64 Linux).
 *
 * Every function answers PGS_ACCEPTED (0), or the number of the refusal; docs/REFUSALS.md explains each. Only
 * pgs_ycbcr709_to_rgb, which refuses nothing, answers a colour. A refused call changes nothing: the records, the
 * lists, the buffers and the count are as they were before it. An accepted call writes the records or bytes that it
 * answers, from the front of the list or buffer, and leaves the rest as it was; a palette is stored at its indices.
 * One exception: pgs_render refused by 24 to 33 has written the joined data of the set's objects to the scratch.
 *
 * A list is an array of records. A record is an array of numbers, its cells named by the constants below.
 * The length of a list counts records, not cells and not bytes; that of a buffer counts bytes. A list or buffer may
 * be longer than is needed, and one that is exactly long enough is accepted. One too short is PGS_BUFFER_TOO_SMALL,
 * which is given only where no other refusal is, save 24 to 33 of pgs_render; pgs_write_segments alone takes any
 * buffer, and says how many writes fit. The input is only read. Nothing is allocated and nothing is kept after the call.
 *
 * What the caller owes, as for any C function: every pointer is valid, aligned for its type and not NULL, also
 * where its length is 0; lengths are true; what is lent for writing overlaps neither the input nor other lent
 * memory.
 *
 * Places and lengths are in bytes from 0. PTS and DTS are in ticks of 1/90,000 s. Widths, heights and positions
 * are in pixels.
 */
#ifndef PGS_H
#define PGS_H

#include <stddef.h>
#include <stdint.h>

#ifdef __cplusplus
extern "C" {
#endif

/* The answers. */
enum {
    PGS_ACCEPTED = 0,
    PGS_TRUNCATED_HEADER = 1,
    PGS_BAD_MAGIC = 2,
    PGS_TRUNCATED_BODY = 3,
    PGS_FIELD_PAST_END = 4,
    PGS_PARTIAL_PALETTE_ENTRY = 5,
    PGS_NON_EMPTY_END = 6,
    PGS_ZERO_LENGTH_SEGMENT = 7, /* never given: a segment that was read used 13 bytes at least */
    PGS_PCS_IN_OPEN_SET = 8,
    PGS_WDS_OUTSIDE_SET = 9,
    PGS_PDS_OUTSIDE_SET = 10,
    PGS_ODS_OUTSIDE_SET = 11,
    PGS_SECOND_WDS = 12,
    PGS_END_OUTSIDE_SET = 13,
    PGS_UNKNOWN_OUTSIDE_SET = 14,
    PGS_UNTERMINATED_SET = 15,
    PGS_FIRST_FRAGMENT_WHILE_OPEN = 16,
    PGS_DUPLICATE_OBJECT = 17,
    PGS_FRAGMENT_WITHOUT_FIRST = 18,
    PGS_FRAGMENT_AFTER_LAST = 19,
    PGS_UNTERMINATED_OBJECT = 20,
    PGS_DECLARED_LENGTH_TOO_SMALL = 21,
    PGS_DECLARED_LENGTH_MISMATCH = 22,
    PGS_TOO_MANY_OBJECTS = 23,
    PGS_RUN_PAST_WIDTH = 24,
    PGS_TRUNCATED_ESCAPE = 25,
    PGS_TRUNCATED_LONG_ZERO_RUN = 26,
    PGS_TRUNCATED_SHORT_COLOR_RUN = 27,
    PGS_TRUNCATED_LONG_COLOR_RUN = 28,
    PGS_SHORT_LINE = 29,
    PGS_TOO_MANY_LINES = 30,
    PGS_PARTIAL_LAST_LINE = 31,
    PGS_LINE_COUNT_MISMATCH = 32,
    PGS_OBJECT_NOT_IN_SET = 33,
    PGS_BUFFER_TOO_SMALL = 34,
    PGS_NOT_ENCODABLE = 35,
    PGS_NO_SUCH_SET = 36
};

/* Kinds of segments: the cell PGS_SEGMENT_KIND. Any other byte is an unknown kind, and is kept. */
enum {
    PGS_KIND_PDS = 0x14,
    PGS_KIND_ODS = 0x15,
    PGS_KIND_PCS = 0x16,
    PGS_KIND_WDS = 0x17,
    PGS_KIND_END = 0x80
};

/* One segment of a stream. */
enum {
    PGS_SEGMENT_PLACE,       /* where its head starts in the stream; its body starts 13 bytes later */
    PGS_SEGMENT_PTS,
    PGS_SEGMENT_DTS,
    PGS_SEGMENT_KIND,        /* the kind's byte */
    PGS_SEGMENT_BODY_LENGTH, /* as stored in the head, so with any bytes after the last counted record */
    PGS_SEGMENT_CELLS
};
typedef uint64_t pgs_segment[PGS_SEGMENT_CELLS];

/* A composition, without its placements. State and flag are the bytes as stored. */
enum {
    PGS_PCS_WIDTH,
    PGS_PCS_HEIGHT,
    PGS_PCS_FRAME_RATE,
    PGS_PCS_COMPOSITION_NUMBER,
    PGS_PCS_STATE,               /* 0x00 normal, 0x40 acquisition point, 0x80 epoch start, others kept */
    PGS_PCS_PALETTE_UPDATE_FLAG, /* 0x80 means update, others kept */
    PGS_PCS_PALETTE_ID,
    PGS_PCS_CELLS
};
typedef uint16_t pgs_pcs[PGS_PCS_CELLS];

/* One placement of a composition. */
enum {
    PGS_PLACEMENT_OBJECT_ID,
    PGS_PLACEMENT_WINDOW_ID,
    PGS_PLACEMENT_CROP_FLAG,    /* the byte as stored */
    PGS_PLACEMENT_X,
    PGS_PLACEMENT_Y,
    PGS_PLACEMENT_CROP_PRESENT, /* 1 where the flag is exactly 0x40, else 0; the next four are 0 then */
    PGS_PLACEMENT_CROP_X,
    PGS_PLACEMENT_CROP_Y,
    PGS_PLACEMENT_CROP_WIDTH,
    PGS_PLACEMENT_CROP_HEIGHT,
    PGS_PLACEMENT_CELLS
};
typedef uint16_t pgs_placement[PGS_PLACEMENT_CELLS];

/* One window. */
enum {
    PGS_WINDOW_ID,
    PGS_WINDOW_X,
    PGS_WINDOW_Y,
    PGS_WINDOW_WIDTH,
    PGS_WINDOW_HEIGHT,
    PGS_WINDOW_CELLS
};
typedef uint16_t pgs_window[PGS_WINDOW_CELLS];

/* A palette, without its entries. */
enum {
    PGS_PDS_ID,
    PGS_PDS_VERSION,
    PGS_PDS_CELLS
};
typedef uint8_t pgs_pds[PGS_PDS_CELLS];

/* One palette entry. */
enum {
    PGS_ENTRY_ID,
    PGS_ENTRY_Y,
    PGS_ENTRY_CR,
    PGS_ENTRY_CB,
    PGS_ENTRY_ALPHA,
    PGS_ENTRY_CELLS
};
typedef uint8_t pgs_entry[PGS_ENTRY_CELLS];

/* One fragment of an object. */
enum {
    PGS_ODS_OBJECT_ID,
    PGS_ODS_VERSION,
    PGS_ODS_FLAG,               /* the byte as stored: 0x80 first, 0x40 last, 0xC0 both, others in the middle */
    PGS_ODS_DECLARED_LENGTH,
    PGS_ODS_DIMENSIONS_PRESENT, /* 1 where the flag is 0x80 or 0xC0, else 0; the next two are 0 then */
    PGS_ODS_WIDTH,
    PGS_ODS_HEIGHT,
    PGS_ODS_DATA_PLACE,         /* where the data starts in the body */
    PGS_ODS_DATA_LENGTH,        /* from there to the end of the body */
    PGS_ODS_CELLS
};
typedef uint64_t pgs_ods[PGS_ODS_CELLS];

/* The first seven cells of a fragment, as pgs_encode_ods takes them. */
enum {
    PGS_ODS_NUMBERS = PGS_ODS_HEIGHT + 1
};
typedef uint32_t pgs_ods_numbers[PGS_ODS_NUMBERS];

/* One display set of a stream. */
enum {
    PGS_SET_PLACE, /* where its PCS starts in the stream */
    PGS_SET_END,   /* the place just after its END */
    PGS_SET_PTS,   /* of its PCS */
    PGS_SET_CELLS
};
typedef uint64_t pgs_set[PGS_SET_CELLS];

/* One object of a set. Version and dimensions are those of its first fragment. */
enum {
    PGS_OBJECT_ID,
    PGS_OBJECT_VERSION,
    PGS_OBJECT_WIDTH,
    PGS_OBJECT_HEIGHT,
    PGS_OBJECT_HOLDER, /* where the data stands: PGS_IN_STREAM or PGS_IN_SCRATCH */
    PGS_OBJECT_PLACE,  /* where the data starts there */
    PGS_OBJECT_LENGTH,
    PGS_OBJECT_CELLS
};
typedef uint64_t pgs_object[PGS_OBJECT_CELLS];

/* Who holds an object's data: the cell PGS_OBJECT_HOLDER. */
enum {
    PGS_IN_STREAM = 0,
    PGS_IN_SCRATCH = 1
};

/*
 * Reads a whole stream into the list of its segments, in order; count gets their number. Every body is read too,
 * so that bodies of accepted streams are accepted by the functions below. An empty stream is accepted with 0.
 * Refusals: 1 to 6, of the first segment that is refused, then 34.
 */
uint8_t pgs_parse_segments(const uint8_t *stream, size_t stream_length,
                           pgs_segment *segments, size_t segments_length,
                           uint64_t *count);

/*
 * Reads the body of a PCS into pcs and the list of its placements; count gets their number. Bytes after the last
 * counted placement are passed over. A body may have any length.
 * Refusals: 4, then 34.
 */
uint8_t pgs_parse_pcs(const uint8_t *body, size_t body_length,
                      pgs_pcs *pcs,
                      pgs_placement *placements, size_t placements_length,
                      uint64_t *count);

/*
 * Reads the body of a WDS into the list of its windows; count gets their number. Bytes after the last counted
 * window are passed over. A body may have any length.
 * Refusals: 4, then 34.
 */
uint8_t pgs_parse_wds(const uint8_t *body, size_t body_length,
                      pgs_window *windows, size_t windows_length,
                      uint64_t *count);

/*
 * Reads the body of a PDS into pds and the list of its entries; count gets their number. A body may have any length.
 * Refusals: 4, 5, then 34.
 */
uint8_t pgs_parse_pds(const uint8_t *body, size_t body_length,
                      pgs_pds *pds,
                      pgs_entry *entries, size_t entries_length,
                      uint64_t *count);

/*
 * Reads the body of an ODS into ods. The data stays in the body. A body may have any length.
 * Refusals: 4.
 */
uint8_t pgs_parse_ods(const uint8_t *body, size_t body_length,
                      pgs_ods *ods);

/*
 * Decodes the run-length code of an object into palette indices: width times height bytes, row by row, the top left
 * pixel first. data is the object's whole data, joined if it came in several fragments. Every line must have exactly
 * width pixels, and there must be exactly height lines; the code that ends the last line may be missing, unless the
 * width is 0. The whole data is read, and tested before a pixel is stored.
 * Refusals: 24 to 30, of the first code that is refused; at the end of the data 31, then 32; then 34.
 */
uint8_t pgs_decode_rle(const uint8_t *data, size_t data_length,
                       uint16_t width, uint16_t height,
                       uint8_t *pixels, size_t pixels_length);

/*
 * The colour of Y, Cb and Cr by ITU-R BT.709, from the ranges of video (Y 16 to 235, Cb and Cr 16 to 240) to 0 to
 * 255: R times 65,536, plus G times 256, plus B. Values outside of the ranges of video are converted too, and the
 * result is clamped. Mind the order: a palette entry has Cr before Cb.
 */
uint32_t pgs_ycbcr709_to_rgb(uint8_t y, uint8_t cb, uint8_t cr);

/*
 * A palette table: R, G, B and alpha of each index from 0 to 255, so that the colour of index i starts at byte
 * PGS_COLOR_SIZE * i. Alpha is not multiplied into the colour. A table is cleared once, and then the segments of its
 * display set are laid over it in order. Where a table is longer than PGS_PALETTE_SIZE, its rest is never touched.
 */
enum {
    PGS_COLOR_SIZE = 4,
    PGS_PALETTE_SIZE = 1024
};

/*
 * Clears a palette table: every index is 0, 0, 0, 0, transparent.
 * Refusals: 34.
 */
uint8_t pgs_clear_palette(uint8_t *table, size_t table_length);

/*
 * Lays the entries of one PDS over a palette table, in order: a later entry of the same index replaces an earlier
 * one, and an index without an entry stays as it was. An entry with alpha 0 keeps its colour. Only the palette that
 * the composition names applies: where palette_id (PGS_PDS_ID) is not named (PGS_PCS_PALETTE_ID), the table stays as
 * it was, and the call is accepted. (Strict C before C23 wants a list that is not const cast to const pgs_entry *.)
 * Refusals: 34, also where the palette does not apply.
 */
uint8_t pgs_apply_palette(const pgs_entry *entries, size_t entries_length,
                          uint8_t palette_id, uint8_t named,
                          uint8_t *table, size_t table_length);

/*
 * Reads a whole stream into the list of its display sets, in order; count gets their number. The segments of a set
 * stand between the two places of its record, each read as by pgs_parse_segments. An empty stream is accepted with 0.
 * Refusals: 1 to 6, anywhere in the stream; 8 to 15, of the first segment that is refused, 15 at the end; then 34.
 */
uint8_t pgs_parse_display_sets(const uint8_t *stream, size_t stream_length,
                               pgs_set *sets, size_t sets_length,
                               uint64_t *count);

/* The most objects of one set. */
enum {
    PGS_MOST_OBJECTS = 64
};

/*
 * Joins the fragments of each object of one set, counted from 0, into the list of its objects, in the order of their
 * first fragments; count gets their number. An object of one fragment stays in the stream. Those of two or more are
 * written to the scratch, one after another from its start. The joined data is what pgs_decode_rle takes.
 * A list of PGS_MOST_OBJECTS and a scratch as long as the stream always suffice.
 * Refusals: 1 to 6 and 8 to 15 as above; 36; 16 to 19 or 23, of the first fragment that is refused, 16 and 17 before
 * 23; then 20 to 22, of the first object that is refused; then 34, for a list or a scratch that is too short.
 */
uint8_t pgs_reassemble_objects(const uint8_t *stream, size_t stream_length,
                               uint64_t set,
                               uint8_t *scratch, size_t scratch_length,
                               pgs_object *objects, size_t objects_length,
                               uint64_t *count);

/* What pgs_render shows. */
enum {
    PGS_SHOWN_WIDTH,
    PGS_SHOWN_HEIGHT,
    PGS_SHOWN_PTS, /* of the set's PCS */
    PGS_SHOWN_CELLS
};
typedef uint64_t pgs_shown[PGS_SHOWN_CELLS];

/*
 * Paints one set, counted from 0, onto a plane of its composition's width and height; shown gets these and the PTS.
 * The plane gets R, G, B and alpha of each pixel, row by row, the top left pixel first: 4 times width times height
 * bytes. Alpha is not multiplied into the colour. Each pixel shows the last placement that covers it, a transparent
 * pixel too; a pixel that none covers is 0, 0, 0, 0, whatever it was before. A crop is a part of its object, whose top
 * left pixel stands at the placement's place; what is beyond the object or the plane is not shown. Windows are not
 * consulted. The colours are those of the set's own palettes with the id that its composition names, wherever they
 * stand in the set; the objects are the set's own.
 * The scratch gets the joined data of the objects as by pgs_reassemble_objects, then the bitmap of each object in the
 * same order, also of those that no placement shows: the length of that data plus each object's width times height.
 * The plane may be as large as 17,179,344,900 bytes: take the width and height from pgs_parse_pcs.
 * Refusals: as pgs_reassemble_objects, but 34 for a scratch or a plane that is too short; then 24 to 32 of the first
 * object whose bitmap is refused, as pgs_decode_rle; then 33, for a placement whose object is not in the set.
 */
uint8_t pgs_render(const uint8_t *stream, size_t stream_length,
                   uint64_t set,
                   uint8_t *scratch, size_t scratch_length,
                   uint8_t *plane, size_t plane_length,
                   pgs_shown *shown);

/* The bytes of one card line: 34 digits and a line feed. */
enum {
    PGS_CARD_LINE = 35
};

/*
 * Writes a line of text for each display set of a stream to out, if the objects of every set join; written gets the
 * number of bytes. A line has upper-case hexadecimal digits: place of the set 8, PTS 8, composition number 4, state
 * 2, palette id 2, number of objects 2, width 4, height 4; and a line feed. No 0 byte is written after the lines. An
 * empty stream is accepted with 0. A buffer as long as the stream always suffices.
 * Refusals: 1 to 6 and 8 to 15 as above; 16 to 23 as above, of the first set that is refused; 35, for a stream of
 * more than 4,294,967,296 bytes, in which a place may have more than 8 digits; then 34.
 */
uint8_t pgs_cards(const uint8_t *stream, size_t stream_length,
                  uint8_t *out, size_t out_length,
                  uint64_t *written);

/*
 * The functions below write one segment each to the front of the buffer out; written gets its length. The size in
 * the head is that of the body that is written. What is written and read again gives the same fields.
 * Refusals: 35 (PGS_NOT_ENCODABLE) for what cannot be written: over 255 placements or windows; a body over 65,535
 * bytes; a declared length of 2^24 or more; a crop present other than exactly at the flag 0x40; dimensions present other
 * than exactly at a first fragment (0x80 or 0xC0); an unknown kind with the byte of a known one; a cell that is too
 * large for its field, or a mark 'present' over 1. Then 34. Where a mark 'present' is 0, the crop's or the dimensions'
 * cells are ignored. (Strict C before C23 wants a list that is not const cast to a pointer to const.)
 */
uint8_t pgs_encode_pcs(uint32_t pts, uint32_t dts,
                       const pgs_pcs *pcs,
                       const pgs_placement *placements, size_t placements_length,
                       uint8_t *out, size_t out_length,
                       uint64_t *written);

uint8_t pgs_encode_wds(uint32_t pts, uint32_t dts,
                       const pgs_window *windows, size_t windows_length,
                       uint8_t *out, size_t out_length,
                       uint64_t *written);

uint8_t pgs_encode_pds(uint32_t pts, uint32_t dts,
                       const pgs_pds *pds,
                       const pgs_entry *entries, size_t entries_length,
                       uint8_t *out, size_t out_length,
                       uint64_t *written);

uint8_t pgs_encode_ods(uint32_t pts, uint32_t dts,
                       const pgs_ods_numbers *ods,
                       const uint8_t *data, size_t data_length,
                       uint8_t *out, size_t out_length,
                       uint64_t *written);

uint8_t pgs_encode_end(uint32_t pts, uint32_t dts,
                       uint8_t *out, size_t out_length,
                       uint64_t *written);

uint8_t pgs_encode_other(uint32_t pts, uint32_t dts,
                         uint8_t kind,
                         const uint8_t *data, size_t data_length,
                         uint8_t *out, size_t out_length,
                         uint64_t *written);

/*
 * Writes the first segments of a stream again, one after another, `writes` of them or all if there are fewer. Each is
 * written from the fields that were read, so without the bytes after its last counted record, and begins where the
 * last accepted one ended. A write that does not fit in what is left of the buffer is refused by itself: it changes
 * nothing, and the next is tried. accepted gets the number of accepted writes, written the bytes that they take. The
 * answer 0 says that the stream was read: all segments are written where accepted is their number. A buffer as long as
 * the stream always suffices.
 * Refusals: 1 to 6, of the stream's first segment that is refused; then nothing changes.
 */
uint8_t pgs_write_segments(const uint8_t *stream, size_t stream_length,
                           uint64_t writes,
                           uint8_t *out, size_t out_length,
                           uint64_t *accepted, uint64_t *written);

#ifdef __cplusplus
}
#endif

#endif
