/* Calls every function that include/pgs.h declares, to see that the header and the library go together. */
#include "pgs.h"

#include <stdio.h>
#include <string.h>

static int faults = 0;

static void expect(const char *what, uint64_t is, uint64_t wanted) {
    if (is != wanted) {
        printf("header: %s is %llu, it should be %llu\n", what, (unsigned long long)is, (unsigned long long)wanted);
        faults++;
    }
}

/* A composition with a cropped placement, a window, a palette, an object and an END; each with its own times. */
static const uint8_t STREAM[] = {
    'P', 'G', 0, 1, 0x5F, 0x90, 0, 0, 0, 1, 0x16, 0, 27,
    7, 0x80, 4, 0x38, 0x10, 0, 9, 0x80, 0, 5, 1, 0, 7, 3, 0x40, 0, 11, 0, 12, 0, 1, 0, 2, 0, 3, 0, 4,
    'P', 'G', 0, 1, 0x5F, 0x91, 0, 0, 0, 2, 0x17, 0, 10, 1, 3, 0, 5, 0, 6, 0, 7, 0, 8,
    'P', 'G', 0, 1, 0x5F, 0x92, 0, 0, 0, 3, 0x14, 0, 7, 5, 2, 1, 0x51, 0xF0, 0x5A, 0xFF,
    'P', 'G', 0, 1, 0x5F, 0x93, 0, 0, 0, 4, 0x15, 0, 22, 0, 7, 1, 0xC0, 0, 0, 15, 0, 2, 0, 3,
    1, 1, 0, 0, 0, 0x82, 1, 0, 0, 0, 2,
    'P', 'G', 0, 1, 0x5F, 0x94, 0, 0, 0, 5, 0x80, 0, 0,
};

static const uint8_t *body(const pgs_segment s) { return STREAM + s[PGS_SEGMENT_PLACE] + 13; }

/* The object's pixels, and the colours of the palette that has one entry. */
static void pixels_and_colors(const uint8_t *ods_body, const pgs_ods ods, const pgs_pds pds, const pgs_entry *entry) {
    const uint8_t *data = ods_body + ods[PGS_ODS_DATA_PLACE];
    size_t length = (size_t)ods[PGS_ODS_DATA_LENGTH];
    uint16_t width = (uint16_t)ods[PGS_ODS_WIDTH], height = (uint16_t)ods[PGS_ODS_HEIGHT];
    uint8_t pixels[7] = {9, 9, 9, 9, 9, 9, 9};
    uint8_t table[PGS_PALETTE_SIZE];
    const uint8_t *color = table + PGS_COLOR_SIZE * 1;

    expect("a cut bitmap", pgs_decode_rle(data, length - 1, width, height, pixels, 7), PGS_TRUNCATED_ESCAPE);
    expect("a buffer too short", pgs_decode_rle(data, length, width, height, pixels, 5), PGS_BUFFER_TOO_SMALL);
    expect("a pixel after a refusal", pixels[0], 9);
    expect("the bitmap", pgs_decode_rle(data, length, width, height, pixels, 7), PGS_ACCEPTED);
    expect("first pixel", pixels[0], 1);
    expect("fourth pixel", pixels[3], 1);
    expect("last pixel", pixels[5], 0);
    expect("the byte after the bitmap", pixels[6], 9);

    expect("red", pgs_ycbcr709_to_rgb((*entry)[PGS_ENTRY_Y], (*entry)[PGS_ENTRY_CB], (*entry)[PGS_ENTRY_CR]), 0xFF1800);

    expect("a table too short", pgs_clear_palette(table, PGS_PALETTE_SIZE - 1), PGS_BUFFER_TOO_SMALL);
    expect("the table", pgs_clear_palette(table, PGS_PALETTE_SIZE), PGS_ACCEPTED);
    expect("another palette", pgs_apply_palette(entry, 1, pds[PGS_PDS_ID], 6, table, sizeof table), PGS_ACCEPTED);
    expect("alpha before the palette", color[3], 0);
    expect("the palette", pgs_apply_palette(entry, 1, pds[PGS_PDS_ID], 5, table, sizeof table), PGS_ACCEPTED);
    expect("R", color[0], 0xFF);
    expect("G", color[1], 0x18);
    expect("B", color[2], 0x00);
    expect("alpha", color[3], 0xFF);
    expect("alpha without an entry", table[3], 0);
}

/* Two fragments of one object, and an object of one fragment. */
static const uint8_t SETS[] = {
    'P', 'G', 0, 0, 0, 9, 0, 0, 0, 0, 0x16, 0, 11, 0, 4, 0, 1, 0x10, 0, 1, 0x80, 0, 0, 0,
    'P', 'G', 0, 0, 0, 9, 0, 0, 0, 0, 0x15, 0, 12, 0, 7, 3, 0x80, 0, 0, 6, 0, 2, 0, 1, 0xAA,
    'P', 'G', 0, 0, 0, 9, 0, 0, 0, 0, 0x15, 0, 12, 0, 8, 4, 0xC0, 0, 0, 5, 0, 1, 0, 5, 0xCC,
    'P', 'G', 0, 0, 0, 9, 0, 0, 0, 0, 0x15, 0, 8, 0, 7, 0, 0x40, 0, 0, 0, 0xBB,
    'P', 'G', 0, 0, 0, 9, 0, 0, 0, 0, 0x80, 0, 0,
};

static void sets_and_objects(void) {
    pgs_set set = {7, 7, 7};
    pgs_object objects[2];
    uint8_t scratch[3] = {9, 9, 9};
    uint64_t count = 77;

    expect("a list of sets too short", pgs_parse_display_sets(SETS, sizeof SETS, &set, 0, &count), PGS_BUFFER_TOO_SMALL);
    expect("an unended set", pgs_parse_display_sets(SETS, sizeof SETS - 13, &set, 1, &count), PGS_UNTERMINATED_SET);
    expect("the count of sets after a refusal", count, 77);
    expect("the sets", pgs_parse_display_sets(SETS, sizeof SETS, &set, 1, &count), PGS_ACCEPTED);
    expect("sets", count, 1);
    expect("the place of the set", set[PGS_SET_PLACE], 0);
    expect("the end of the set", set[PGS_SET_END], sizeof SETS);
    expect("the PTS of the set", set[PGS_SET_PTS], 9);

    count = 77;
    expect("another set", pgs_reassemble_objects(SETS, sizeof SETS, 1, scratch, 3, objects, 2, &count), PGS_NO_SUCH_SET);
    expect("a list of objects too short", pgs_reassemble_objects(SETS, sizeof SETS, 0, scratch, 3, objects, 1, &count), PGS_BUFFER_TOO_SMALL);
    expect("a scratch too short", pgs_reassemble_objects(SETS, sizeof SETS, 0, scratch, 1, objects, 2, &count), PGS_BUFFER_TOO_SMALL);
    expect("the count of objects after a refusal", count, 77);
    expect("the scratch after a refusal", scratch[0], 9);
    expect("the objects", pgs_reassemble_objects(SETS, sizeof SETS, 0, scratch, 3, objects, 2, &count), PGS_ACCEPTED);
    expect("objects", count, 2);
    expect("object id", objects[0][PGS_OBJECT_ID], 7);
    expect("object version", objects[0][PGS_OBJECT_VERSION], 3);
    expect("object width", objects[0][PGS_OBJECT_WIDTH], 2);
    expect("holder of a joined object", objects[0][PGS_OBJECT_HOLDER], PGS_IN_SCRATCH);
    expect("place of a joined object", objects[0][PGS_OBJECT_PLACE], 0);
    expect("length of a joined object", objects[0][PGS_OBJECT_LENGTH], 2);
    expect("first joined byte", scratch[0], 0xAA);
    expect("second joined byte", scratch[1], 0xBB);
    expect("the byte after the joined ones", scratch[2], 9);
    expect("object height", objects[1][PGS_OBJECT_HEIGHT], 5);
    expect("holder of a whole object", objects[1][PGS_OBJECT_HOLDER], PGS_IN_STREAM);
    expect("byte of a whole object", SETS[objects[1][PGS_OBJECT_PLACE]], 0xCC);
}

/* The times of a segment, as the writers take them. */
#define TIMES(s) (uint32_t)(s)[PGS_SEGMENT_PTS], (uint32_t)(s)[PGS_SEGMENT_DTS]

/* Writes the composition, the window, the palette, the object and the END of STREAM again: it has no tails. */
static void writing(pgs_segment *segments, const pgs_pcs *pcs, const pgs_placement *placement,
                    const pgs_window *window, const pgs_pds *pds, const pgs_entry *entry, const pgs_ods ods) {
    uint8_t out[sizeof STREAM];
    size_t at = 0;
    uint64_t written = 77;
    pgs_ods_numbers numbers;
    int i;

    for (i = 0; i < PGS_ODS_NUMBERS; i++) {
        numbers[i] = (uint32_t)ods[i];
    }
    expect("a written PCS", pgs_encode_pcs(TIMES(segments[0]), pcs, placement, 1, out, sizeof out, &written), PGS_ACCEPTED);
    expect("its length", written, 40);
    at += (size_t)written;
    expect("a written WDS", pgs_encode_wds(TIMES(segments[1]), window, 1, out + at, sizeof out - at, &written), PGS_ACCEPTED);
    at += (size_t)written;
    expect("a written PDS", pgs_encode_pds(TIMES(segments[2]), pds, entry, 1, out + at, sizeof out - at, &written), PGS_ACCEPTED);
    at += (size_t)written;
    expect("a written ODS", pgs_encode_ods(TIMES(segments[3]), (const pgs_ods_numbers *)&numbers,
                                           body(segments[3]) + ods[PGS_ODS_DATA_PLACE], (size_t)ods[PGS_ODS_DATA_LENGTH],
                                           out + at, sizeof out - at, &written), PGS_ACCEPTED);
    at += (size_t)written;
    expect("a written END", pgs_encode_end(TIMES(segments[4]), out + at, sizeof out - at, &written), PGS_ACCEPTED);
    at += (size_t)written;
    expect("the length of all", at, sizeof STREAM);
    expect("what was written", memcmp(out, STREAM, sizeof STREAM) == 0, 1);
    numbers[PGS_ODS_DECLARED_LENGTH] = 0x1000000;
    expect("a declared length of 2^24", pgs_encode_ods(0, 0, (const pgs_ods_numbers *)&numbers, STREAM, 0, out, 0, &written), PGS_NOT_ENCODABLE);
}

/* An unknown kind, and the list of writes. */
static void more_writing(void) {
    static const uint8_t UNKNOWN[] = {'P', 'G', 0, 0, 0, 1, 0, 0, 0, 2, 0x99, 0, 2, 0xAA, 0xBB};
    uint8_t out[sizeof STREAM + 1];
    uint64_t accepted = 77, written = 77;

    memset(out, 9, sizeof out);
    expect("a known kind as unknown", pgs_encode_other(1, 2, PGS_KIND_END, UNKNOWN, 0, out, 13, &written), PGS_NOT_ENCODABLE);
    expect("an output too short", pgs_encode_other(1, 2, 0x99, UNKNOWN + 13, 2, out, 14, &written), PGS_BUFFER_TOO_SMALL);
    expect("the length after a refusal", written, 77);
    expect("the output after a refusal", out[0], 9);
    expect("an unknown kind", pgs_encode_other(1, 2, 0x99, UNKNOWN + 13, 2, out, 15, &written), PGS_ACCEPTED);
    expect("its bytes", memcmp(out, UNKNOWN, sizeof UNKNOWN) == 0, 1);
    expect("the byte after it", out[15], 9);

    expect("a cut stream", pgs_write_segments(STREAM, sizeof STREAM - 1, 5, out, sizeof out, &accepted, &written), PGS_TRUNCATED_HEADER);
    expect("accepted writes after a refusal", accepted, 77);
    expect("all writes", pgs_write_segments(STREAM, sizeof STREAM, 5, out, sizeof out, &accepted, &written), PGS_ACCEPTED);
    expect("accepted writes", accepted, 5);
    expect("their length", written, sizeof STREAM);
    expect("their bytes", memcmp(out, STREAM, sizeof STREAM) == 0, 1);
    expect("the byte after them", out[sizeof STREAM], 9);
    expect("writes without room", pgs_write_segments(STREAM, sizeof STREAM, 5, out, 39, &accepted, &written), PGS_ACCEPTED);
    expect("the first that fits", out[10], PGS_KIND_WDS);
    expect("accepted writes without room", accepted, 2);
    expect("the length of two writes", written, 36);
}

/* The card line of the one set. */
static void cards(void) {
    static const char line[] = "0000000000000009000180000200040001\n";
    uint8_t out[PGS_CARD_LINE + 1] = {0};
    uint64_t written = 77;
    size_t i;

    out[PGS_CARD_LINE] = 9;
    expect("a buffer too short for the line", pgs_cards(SETS, sizeof SETS, out, PGS_CARD_LINE - 1, &written), PGS_BUFFER_TOO_SMALL);
    expect("cards of an unended set", pgs_cards(SETS, sizeof SETS - 13, out, sizeof out, &written), PGS_UNTERMINATED_SET);
    expect("the bytes written by a refused call", written, 77);
    expect("the line after a refusal", out[0], 0);
    expect("the cards", pgs_cards(SETS, sizeof SETS, out, sizeof out, &written), PGS_ACCEPTED);
    expect("the bytes of the cards", written, PGS_CARD_LINE);
    for (i = 0; i < PGS_CARD_LINE; i++) {
        expect("a byte of the line", out[i], (uint8_t)line[i]);
    }
    expect("the byte after the line", out[PGS_CARD_LINE], 9);
}

/* A plane of 2 by 1 that shows object 7, whose pixels are index 1; it came in two fragments. */
static const uint8_t PAINTED[] = {
    'P', 'G', 0, 1, 0x5F, 0x90, 0, 0, 0, 0, 0x16, 0, 19,
    0, 2, 0, 1, 0x10, 0, 1, 0x80, 0, 5, 1, 0, 7, 0, 0, 0, 1, 0, 0,
    'P', 'G', 0, 0, 0, 0, 0, 0, 0, 0, 0x14, 0, 7, 5, 0, 1, 0x51, 0xF0, 0x5A, 0xFF,
    'P', 'G', 0, 0, 0, 0, 0, 0, 0, 0, 0x15, 0, 12, 0, 7, 0, 0x80, 0, 0, 6, 0, 2, 0, 1, 1,
    'P', 'G', 0, 0, 0, 0, 0, 0, 0, 0, 0x15, 0, 8, 0, 7, 0, 0x40, 0, 0, 0, 1,
    'P', 'G', 0, 0, 0, 0, 0, 0, 0, 0, 0x80, 0, 0,
};

static void painting(void) {
    static const uint8_t wanted[9] = {0, 0, 0, 0, 0xFF, 0x18, 0x00, 0xFF, 9};
    uint8_t plane[9] = {9, 9, 9, 9, 9, 9, 9, 9, 9}, scratch[5] = {9, 9, 9, 9, 9};
    pgs_shown shown = {7, 7, 7};
    size_t i;

    expect("a scratch too short", pgs_render(PAINTED, sizeof PAINTED, 0, scratch, 3, plane, 9, &shown), PGS_BUFFER_TOO_SMALL);
    expect("no such set", pgs_render(PAINTED, sizeof PAINTED, 1, scratch, 5, plane, 9, &shown), PGS_NO_SUCH_SET);
    expect("the width after a refusal", shown[PGS_SHOWN_WIDTH], 7);
    expect("the plane", pgs_render(PAINTED, sizeof PAINTED, 0, scratch, 5, plane, 9, &shown), PGS_ACCEPTED);
    expect("width", shown[PGS_SHOWN_WIDTH], 2);
    expect("height", shown[PGS_SHOWN_HEIGHT], 1);
    expect("PTS", shown[PGS_SHOWN_PTS], 90000);
    for (i = 0; i < sizeof wanted; i++) {
        expect("a byte of the plane", plane[i], wanted[i]);
    }
    expect("the scratch", scratch[3], 1);
    expect("the byte after the scratch", scratch[4], 9);
}

int main(void) {
    pgs_segment segments[5];
    pgs_pcs pcs;
    pgs_placement placement;
    pgs_window window;
    pgs_pds pds;
    pgs_entry entry;
    pgs_ods ods;
    uint64_t count = 77;

    expect("a list too short", pgs_parse_segments(STREAM, sizeof STREAM, segments, 4, &count), PGS_BUFFER_TOO_SMALL);
    expect("the count after a refusal", count, 77);
    expect("a cut stream", pgs_parse_segments(STREAM, sizeof STREAM - 1, segments, 5, &count), PGS_TRUNCATED_HEADER);
    expect("the stream", pgs_parse_segments(STREAM, sizeof STREAM, segments, 5, &count), PGS_ACCEPTED);
    expect("segments", count, 5);
    expect("DTS", segments[4][PGS_SEGMENT_DTS], 5);
    expect("kind", segments[1][PGS_SEGMENT_KIND], PGS_KIND_WDS);

    expect("PCS", pgs_parse_pcs(body(segments[0]), (size_t)segments[0][PGS_SEGMENT_BODY_LENGTH], &pcs, &placement, 1, &count), 0);
    expect("placements", count, 1);
    expect("width", pcs[PGS_PCS_WIDTH], 1920);
    expect("palette id", pcs[PGS_PCS_PALETTE_ID], 5);
    expect("crop present", placement[PGS_PLACEMENT_CROP_PRESENT], 1);
    expect("crop height", placement[PGS_PLACEMENT_CROP_HEIGHT], 4);

    expect("WDS", pgs_parse_wds(body(segments[1]), (size_t)segments[1][PGS_SEGMENT_BODY_LENGTH], &window, 1, &count), 0);
    expect("window height", window[PGS_WINDOW_HEIGHT], 8);

    expect("PDS", pgs_parse_pds(body(segments[2]), (size_t)segments[2][PGS_SEGMENT_BODY_LENGTH], &pds, &entry, 1, &count), 0);
    expect("palette version", pds[PGS_PDS_VERSION], 2);
    expect("Cr", entry[PGS_ENTRY_CR], 0xF0);

    expect("ODS", pgs_parse_ods(body(segments[3]), (size_t)segments[3][PGS_SEGMENT_BODY_LENGTH], &ods), 0);
    expect("object height", ods[PGS_ODS_HEIGHT], 3);
    expect("data place", ods[PGS_ODS_DATA_PLACE], 11);
    expect("data length", ods[PGS_ODS_DATA_LENGTH], 11);

    writing(segments, (const pgs_pcs *)&pcs, (const pgs_placement *)&placement, (const pgs_window *)&window,
            (const pgs_pds *)&pds, (const pgs_entry *)&entry, ods);
    more_writing();
    sets_and_objects();
    cards();
    painting();
    pixels_and_colors(body(segments[3]), ods, pds, (const pgs_entry *)&entry);

    if (faults == 0) {
        puts("header: every function of include/pgs.h links and answers");
    }
    return faults != 0;
}
