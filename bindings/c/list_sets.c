/*
 * Lists the display sets of a stream, or paints one of them.
 *
 *     cc -Idist -o list_sets bindings/c/list_sets.c dist/libpgs_c.a
 *     ./list_sets FILE
 *     ./list_sets FILE SET PLANE
 *
 * The plane is written as a PAM picture with red, green, blue and alpha.
 */
#include "pgs.h"

#include <stdio.h>
#include <stdlib.h>

/* The shortest set: a PCS without placements and an END. */
enum { SHORTEST_SET = 37, MOST_PLACEMENTS = 255 };

/* A file's bytes; NULL where it cannot be read. */
static uint8_t *read_file(const char *name, size_t *length) {
    FILE *file = fopen(name, "rb");
    uint8_t *bytes = NULL;
    size_t room = 0, got = 1;

    *length = 0;
    while (file != NULL && got > 0) {
        if (*length == room) {
            uint8_t *more = realloc(bytes, room = 2 * room + 65536);
            if (more == NULL) break;
            bytes = more;
        }
        got = fread(bytes + *length, 1, room - *length, file);
        *length += got;
    }
    if (file == NULL || got > 0 || ferror(file)) {
        free(bytes);
        bytes = NULL;
    }
    if (file != NULL) fclose(file);
    return bytes;
}

/* The pixels of a set's objects, decoded one after another. */
static uint8_t decode_objects(const uint8_t *set, const uint8_t *scratch, const pgs_object *objects, uint64_t count,
                              uint64_t *pixels) {
    *pixels = 0;
    for (uint64_t i = 0; i < count; i++) {
        const uint64_t *object = objects[i];
        const uint8_t *holder = object[PGS_OBJECT_HOLDER] == PGS_IN_STREAM ? set : scratch;
        size_t area = (size_t)(object[PGS_OBJECT_WIDTH] * object[PGS_OBJECT_HEIGHT]);
        uint8_t *bitmap = malloc(area + 1);
        uint8_t refused = PGS_BUFFER_TOO_SMALL;
        if (bitmap != NULL) {
            refused = pgs_decode_rle(holder + object[PGS_OBJECT_PLACE], (size_t)object[PGS_OBJECT_LENGTH],
                                     (uint16_t)object[PGS_OBJECT_WIDTH], (uint16_t)object[PGS_OBJECT_HEIGHT],
                                     bitmap, area);
        }
        free(bitmap);
        if (refused) return refused;
        *pixels += area;
    }
    return PGS_ACCEPTED;
}

/* What a set holds. Its bytes are a stream of one set, so nothing else of the file is read for it. */
static uint8_t describe(const uint8_t *set, size_t length, uint8_t *scratch) {
    pgs_pcs pcs;
    pgs_placement placements[MOST_PLACEMENTS];
    pgs_object objects[PGS_MOST_OBJECTS];
    uint64_t placed, count, pixels;
    size_t body_length = (size_t)set[11] * 256 + set[12]; /* a set begins with its PCS */

    uint8_t refused = pgs_parse_pcs(set + 13, body_length, &pcs, placements, MOST_PLACEMENTS, &placed);
    if (!refused) refused = pgs_reassemble_objects(set, length, 0, scratch, length, objects, PGS_MOST_OBJECTS, &count);
    if (!refused) refused = decode_objects(set, scratch, (const pgs_object *)objects, count, &pixels);
    if (!refused) {
        printf(", %u by %u, %llu placements, %llu objects of %llu pixels\n", pcs[PGS_PCS_WIDTH], pcs[PGS_PCS_HEIGHT],
               (unsigned long long)placed, (unsigned long long)count, (unsigned long long)pixels);
    }
    return refused;
}

static uint8_t list(const uint8_t *stream, size_t length, pgs_set *sets, uint8_t *scratch) {
    uint64_t count;
    uint8_t refused = pgs_parse_display_sets(stream, length, sets, length / SHORTEST_SET, &count);

    for (uint64_t i = 0; !refused && i < count; i++) {
        const uint64_t *set = sets[i];
        uint8_t why;
        printf("set %llu: place %llu, PTS %llu", (unsigned long long)i, (unsigned long long)set[PGS_SET_PLACE],
               (unsigned long long)set[PGS_SET_PTS]);
        why = describe(stream + set[PGS_SET_PLACE], (size_t)(set[PGS_SET_END] - set[PGS_SET_PLACE]), scratch);
        if (why) printf(": refused: %u\n", why);
    }
    return refused;
}

/* Writes a painted plane; 0 where that fails. */
static int write_picture(const char *name, const pgs_shown shown, const uint8_t *plane, size_t length) {
    FILE *file = fopen(name, "wb");
    int written = file != NULL;

    if (written) {
        fprintf(file, "P7\nWIDTH %u\nHEIGHT %u\nDEPTH 4\nMAXVAL 255\nTUPLTYPE RGB_ALPHA\nENDHDR\n",
                (unsigned)shown[PGS_SHOWN_WIDTH], (unsigned)shown[PGS_SHOWN_HEIGHT]);
        written = fwrite(plane, 1, length, file) == length;
    }
    if (file != NULL && fclose(file) != 0) written = 0;
    return written;
}

/* Paints a set, whose bytes are a stream of one set, and writes the plane. */
static uint8_t paint(const uint8_t *set, size_t length, uint8_t *joined, const char *name) {
    pgs_pcs pcs;
    pgs_placement placements[MOST_PLACEMENTS];
    pgs_object objects[PGS_MOST_OBJECTS];
    pgs_shown shown;
    uint64_t placed, count, needed = length;
    size_t area, i;
    uint8_t *scratch, *plane;
    uint8_t refused = pgs_parse_pcs(set + 13, (size_t)set[11] * 256 + set[12], &pcs, placements, MOST_PLACEMENTS, &placed);

    if (!refused) refused = pgs_reassemble_objects(set, length, 0, joined, length, objects, PGS_MOST_OBJECTS, &count);
    if (refused) return refused;
    /* no more than the set's bytes are joined; then come the bitmaps */
    for (i = 0; i < count; i++) needed += objects[i][PGS_OBJECT_WIDTH] * objects[i][PGS_OBJECT_HEIGHT];
    area = (size_t)4 * pcs[PGS_PCS_WIDTH] * pcs[PGS_PCS_HEIGHT];
    scratch = malloc((size_t)needed);
    plane = malloc(area + 1);
    refused = PGS_BUFFER_TOO_SMALL;
    if (scratch != NULL && plane != NULL) refused = pgs_render(set, length, 0, scratch, (size_t)needed, plane, area, &shown);
    if (!refused && !write_picture(name, shown, plane, area)) {
        fprintf(stderr, "list_sets: %s cannot be written\n", name);
        exit(2);
    }
    free(plane);
    free(scratch);
    return refused;
}

/* Paints the set with the number that a word gives. */
static uint8_t paint_one(const uint8_t *stream, size_t length, pgs_set *sets, uint8_t *scratch, const char *number,
                         const char *name) {
    uint64_t count, wanted = strtoull(number, NULL, 10);
    uint8_t refused = pgs_parse_display_sets(stream, length, sets, length / SHORTEST_SET, &count);

    if (refused) return refused;
    if (wanted >= count) return PGS_NO_SUCH_SET;
    return paint(stream + sets[wanted][PGS_SET_PLACE], (size_t)(sets[wanted][PGS_SET_END] - sets[wanted][PGS_SET_PLACE]),
                 scratch, name);
}

int main(int count, char **words) {
    size_t length;
    uint8_t *stream, *scratch, refused;
    pgs_set *sets;

    if (count != 2 && count != 4) {
        fprintf(stderr, "usage: list_sets FILE [SET PLANE]\n");
        return 2;
    }
    stream = read_file(words[1], &length);
    scratch = malloc(length + 1);
    sets = malloc((length / SHORTEST_SET + 1) * sizeof *sets);
    if (stream == NULL || scratch == NULL || sets == NULL) {
        fprintf(stderr, "list_sets: %s cannot be read\n", words[1]);
        return 2;
    }
    refused = count == 2 ? list(stream, length, sets, scratch)
                         : paint_one(stream, length, sets, scratch, words[2], words[3]);
    if (refused) fprintf(stderr, "list_sets: refused: %u\n", refused);
    free(sets);
    free(scratch);
    free(stream);
    return refused != 0;
}
