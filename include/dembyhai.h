/*
 * Dembyhai: wind forces on square and triangular lattice towers after Annex
 * NA.B to EN 1993-3-1, for a host program in C (C99 or later) or C++.
 *
 * One call takes a tower file and a wind and gives the report: areas, force,
 * shear and moment of each section. `rt lib` in crates/host writes the library,
 * crates/host/out/libhost.a, for x86-64 with SSE4.2 and POPCNT (x86-64-v2); it
 * needs memcpy and memset of libc and nothing else.
 *
 * The call is proved, for all bytes and numbers, to answer as "document 01"
 * says (the paper that README.md and docs/READING.md follow). What is proved
 * rests on the rules for pointers and lengths below, which nothing checks.
 */
#ifndef DEMBYHAI_H
#define DEMBYHAI_H

#include <stddef.h>
#include <stdint.h>

#ifdef __cplusplus
extern "C" {
#endif

/* The most sections of a tower. */
#define DEMBYHAI_MAX_SECTIONS 32
/* The length of the largest tower file. */
#define DEMBYHAI_MAX_FILE_BYTES 2915
/* Bytes of one pressure. */
#define DEMBYHAI_PRESSURE_BYTES 2
/* Numbers of one section's row, and their bytes. */
#define DEMBYHAI_ROW_NUMBERS 6
#define DEMBYHAI_ROW_BYTES 48
/* Room for the rows of every tower. */
#define DEMBYHAI_MAX_ROWS_BYTES (DEMBYHAI_MAX_SECTIONS * DEMBYHAI_ROW_BYTES)

/*
 * Stack that a thread should have left for a call. It is measured, not proved:
 * examples/c/limits.c found 27 895 bytes in use on the largest tower. The rest
 * is for a loader that binds memcpy on its first call.
 */
#define DEMBYHAI_STACK_BYTES 81920

/*
 * The numbers of one row, in this order. The areas are those at the section's
 * pressure. The force is the greatest at that pressure and in the lesser winds
 * in which a supercritical tube is not supercritical any more.
 */
enum dembyhai_number {
    DEMBYHAI_AREA_FLAT = 0,          /* A_f, flat members, mm2 */
    DEMBYHAI_AREA_SUBCRITICAL = 1,   /* A_c, round, subcritical flow, mm2 */
    DEMBYHAI_AREA_SUPERCRITICAL = 2, /* A_p, round, supercritical flow, mm2 */
    DEMBYHAI_FORCE = 3,              /* force on the section, at mid-height, N */
    DEMBYHAI_SHEAR = 4,              /* shear at the section's foot, N */
    DEMBYHAI_MOMENT = 5              /* moment at the section's foot, N mm */
};

/*
 * Document 01's 22 refusals. The call answers 0, 2 to 13, 15 to 20 or 22; the
 * others belong to the service, which keeps its tower (`refused N` of towerd).
 */
enum dembyhai_refusal {
    DEMBYHAI_ACCEPTED = 0,            /* no refusal: the rows are filled */
    DEMBYHAI_NO_TOWER = 1,            /* the service: no tower stands */
    DEMBYHAI_FILE_ENDS = 2,           /* the file ends inside or before a field */
    DEMBYHAI_LEGS = 3,                /* legs are neither 3 nor 4 */
    DEMBYHAI_SECTION_COUNT = 4,       /* section count is 0 or above 32 */
    DEMBYHAI_SECTION_SIZE = 5,        /* a section's width or height breaks its range, or the height is odd */
    DEMBYHAI_GROUP_COUNT = 6,         /* group count is 0 or above 8 */
    DEMBYHAI_GROUP_FIELD = 7,         /* a group's kind, width or length breaks its range */
    DEMBYHAI_BARE_FACE_OVERFULL = 8,  /* a section's bare solid area A_S is above its gross face A_u */
    DEMBYHAI_ITEM_COUNT = 9,          /* item count is above 64; the service: 64 items hang already */
    DEMBYHAI_ITEM_NUMBER = 10,        /* an item number came earlier in the file; the service: it hangs already */
    DEMBYHAI_ITEM_SECTION = 11,       /* an item's section does not exist */
    DEMBYHAI_ITEM_FIELD = 12,         /* another item field breaks its range */
    DEMBYHAI_BYTES_FOLLOW = 13,       /* bytes follow the last item, or the item count if that is 0 */
    DEMBYHAI_NO_SUCH_ITEM = 14,       /* the service: no item of this number hangs */
    DEMBYHAI_DIRECTION = 15,          /* k is above 23, or odd with three legs */
    DEMBYHAI_ICE_CLASS = 16,          /* ice class is above 5 */
    DEMBYHAI_STRUCTURE_FACTOR = 17,   /* the structure factor is not 500 to 2 000 thousandths */
    DEMBYHAI_PRESSURE_COUNT = 18,     /* pressures are not 2 bytes per section */
    DEMBYHAI_PRESSURE = 19,           /* a pressure is above 5 000 N/m2 */
    DEMBYHAI_ICED_FACE_OVERFULL = 20, /* some section's A_S under this ice is above its A_u */
    DEMBYHAI_NO_WIND = 21,            /* the service: no wind is set */
    DEMBYHAI_ROWS_SHORT = 22          /* rows has fewer than 48 bytes per section; the service: too little room */
};

/*
 * The tower file has these unsigned fields, high byte first, with their bytes
 * and ranges; lengths are in mm.
 *
 *   legs            1   3 or 4
 *   section count   1   1 to 32; then for each section, from the top:
 *     mean width    2   100 to 15 000
 *     height        2   100 to 10 000, even
 *     allowance     4   shear at the foot in N, or 0 for none
 *     group count   1   1 to 8; then for each group of members in one face:
 *       kind        1   0 flat or 1 round
 *       width       2   or diameter, 1 to 1 000
 *       length      4   total, 1 to 200 000
 *   item count      1   0 to 64; then for each item:
 *     number        2   each only once
 *     section       1   counted from 0 at the top
 *     width         2   1 to 3 000
 *     length        2   1 to 10 000
 *     bare, iced    2 each   force coefficients in thousandths, 0 to 3 000
 *     K             2   position factor in thousandths, 0 to 1 000
 *
 * The tool `describe` in reference/ makes one from a text; see examples/.
 */

/*
 * The report of a tower under a wind: as erect, wind and report of a fresh
 * service.
 *
 *   file       the tower file; its second byte is the number of sections
 *   direction  k, 0 to 23: 15 degrees times k from the normal of face 1; even
 *              with three legs
 *   ice        0 bare, 1 to 5 for ice classes G1 to G5: 10 mm of ice each
 *   factor     structure factor in thousandths, 500 to 2 000
 *   pressures  one per section from the top, 0 to 5 000 N/m2, 2 bytes each,
 *              high byte first
 *   rows       is filled: one row per section from the top, six numbers each,
 *              8 bytes a number, high byte first
 *
 * Answers 0, or the number of the first refusal in this order: those of the
 * file, 2 to 13, in reading order; then 15, 16, 17, 18, 19, 20; then 22. A
 * refused call changes no byte of rows. An accepted one fills 48 bytes per
 * section and leaves the rest.
 *
 * Each slice is a pointer, then its length in bytes. So many bytes must be
 * there, and none of them may change meanwhile from elsewhere; rows must not
 * overlap file or pressures, which may overlap each other. A slice of length 0
 * may be NULL (tried by examples/c/limits.c). Alignment does not matter.
 *
 * The call ends for all arguments. It allocates nothing, keeps nothing and has
 * no state, so threads may call it at the same time.
 */
uint32_t dembyhai_report(const uint8_t *file, size_t file_length,
                         uint32_t direction, uint32_t ice, uint32_t factor,
                         const uint8_t *pressures, size_t pressures_length,
                         uint8_t *rows, size_t rows_length);

#ifdef __cplusplus
}
#endif

#endif
