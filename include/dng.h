/* The developed values of uncompressed DNG files, of the 32-bit or the 64-bit layout: the calls of documents 01 and 02. */
#ifndef DNG_H
#define DNG_H

#include <stddef.h>
#include <stdint.h>

#ifdef __cplusplus
extern "C" {
#endif

/* A caller need test no file and no number before a call: any bytes and any arguments are answered. No call reads outside its
   file or writes outside what it is lent. A pointer is good for its length, aligned as its elements and not NULL, also where
   the length is 0, and what is written overlaps neither the file nor anything else that is written. The floating-point modes are those that a program starts with:
   rounding to nearest, denormals kept (-ffast-math may change that where the program is linked). */

/* The places of a card's numbers: number and detail, active rows, active columns, samples per pixel, opcodes kept, opcodes
   skipped; then the crop: its left column, its top row, its columns, its rows, counted from the active corner as all calls count. */
enum {
    DNG_NUMBER,
    DNG_DETAIL,
    DNG_ROWS,
    DNG_COLUMNS,
    DNG_SAMPLES,
    DNG_KEPT,
    DNG_SKIPPED,
    DNG_CROP_LEFT,
    DNG_CROP_TOP,
    DNG_CROP_COLUMNS,
    DNG_CROP_ROWS,
    DNG_CARD_NUMBERS /* how many they are: 11 */
};

/* All of them are written. A refused file has zeros from DNG_ROWS on. The crop of an accepted one is not empty and lies inside the
   active area; the window of the crop is

     dng_window(file, file_len, n[DNG_CROP_TOP], n[DNG_CROP_LEFT], n[DNG_CROP_ROWS], n[DNG_CROP_COLUMNS], out, out_len) */
void dng_card(const uint8_t *file, size_t file_len, uint64_t numbers[DNG_CARD_NUMBERS]);

/* The others answer number * 2^32 + detail; 0 is done. */

/* The value is written: +0.0 of a refused spot. */
uint64_t dng_spot(const uint8_t *file, size_t file_len, size_t row, size_t column, size_t plane, double *value);

/* Why a spot's value is what it is. The places of the numbers: the stored sample, its value through the LinearizationTable, the
   BlackLevel cell, the column's and the row's delta, B (their sum), M (the plane's greatest B) and L, all blacks in 256ths with
   their sign; then how many opcodes of OpcodeList2 cover the spot, and how many of the list are skipped. */
enum {
    DNG_CHAIN_STORED,
    DNG_CHAIN_TABLE_VALUE,
    DNG_CHAIN_CELL,
    DNG_CHAIN_COLUMN_DELTA,
    DNG_CHAIN_ROW_DELTA,
    DNG_CHAIN_B,
    DNG_CHAIN_M,
    DNG_CHAIN_L,
    DNG_CHAIN_COVERING,
    DNG_CHAIN_SKIPPED,
    DNG_CHAIN_NUMBERS /* how many they are: 10 */
};

/* The places that each of the five slices must have; more are fine. */
enum { DNG_CHAIN_PLACES = 32 };

/* All numbers and the value are written: zeros and +0.0 of a refused spot. The first numbers[DNG_CHAIN_COVERING] places of four
   slices take, for each covering opcode in list order, its place in the whole list (from 0), its id (7 to 13), the value before it
   and the value after it: the first value before is L / 65535.0, each other one the value after of the opcode before, and the last
   value after is the spot's. The first numbers[DNG_CHAIN_SKIPPED] places of the fifth take the places of the skipped opcodes. All
   other places stay as they were, and where the call refuses, all of them. It refuses as dng_spot does, then by 14 where one of
   the five slices has fewer than DNG_CHAIN_PLACES places. */
uint64_t dng_chain(const uint8_t *file, size_t file_len, size_t row, size_t column, size_t plane,
                   int64_t numbers[DNG_CHAIN_NUMBERS], double *value, uint64_t *places, size_t places_len, uint64_t *ids, size_t ids_len,
                   double *before, size_t before_len, double *after, size_t after_len, uint64_t *skipped, size_t skipped_len);

/* A refused window of any kind leaves its slice as it was. */
uint64_t dng_window(const uint8_t *file, size_t file_len, size_t top, size_t left, size_t height, size_t width,
                    double *out, size_t out_len);

/* The same window: number, detail and slice are those of dng_window for every file and all arguments. Of an 8-bit mosaic without
   BlackLevelDeltaH and BlackLevelDeltaV the samples are looked up in tables, one for each black cell that the window meets, which is
   faster where a window has many samples; every other file goes dng_window's way. */
uint64_t dng_table_window(const uint8_t *file, size_t file_len, size_t top, size_t left, size_t height, size_t width,
                          double *out, size_t out_len);

/* Three values to a pixel: X, Y, Z (D50). */
uint64_t dng_colour_window(const uint8_t *file, size_t file_len, size_t top, size_t left, size_t height, size_t width,
                           double *out, size_t out_len);

/* Half-size colour of a mosaic: top, left, height and width count in 2x2 blocks from the active corner, and a block has three
   values, X, Y, Z (D50), of its red, the mean of its two greens and its blue. */
uint64_t dng_half_window(const uint8_t *file, size_t file_len, size_t top, size_t left, size_t height, size_t width,
                         double *out, size_t out_len);

#ifdef __cplusplus
}
#endif

#endif
