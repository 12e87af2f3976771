/* Edits of a lane map, runs of edits, and files. Written in Rattle and proved: crates/edit_export has the contract of each edit,
   crates/run_export of each run, crates/files_export of each function on files (libedit_export.a and so on).

   Every call is handed its memory and answers for every input: nothing is required of lengths, numbers or contents but that the
   memory is there and that no two pieces that are written overlap anything else that is lent. A slice is a pointer and a count
   of its elements. A refused call leaves all memory as it was, but the answer that it writes.

   Stack: a call works on the stack of its caller's thread and takes no other memory; nothing is kept between calls. Lend it 192 KB.
   Measured: 180 KB for a light beside a fold with more than 256 entries in a list, 100 KB beside a shorter one; 164 and 84 KB for a
   stop line, 64 KB for links, 36 KB and less for files. */
#ifndef LANE_MAP_H
#define LANE_MAP_H

#include <stdbool.h>
#include <stddef.h>
#include <stdint.h>

#ifdef __cplusplus
extern "C" {
#endif

/* Lengths of what is lent. Slices of other lengths are refused: 12 for words and coords, 13 for fold and set.
   docs/TABLES.md says what stands where. */
#define LANE_MAP_WORDS 13671   /* words:  the map's records */
#define LANE_MAP_COORDS 105280 /* coords: the map's coordinates */
#define LANE_MAP_SET 3556      /* fold:   the running fold; set: the change set of the last accepted call */
#define LANE_MAP_ROW 28        /* a row of a list of calls */
#define LANE_MAP_ANSWER 9      /* an answer */
#define LANE_MAP_NO_CALL 255   /* the answer to what is no call */

/* The tally: how many entries the running fold has as created, modified and deleted.

   An answer is LANE_MAP_ANSWER words, and its first word is the result too:
     0 what came of it: 0 done, 1 to 14 the refusal, 255 no such call
     1 the number of the record that was made or linked
     2, 3 the two details of a refusal
     4 whether the ends of the line are named: 1 for a line that the call has drawn across lanes, else 0
     5, 6 the left end: the lane, and the side of it on whose boundary the end lies (0 left, 1 right); 7, 8 the right end
     A word that has nothing to say is 0. Ends are named by a stop line with placement 0 or 1 and by a light that draws its line so; a line
     of given points, a line that is on the map already, a light without a line, links and refusals name none. Where several boundaries lie
     as far out as the end, it has the name of the first: lanes in the order of the call's list, left before right.

   No such call: a number that the call reads is no case of its enum, or a part of a pool that it reads does not lie within the pool.
   12 and 13 come before it, as before every other answer. What a call does not read is not looked at and may be anything: below,
   "read where" says when a number or a slice is read.

   Refusals: 1 no lanes; 2 unknown record (its kind, its number); 3 listed twice (1 lanes, 2 crosswalks, 3 lines);
   4 bad measure (1 height, 2 offset, 3 station); 5 bad shape (1 not finite, 2 too short); 6 no place (1 no lane geometry, 2 empty,
   3 degenerate centreline, 4 missing boundary, 5 no section, 6 empty stop line); 7 wrong group (1 controls crosswalks, 2 no light,
   3 uses another line than the one that is named, 4 has a line and a new one is asked for); 8 wrong link (1 to 8, in the order
   of the rule's tests); 9 off the map; 10 full; 11 numbers spent; 12 no map; 13 no running fold or set; 14 short buffer.

   Kinds of records: 1 lane, 5 stop line, 6 signal, 7 crosswalk, 8 rule. */

/* A stop line across the lanes.
   placement: 0 at the first lane's end, 1 at a station, 2 at the given coordinates.
   measure:   the offset before the end, or the station, in metres, read where the placement is 0 or 1.
   given:     x, y, z of each point, read where the placement is 2.
   rule:      0 stop sign, 1 marking, 2 none. */
uint64_t lane_map_add_stop_line(
    uint64_t *words, size_t words_len, double *coords, size_t coords_len,
    uint64_t *fold, size_t fold_len, uint64_t tally[3], uint64_t *set, size_t set_len,
    const uint64_t *lanes, size_t lanes_len, uint64_t placement, double measure,
    const double *given, size_t given_len, uint64_t rule, uint64_t answer[LANE_MAP_ANSWER]);

/* A traffic light.
   numbers: 0 choice of the line (0 automatic, 1 existing, 2 new, 3 none)
            1 the existing line, read where the choice is 1
            2 placement of a new line as above, read where the choice is 2
            3 whether the housing is given, 4 whether the height is given (whether: 0 no, any other number yes)
            5 kind (0 vehicle, 1 pedestrian)
            6 whether the lamps are given
            7 to 14 colour and arrow of the first four lamps, read of the lamps that are given
              (colours: 0 red, 1 yellow, 2 green, 3 white; arrows: 0 none, 1 up, 2 down, 3 left, 4 right, 5 up left, 6 up right,
              7 down left, 8 down right)
            15 whether a group is given, 16 the light that it joins, read where it is given; where that light has a line, automatic (0)
               and none (3) take it as if it were named, and a new one (2) is refused
   measure: the offset or station of a new line, read where the choice is 2 and the placement 0 or 1
   height:  in metres, read where it is given
   points:  the coordinates of a new line, read where the choice is 2 and the placement 2
   housing: those of the housing's lower edge, read where it is given
   lamps:   x, y, z of each lamp, any number of them, read where they are given. A lamp that is off the map or not finite is 9, and a
            coordinate that is missing at the end is not finite; then more than four lamps are 10. */
uint64_t lane_map_add_traffic_signal(
    uint64_t *words, size_t words_len, double *coords, size_t coords_len,
    uint64_t *fold, size_t fold_len, uint64_t tally[3], uint64_t *set, size_t set_len,
    const uint64_t *lanes, size_t lanes_len, const uint64_t numbers[17], double measure, double height,
    const double *points, size_t points_len, const double *housing, size_t housing_len,
    const double *lamps, size_t lamps_len, uint64_t answer[LANE_MAP_ANSWER]);

/* The lanes, crosswalks and stop lines of a rule. */
uint64_t lane_map_set_regulatory_links(
    uint64_t *words, size_t words_len, double *coords, size_t coords_len,
    uint64_t *fold, size_t fold_len, uint64_t tally[3], uint64_t *set, size_t set_len,
    uint64_t rule, const uint64_t *lanes, size_t lanes_len, const uint64_t *crosswalks, size_t crosswalks_len,
    const uint64_t *stop_lines, size_t stop_lines_len, uint64_t answer[LANE_MAP_ANSWER]);

/* A list of calls, carried out one after another: rows of 28 words; their lists stand in two pools. A place and a count name a part
   of a pool. Words after the last whole row are passed over. A part that the call reads must lie within its pool, also where it is empty; else the row is no such call (255), and the
   rows after it go on.
     word 0: 1 stop line, 2 light, 3 links, anything else no such call; words 1, 2: place and count of the lanes in lists
     stop line: 3 placement, 4 rule, 5 place of the measure in reals, 6, 7 place and count of the given coordinates in reals
     light:     3 to 19 its numbers, 20 place of the measure in reals, 21 of the height, 22, 23 place and count of the points, 24, 25 of
                the housing, 26, 27 of the lamps, in reals
     links:     3 rule, 4, 5 crosswalks, 6, 7 stop lines, in lists
   Words that are not named, and those of a part that the call does not read, may be anything.
   answers: LANE_MAP_ANSWER words a row. The result: 0, or, where nothing was carried out, 12 or 13 as a single call has them, then 14 where
   answers is too short; so for a list without rows too. */
uint64_t lane_map_run_calls(
    uint64_t *words, size_t words_len, double *coords, size_t coords_len,
    uint64_t *fold, size_t fold_len, uint64_t tally[3], uint64_t *set, size_t set_len,
    const uint64_t *calls, size_t calls_len, const uint64_t *lists, size_t lists_len, const double *reals, size_t reals_len,
    uint64_t *answers, size_t answers_len);

/* A run from a map file to its change set file: opens the file, carries out the calls as lane_map_run_calls does, and writes the
   running fold's change set file at the beginning of buffer; the bytes after it stay.
   file:    the bytes of the map file. What words, coords, fold and tally hold before the call has no meaning.
   written: two words, 0 and how many bytes were written, or 14 and 0 where the buffer is too short: then the buffer stays, but the
            run has been carried out, and lane_map_write_changes writes its fold into a longer one.
   The result: 0, or, where nothing was carried out and all memory is as it was, written too: 12 (words or coords of other lengths,
   then bytes that are no map file), then 13 (fold or set of another length), then 14 (answers too short). */
uint64_t lane_map_run_opened(
    const uint8_t *file, size_t file_len,
    uint64_t *words, size_t words_len, double *coords, size_t coords_len,
    uint64_t *fold, size_t fold_len, uint64_t tally[3], uint64_t *set, size_t set_len,
    const uint64_t *calls, size_t calls_len, const uint64_t *lists, size_t lists_len, const double *reals, size_t reals_len,
    uint64_t *answers, size_t answers_len, uint8_t *buffer, size_t buffer_len, uint64_t written[2]);

/* Files. The result is 0, or the refusal's number, and then all memory is as it was.
   file:   all bytes of a file, from its first to its last: bytes left over are a fault.
   buffer: where a file is written, from its first byte on; the bytes after the file stay.
   size:   one word, how many bytes of the buffer are the file; told only where it was written. */

/* A map file into the map's two slices. 12: other lengths, or bytes that are no map file. */
uint64_t lane_map_read(
    const uint8_t *file, size_t file_len, uint64_t *words, size_t words_len, double *coords, size_t coords_len);

/* The opening of a run: a map file into the map's two slices, fold made empty, tally three zeros. 12 as above; then 13 where fold
   has another length. */
uint64_t lane_map_open(
    const uint8_t *file, size_t file_len, uint64_t *words, size_t words_len, double *coords, size_t coords_len,
    uint64_t *fold, size_t fold_len, uint64_t tally[3]);

/* A change set file into a set's slice. 13: another length, or bytes that are no change set file. */
uint64_t lane_map_read_changes(const uint8_t *file, size_t file_len, uint64_t *set, size_t set_len);

/* The map file of the map's two slices. 12: they are no map; 14: the file is longer than the buffer. */
uint64_t lane_map_write(
    const uint64_t *words, size_t words_len, const double *coords, size_t coords_len,
    uint8_t *buffer, size_t buffer_len, uint64_t size[1]);

/* The change set file of a set or of a running fold. 13: it is no set; 14: the file is longer than the buffer. */
uint64_t lane_map_write_changes(
    const uint64_t *set, size_t set_len, uint8_t *buffer, size_t buffer_len, uint64_t size[1]);

/* Tables (libtable_export.a). */

/* Whether the two slices are the tables of a map: the test that 12 stands for. 1 for yes, 0 for no; slices of other lengths are no map. */
bool lane_map_is_map(const uint64_t *words, size_t words_len, const double *coords, size_t coords_len);

/* A change set taken into a fold, whose warnings are dropped. 13: either is of another length, or its lists are not those of a set;
   10: a list would have more than 512 entries. Refused, the fold is as it was. */
uint64_t lane_map_fold(uint64_t *fold, size_t fold_len, const uint64_t *set, size_t set_len);

#ifdef __cplusplus
}
#endif

#endif
