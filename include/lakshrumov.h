/* Frames of the serial line, pairs of frames and capture files, for host programs in C and C++ on x86-64. Link with liblakshrumov.a or
 * liblakshrumov.so, as `./run --install` lays them down, or with libhost.a, as `tools/program libhost.a` makes it.
 *
 * A frame is 64 line bits held as a 64-bit number, position 0 as its highest bit. A data word is a number below 2^48.
 * A list of 64-bit numbers is a run of bytes, eight bytes a number, highest first. A pair of frames, A and B, is the 128 line bits
 * A0 B0 A1 B1 and so on, held as two 64-bit words, the first of the bits as the highest of the first word. A capture file is the frames of a
 * lane, then any notes, then a trailer: see below.
 *
 * What a caller owes, in every call:
 *   - a pointer and the length beside it describe bytes that may be read, and written where the pointer is not const;
 *   - NULL is given only with length 0;
 *   - the buffers of one call do not overlap: what a call does with buffers that do is undefined, and it does not refuse them;
 *   - no other thread writes to them during the call, or reads those that the call writes.
 * Buffers need no alignment. Nothing is kept after the call, nothing is allocated, and no call has a state: any calls may run at the same
 * time, in any threads, on different buffers. A call needs at most 13.7 KB of stack; docs/C-INTERFACE.md says how much each.
 *
 * A refusal is a number of the paper's table and no other answer: every byte lent is then as it was before the call. Where refusals meet,
 * the one that stands first in the call's list below is given. Bytes of an output past the written ones always stay as they were.
 */
#ifndef LAKSHRUMOV_H
#define LAKSHRUMOV_H

/* Where a compiler comes without headers: declare size_t, uint8_t, uint32_t and uint64_t first and define LAKSHRUMOV_PLAIN_TYPES. */
#ifndef LAKSHRUMOV_PLAIN_TYPES
#include <stddef.h>
#include <stdint.h>
#endif

/* The version of this header and of its library: ten thousand times the major, a hundred times the minor number, and the patch. The major
 * number changes when a program that was built against an older header could be misled, the minor number when calls are added. */
#define LKS_VERSION 20100

/* The refusals of frames, */
#define LKS_TOO_LARGE 11  /* a data word of 2^48 or more */
#define LKS_LENGTH 12     /* a length that does not fit, or is not divisible by eight where numbers are meant, or is odd in pairs */
#define LKS_NO_WORD 13    /* no code word within two flips */
#define LKS_RUN_BROKEN 14 /* the code word within two flips has a wrong run bit */
/* and of captures, which have 12 too. */
#define LKS_NO_TAG 21          /* a file under 24 bytes, or without the tag */
#define LKS_DISAGREEING 22     /* the trailer's numbers disagree with the file or with each other */
#define LKS_TOO_MANY_FRAMES 23 /* over 8,000 frames */

/* The answer of lks_frame_read:
 *   bytes 0..7   the data word, highest byte first
 *   byte  8      the number of flips corrected, 0, 1 or 2
 *   bytes 9, 10  their places, positions 0 to 62, the lower first; LKS_NO_PLACE where there is none
 *   byte  11     1 where the pad is wrong, that is, not the opposite of the corrected position 62; else 0
 *   byte  12     the check flips, that is, how many of those places are check bits, positions 51 to 62; 0, 1 or 2
 */
#define LKS_ANSWER_BYTES 13
#define LKS_NO_PLACE 255

/* A capture file, all numbers highest byte first:
 *   the frames   eight bytes each, any 64 bits
 *   the notes    any bytes, or none
 *   the trailer  4C 43 41 50, the lane in four bytes, the number of frames in eight, and in eight the distance from the trailer's first
 *                byte back to the first frame, which is the length of the file less 24
 */
#define LKS_TRAILER_BYTES 24
#define LKS_MOST_FRAMES 8000
#define LKS_MOST_FILE_BYTES 65536

/* The answer of lks_capture_head and lks_capture_read, highest byte first:
 *   bytes 0..3   the lane
 *   bytes 4..11  the number of frames; the notes are the bytes of the file from eight times that number on, up to 24 before its end
 */
#define LKS_CAPTURE_ANSWER_BYTES 12

#ifdef __cplusplus
extern "C" {
#endif

/* The frame of a data word.
 * Returns the frame, or 11 where data is 2^48 or more. A frame is at least 2^47, so the two cannot be mistaken. */
uint64_t lks_frame_make(uint64_t data);

/* Reads a frame, correcting up to two flips among positions 0 to 62, and writes the first 13 bytes of answer.
 * Returns 0, or
 *   12  answer_len is below 13
 *   13  no code word within two flips
 *   14  the code word within two flips has a wrong run bit */
uint64_t lks_frame_read(uint64_t frame, uint8_t *answer, size_t answer_len);

/* Turns a list of data words into the list of their frames, and writes the first data_len bytes of frames.
 * Returns 0, or
 *   12  data_len or frames_len is not divisible by eight, or frames_len is below data_len
 *   11  a data word of the list is 2^48 or more: the list is refused whole */
uint64_t lks_frames_make(const uint8_t *data, size_t data_len, uint8_t *frames, size_t frames_len);

/* Reads a list of frames. For each it writes its data word, one verdict byte, the number of flips corrected (0, 1, 2) or 13 or 14, and one
 * byte of check flips (0, 1, 2); of a frame with 13 or 14 the data word and the check flips are 0. A frame that cannot be read does not stop
 * the list, and the call does not refuse for it.
 * Writes the first frames_len bytes of data, and the first frames_len / 8 of verdicts and of checks.
 * Returns 0, or
 *   12  frames_len or data_len is not divisible by eight, data_len is below frames_len, or verdicts_len or checks_len is below
 *       frames_len / 8 */
uint64_t lks_frames_read(const uint8_t *frames, size_t frames_len, uint8_t *data, size_t data_len, uint8_t *verdicts,
                         size_t verdicts_len, uint8_t *checks, size_t checks_len);

/* Lays the frames of a list out in pairs, the first with the second, the third with the fourth and so on, and writes the first frames_len
 * bytes of words. Any 64 bits are a frame here, lawful or not.
 * Returns 0, or
 *   12  frames_len or words_len is not divisible by eight, the number of frames is odd, or words_len is below frames_len */
uint64_t lks_pairs_make(const uint8_t *frames, size_t frames_len, uint8_t *words, size_t words_len);

/* Takes each pair of a list of words apart and reads its two frames, each by itself. For each frame, in the order in which lks_pairs_make
 * takes them, it writes its data word and one verdict byte, the number of flips corrected (0, 1, 2) or 13 or 14; of a frame with 13 or 14
 * the data word is 0. A frame that cannot be read stops neither the other one of its pair nor the list, and the call does not refuse for it.
 * Where the frames sent were lawful and all flips of a pair lie within 4 neighbouring positions of its 128, both data words come back.
 * Writes the first words_len bytes of data, and the first words_len / 8 of verdicts.
 * Returns 0, or
 *   12  words_len or data_len is not divisible by eight, the number of words is odd, data_len is below words_len, or verdicts_len is below
 *       words_len / 8 */
uint64_t lks_pairs_read(const uint8_t *words, size_t words_len, uint8_t *data, size_t data_len, uint8_t *verdicts, size_t verdicts_len);

/* Writes the capture file of a lane, its frames and its notes to the start of file.
 * Returns the length of the file, frames_len + notes_len + 24. A number below 24 is a refusal:
 *   12  frames_len is not divisible by eight, or the file would pass 65,536 bytes, or file_len is below its length
 *   23  over 8,000 frames, that is, frames_len is above 64,000 */
uint64_t lks_capture_write(uint32_t lane, const uint8_t *frames, size_t frames_len, const uint8_t *notes, size_t notes_len, uint8_t *file,
                           size_t file_len);

/* Says the lane and the number of frames of a capture file, and writes the first 12 bytes of answer.
 * Returns 0, or
 *   12  answer_len is below 12, or file_len is above 65,536
 *   21  file_len is below 24, or the last 24 bytes do not begin with the tag
 *   22  the distance is not file_len - 24, or it is below eight times the number of frames
 *   23  over 8,000 frames */
uint64_t lks_capture_head(const uint8_t *file, size_t file_len, uint8_t *answer, size_t answer_len);

/* The same, and writes the frames of the file, eight bytes each, to the start of frames.
 * Returns 0, or
 *   12  answer_len is below 12, or file_len is above 65,536, or frames_len is not divisible by eight or is below 64,000, however many
 *       frames there are
 *   21, 22, 23  as lks_capture_head */
uint64_t lks_capture_read(const uint8_t *file, size_t file_len, uint8_t *frames, size_t frames_len, uint8_t *answer, size_t answer_len);

#ifdef __cplusplus
}
#endif

#endif
