/* bias.h - load, step and write BIAS motion programs.
 *
 * For drive firmware that has to run an old BIAS program (631, 635, 637, 637+, 637f). You keep the program's image and
 * a state buffer; bias_load judges the image and fills the state; then, in each cycle of the old drive, bias_step
 * carries out one command of the task that you name and tells you whether the axis is to be moved. bias_write and
 * bias_write_landings make images; what is in one, byte by byte, is in docs/IMAGE.md.
 *
 * What is written here of answers, of their order and of the content of lent buffers is proved of the library's source
 * (docs/PROMISES.md). What is not proved says so.
 *
 * All that the library knows is in the buffers that you lend: the language it is written in has no globals, no heap and
 * no threads. Seen in the archive, not proved: of other libraries it needs memcpy, memmove and memset alone. Two states
 * may be stepped from two threads; one state from one thread at a time.
 *
 * WHAT YOU PROMISE
 *   - A pointer and its length describe memory that you own. Nothing else is asked of a length or a content: every
 *     byte that can be lent is answered, with a refusal where it has to be. Of a buffer of length 0 no byte is read;
 *     its pointer should still not be null.
 *   - Buffers lent in one call don't overlap. Buffers need no alignment.
 *   - Between a load and the steps after it the image stays as it is. Another header, landing list or length is refused
 *     by 17, and so is a current block that is no permitted command there. Any other change goes unnoticed, and then
 *     what runs is not the program that was judged: 17 is no checksum.
 *   - Nobody but the library writes a state buffer. 16 refuses what is no state; it is no checksum either. A copy of
 *     the buffer, byte for byte, is the same state.
 *   - A state buffer has the layout of the release that loaded it. Its byte at BIAS_STATE_LAYOUT_AT is the layout
 *     number, which is raised by each release that moves a byte or gives one another meaning (a rule for releases, not
 *     proved). A state with another number is refused by 16: load anew, which begins the program from its start. So is
 *     a state of a release that had no such number yet: it has 1 there. A program that an earlier release loaded may
 *     be refused.
 *
 * WHAT YOU LEND
 *   image   the program's bytes; only read. One of more than BIAS_MOST_IMAGE_LENGTH bytes is always refused
 *   marks   BIAS_MARKS_LENGTH bytes or more, during bias_load only; its content needs no clearing, and is anything
 *           afterwards; the library leaves bytes behind the first BIAS_MARKS_LENGTH alone
 *   state   BIAS_STATE_LENGTH bytes exactly, one buffer for each program that runs
 *   inputs  BIAS_INPUTS_LENGTH bytes exactly, during bias_step only; only read
 * Besides, a step uses under 3 KiB of stack and a load or a write under 1 KiB, as measured on x86-64 (docs/BENCH.md).
 *
 * IN EACH CYCLE
 *   1. Read the input pins into inputs, and the start input. On the old drives that is pin 11 of terminal X10, if it
 *      was configured with function 0, and on a 631 pin 9, if it was configured with function 3. It is an input pin as
 *      well, which 63 and 70 read however it was configured: lend its level in both places. The image does not tell the
 *      configuration. For a machine without a start input give start_input as 0 always: moves then start by 0E alone.
 *   2. Step BIAS, then the PLC and mathematics, each once or more. Waits (59, 5A) count BIAS steps of 1,899 or 844 us,
 *      by the drive type in the image's header and not by your own cycle: step BIAS once in that time.
 *   3. Hand each motion request to the axis before the next BIAS step, also while the axis still moves (what that means
 *      stands at the motion requests below). Give the axis's two bits with each step: ramp_ended and in_window.
 *      They count as given from the first step on, before any move: for an axis that is at rest and was never asked to
 *      move give 1 and 1. Bits that stay 0 until something has moved keep a 58 before the first move waiting for ever.
 *      Behind a move they may come one BIAS step late: in the first BIAS step behind it a 58 stays whatever they are;
 *      from the second on they have to be those of the new movement. A stop is no move: behind one they have to be
 *      those of the stop at once, so hold late ones back.
 *   4. Carry the output levels from the state buffer to the pins. After a load they are all 0.
 *   5. Note 19, 20 and 22 when they come: they come once, and from then on that task answers 18. No motion is asked for
 *      when a task halts or ends; stopping the axis is up to you.
 */
#ifndef BIAS_H
#define BIAS_H

#include <stddef.h>
#include <stdint.h>

#ifdef __cplusplus
extern "C" {
#endif

/* The version of this header: raised by each release that changes a signature, a limit or the layout of the state (a
 * rule for releases, not proved), so that firmware can refuse to be built with another: #if BIAS_VERSION != 5. So far:
 *   1   release 1
 *   2   five nested calls instead of eight, so 27,000 bytes of marks instead of 40,500; shorter records in the state
 *   3   the layout number in the state; what is behind it stands a byte further
 *   4   bias_step takes ramp_ended and in_window instead of position_reached; the state notes moves
 *   5   format 2 with landing blocks, commands 56 and 5B, bias_write_landings; the state keeps the landing list
 * Nothing in the archive tells its version: take header and archive from one release. */
#define BIAS_VERSION 5u

/* Lengths of lent buffers, in bytes. */
#define BIAS_MARKS_LENGTH 27000u
#define BIAS_STATE_LENGTH 2048u
#define BIAS_INPUTS_LENGTH 256u

/* Limits of a program. */
#define BIAS_BLOCK_LENGTH 8u        /* a command code and seven operand bytes */
#define BIAS_MOST_BLOCKS 1500u
#define BIAS_MOST_DEPTH 5u          /* calls (52) that a task may be inside of */
#define BIAS_MOST_LANDINGS 64u      /* landing blocks, to which 56 and 5B may jump */
#define BIAS_MOST_IMAGE_LENGTH 12137u /* header of 4 + 2 + 2 + 1 + 128 bytes, the most blocks; room enough for any image
                                         that is written */
#define BIAS_FORMAT 1u              /* an image without landing blocks: bias_write */
#define BIAS_FORMAT_LANDINGS 2u     /* one with a landing list: bias_write_landings */

/* What firmware may read in a state buffer: the bytes before BIAS_STATE_LAYOUT_AT. Those behind may move with any
 * release. */
#define BIAS_STATE_VARIABLES 0u     /* 256 variables, four bytes each, low byte first, signed */
#define BIAS_STATE_FLAGS 1024u      /* 256 flags, a byte each, 0 or 1 */
#define BIAS_STATE_OUTPUTS 1280u    /* 256 output levels, a byte for each pin number, 0 or 1 */
#define BIAS_STATE_LAYOUT_AT 1536u  /* the layout number, a byte; bias_step tests it, firmware has no need to */

/* The layout number that bias_load writes. bias_step refuses a state with another one by 16, so that a state saved by a
 * release with another layout is never taken for one of this: load anew then. */
#define BIAS_STATE_LAYOUT 5u

/* Drive types, and what is in their slots. A 631 has both slots empty; RP-2C8 and RP-SBT are for the 637f alone. */
enum {
    BIAS_TYPE_631 = 0,              /* cycle length 1,899 us */
    BIAS_TYPE_635 = 1,              /* 1,899 us */
    BIAS_TYPE_637 = 2,              /* 1,899 us */
    BIAS_TYPE_637_PLUS = 3,         /* 844 us */
    BIAS_TYPE_637F = 4              /* 844 us */
};
enum { BIAS_SLOT_B_EMPTY = 0, BIAS_SLOT_B_RP_EA5 = 1, BIAS_SLOT_B_RP_2C8 = 2 };
enum { BIAS_SLOT_C_EMPTY = 0, BIAS_SLOT_C_RP_EAE = 1, BIAS_SLOT_C_RP_SBT = 2 };

/* Tasks: which one a step is for, or which one a refusal speaks of. */
enum {
    BIAS_TASK_BIAS = 0,             /* the sequential program; runs after a load */
    BIAS_TASK_PLC = 1,              /* runs once a 54 started it */
    BIAS_TASK_MATHEMATICS = 2       /* runs once a 90 started it */
};

/* Motion requests: what a step asks of the axis, and which fields of bias_answer carry it.
 *
 * A request can come while the axis still carries out an earlier one: a program need not wait by 58 before its next
 * move, and the PLC may stop the axis at any time. The newest counts: let it take the place of the earlier one at once,
 * also of one from the same cycle. The library keeps no list of requests and does not know whether the axis is at rest.
 * How the axis goes from one movement into the next is up to you; in the old drive (the manual at 22 and 23) the
 * acceleration is the ramp to any other speed in the same direction, a lower one too, and where the direction changes
 * the axis comes to rest by the deceleration and goes on by the acceleration. Parameters that a program sets during a
 * movement (20 to 23, 30 to 33) go with its next request and leave the movement as it is. */
enum {
    BIAS_MOTION_NONE = 0,
    BIAS_MOTION_MOVE_TO = 1,          /* to an absolute position: position, speed, acceleration, deceleration */
    BIAS_MOTION_MOVE_BY = 2,          /* by a distance from the axis's latest target, reached or not: the same four */
    BIAS_MOTION_ENDLESS_FORWARD = 3,  /* the same four; position has no meaning for the movement */
    BIAS_MOTION_ENDLESS_BACKWARD = 4, /* likewise */
    BIAS_MOTION_STOP = 5              /* mode and deceleration */
};
enum {
    BIAS_STOP_ABRUPT = 0,             /* the target becomes the present position; a deceleration is carried all the
                                         same */
    BIAS_STOP_GUIDED = 1              /* along the deceleration ramp */
};

/* The numbers of answers, with what `place` means. "Block" refusals of walks name task and depth as well; parts that a
 * refusal does not name are 0. */
enum {
    BIAS_SUCCESS = 0,
    /* the image, from bias_load; 1, 3 and 4 also from bias_write and bias_write_landings */
    BIAS_ENDS_EARLY = 1,              /* the image's length; of a writer: blocks too short, their length */
    BIAS_NOT_SHORTEST = 2,            /* a number of the header or of the landing list longer than needed, or a second
                                         byte of 128 or more: its first byte */
    BIAS_BAD_HEADER = 3,              /* a header number out of range, a board not for the type, a start not below the
                                         count: its first byte; of a writer: the byte where it would stand */
    BIAS_LEFT_OVER = 4,               /* the first byte left over; of a writer: blocks too long, their length */
    BIAS_BAD_CODE = 5,                /* a command that is not carried: block */
    BIAS_NOT_ON_DRIVE = 6,            /* the type lacks the command, or lacks the pin with any board, as an input or
                                         as an output. It takes another drive, or another pin: block */
    BIAS_BAD_OPERAND = 7,             /* another operand out of range, or a 51 that would end another task: block */
    BIAS_UNUSED_NOT_ZERO = 8,         /* a byte that the command does not use is not 0: block */
    BIAS_FORBIDDEN = 9,               /* a command not allowed in the task that can reach it: block, task, depth */
    BIAS_TOO_DEEP = 10,               /* a call at depth BIAS_MOST_DEPTH: block, task, depth */
    BIAS_NO_CALL = 11,                /* a return that some way reaches without a call: block, task, depth */
    BIAS_PAST_END = 12,               /* the program can run past its end: block, task, depth */
    /* lent lengths */
    BIAS_MARKS_SHORT = 13,            /* bias_load: marks under BIAS_MARKS_LENGTH bytes: their length */
    BIAS_ROOM_SHORT = 14,             /* of a writer: no room for the image: the length needed */
    BIAS_BAD_INPUTS = 15,             /* bias_step: no such task: its number; or not BIAS_INPUTS_LENGTH inputs: their
                                         length */
    BIAS_NO_STATE = 16,               /* the state has another length than BIAS_STATE_LENGTH, or, in bias_step, is no
                                         state or has another layout number than BIAS_STATE_LAYOUT (a release with
                                         another layout saved it: load anew): none */
    /* steps */
    BIAS_OTHER_IMAGE = 17,            /* header, landing list or length not the loaded image's, or the current block
                                         breaks 5 to 12 or 23, or a wait is pending there and it is no wait: block,
                                         task, depth */
    BIAS_NOT_RUNNING = 18,            /* the task was never started, has ended or is halted: none */
    BIAS_ZERO_DIVISOR = 19,           /* 8D by a variable that holds 0; the task halts: block, task, depth */
    BIAS_BAD_CONTENT = 20,            /* 31 to 33 or 5A read a variable out of range; the task halts: block, task,
                                         depth */
    /* jumps by a variable: the landing list of an image, and a step */
    BIAS_BAD_LANDINGS = 21,           /* bias_load, bias_write_landings: more than BIAS_MOST_LANDINGS landing blocks:
                                         the first byte of their count; or a landing block that is not above the one
                                         before it, or not below the block count: its first byte. Of the writer the
                                         byte where it would stand, and for half a landing block that of the count */
    BIAS_NO_LANDING = 22,             /* 56 or 5B read a variable that holds no landing block; the task that executes it
                                         halts, and a 5B leaves BIAS alone: block, task, depth */
    /* the image again: bias_load answers 23 where a board would help, and else 6 */
    BIAS_BOARD_MISSING = 23           /* the pin is on a board that the type can take; its slot is empty or holds
                                         another. Buy that board, fit it and name it in the header: block */
};

/* The answer of bias_load and of the two writers. */
typedef struct {
    uint64_t place;                   /* byte, length or block; after a successful write the length written */
    uint32_t number;                  /* BIAS_SUCCESS or the refusal */
    uint32_t task, depth;             /* of 9 to 12, else 0 */
} bias_verdict;

/* The answer of bias_step. Fields that the motion request does not carry are 0. */
typedef struct {
    uint64_t place;                   /* of 17, 19, 20, 22 the block before the step, of 15 the number or length, else
                                         0 */
    uint32_t number;                  /* BIAS_SUCCESS or the refusal */
    uint32_t task, depth;             /* of 17, 19, 20 and 22, else 0 */
    uint32_t motion;                  /* BIAS_MOTION_...; a refused or halting step has none */
    int32_t position;                 /* increments */
    uint32_t speed;                   /* rpm, 1 to 12000 */
    uint32_t acceleration;            /* 5 rpm/s, 1 to 64000 */
    uint32_t deceleration;            /* 5 rpm/s, 1 to 64000 */
    uint32_t mode;                    /* of a stop: BIAS_STOP_... */
} bias_answer;

/* Judges an image and, when it is accepted, writes the state of a program about to begin: BIAS at the program start,
 * the PLC and mathematics never started, all variables, flags and outputs 0, the start input taken as high before, no
 * move before.
 *
 * The first of these is told: 13, 16, the header's numbers by 1, 2, 3, those of the landing list by 1, 2, 21, the
 * length by 1 or 4, each block upwards by 5, 6 or 23, 7, 8; then what the program can reach, with every condition taken
 * both ways and every jump by a variable to each landing block: 7 for a 51 that would end another task, at the least
 * such block, and else 9 to 12 at the least bad place: the least block, in it the least task, then the least depth. A
 * refused load leaves the state buffer as it was. */
bias_verdict bias_load(const uint8_t *image, size_t image_len,
                       uint8_t *marks, size_t marks_len,
                       uint8_t *state, size_t state_len);

/* Carries out one command of one task, the one at that task's pointer.
 *
 *   image, image_len    the image that was loaded
 *   state, state_len    what bias_load left and the steps since have changed
 *   task                BIAS_TASK_...; call once for each task and cycle, or in any order you like
 *   inputs, inputs_len  BIAS_INPUTS_LENGTH levels, inputs[n] for pin n; anything but 0 is high
 *   start_input         the start input's level (which pin: "IN EACH CYCLE" above); anything but 0 is high; looked at
 *                       in BIAS steps. A move without a start mark waits for it to be high in a BIAS step and low in
 *                       the BIAS step before it (a refused step does not count); as load leaves it, it counts as high
 *                       before
 *   ramp_ended          anything but 0: the ramps of the latest movement or stop have ended, or none was asked for yet
 *                       and the axis is at rest
 *   in_window           anything but 0: the position is within the window around the target; let an endless move and a
 *                       stop leave the target where the axis is, and before the first move let the target be there too.
 *                       The old drive's bit is set at an active limit switch, too, dependent on direction (the manual
 *                       at 58): give both bits there if a 58 is to go on
 *                       A 58 passes when both are given and the preceding BIAS step carried out no move (a step that
 *                       was refused or halted does not count, nor do other tasks' steps); else it stays. With no move
 *                       since the load the two bits alone decide: the library takes neither for granted
 *
 * 15, 16, 18 and 17 are tested in this order, and a step that they refuse leaves the state buffer as it was. 18 is no
 * fault: a task that is not running has nothing to do. 19, 20 and 22 halt the task and, in a BIAS step, note the start
 * input's level; the rest of the state stays, and with it the note whether the latest BIAS step that was carried out
 * was a move. The task stays halted until a 54, 57, 5B or 90 of another task starts it anew. In a run from an accepted
 * load, with image and state left alone, 16 and 17 do not come. */
bias_answer bias_step(const uint8_t *image, size_t image_len,
                      uint8_t *state, size_t state_len,
                      uint32_t task,
                      const uint8_t *inputs, size_t inputs_len,
                      uint8_t start_input, uint8_t ramp_ended, uint8_t in_window);

/* Writes an image without landing blocks: the six header numbers, then the blocks as they are (they are not judged;
 * load the image for that).
 *
 *   format              BIAS_FORMAT, else 3 at byte 0
 *   type, slot_b, slot_c  BIAS_TYPE_..., BIAS_SLOT_B_..., BIAS_SLOT_C_...
 *   start               the block where BIAS begins, below count
 *   count               blocks, 1 to BIAS_MOST_BLOCKS
 *   blocks, blocks_len  BIAS_BLOCK_LENGTH bytes for each block
 *   out, out_len        room for the image; bytes behind it stay as they are
 *
 * Refusals, in this order: 3 (place: the byte where that number would stand), 1 or 4 for blocks that are too short or
 * too long (place: their length), 14 (place: the length needed). A refused write leaves `out` as it was. On success
 * `place` is the image's length. */
bias_verdict bias_write(uint32_t format, uint32_t type, uint32_t slot_b, uint32_t slot_c,
                        uint32_t start, uint32_t count,
                        const uint8_t *blocks, size_t blocks_len,
                        uint8_t *out, size_t out_len);

/* Writes an image with landing blocks, those that 56 and 5B may jump to by a variable: as bias_write does, with their
 * count and the landing blocks themselves between the header and the blocks.
 *
 *   format              BIAS_FORMAT_LANDINGS, else 3 at byte 0
 *   type to count       as for bias_write
 *   landings, landings_len  two bytes for each landing block, low byte first; block numbers upwards, none twice, each
 *                       below count; at most BIAS_MOST_LANDINGS, or none
 *   blocks to out_len   as for bias_write
 *
 * Refusals, in this order: 3; 21 for an odd landings_len or too many landing blocks (place: the byte where their count
 * would stand), else for the first landing block that is at fault (place: the byte where it would stand); 1 or 4; 14.
 * As for bias_write a refused write leaves `out` as it was, and on success `place` is the image's length. */
bias_verdict bias_write_landings(uint32_t format, uint32_t type, uint32_t slot_b, uint32_t slot_c,
                                 uint32_t start, uint32_t count,
                                 const uint8_t *landings, size_t landings_len,
                                 const uint8_t *blocks, size_t blocks_len,
                                 uint8_t *out, size_t out_len);

#ifdef __cplusplus
}
#endif

#endif
