/*
 * tigbayon.h - the C interface of Tigbayon, a bit-permutation library.
 * SPDX-License-Identifier: MIT OR Apache-2.0
 *
 * Link libtigbayon.a, which `rt lib --cpu x86-64` in crates/tigbayon writes to its out/.
 * It is for x86-64 with the System V ABI: size_t has 64 bits, the order of bytes
 * is little-endian, and the stack is aligned to 16 bytes at every call. It uses
 * the registers of SSE2. Of the C library it needs memcpy and memset alone.
 *
 * Bits are counted from 0 at the right. A width w is 8, 16, 32 or 64, and a
 * word or a mask of width w has zeros at bit w and above. The ones of a mask
 * mark bits: m0, m1, .. are the marked bits from the right, k is their count.
 *
 * Every function here is answered for every input: there is no number that it
 * may not be given, and a pointer need only point to as many numbers as its
 * declaration, or the length after it, says. With length 0 it may be null. A
 * call that breaks a limit is refused, every other call is carried out, and
 * each call ends. No function keeps state or allocates. None touches any memory
 * but what its arguments point to, and where that is const it is only read.
 *
 * A later version may add fields to a struct, arguments to a call, or a refusal.
 * With that TB_VERSION_MINOR rises while TB_VERSION_MAJOR is 0, and CHANGELOG.md
 * says what to change. A refusal number, once given, keeps its meaning, and no
 * name is used again for another meaning. Header and archive must be of one
 * version.
 */
#ifndef TIGBAYON_H
#define TIGBAYON_H

#include <stddef.h>
#include <stdint.h>

/* The version of this header, and of the archive that it belongs to. */
#define TB_VERSION_MAJOR 0
#define TB_VERSION_MINOR 12
#define TB_VERSION_PATCH 0

#ifdef __cplusplus
extern "C" {
#endif

/*
 * The numbers an answer's field `refusal` can hold. Where several conditions
 * apply to a call, the lowest number is answered.
 */
enum TbRefusal {
    TB_CARRIED_OUT = 0,          /* not refused */
    TB_REFUSAL_WIDTH = 1,        /* width not 8, 16, 32, 64 */
    TB_REFUSAL_ABOVE = 2,        /* word or mask has a one at bit w or above */
    TB_REFUSAL_UNUSED = 3,       /* a one in an unused control bit or stage */
    TB_REFUSAL_LENGTH = 4,       /* permutation not w long; run list not a multiple of 4
                                    bytes, or above 4,096 bytes */
    TB_REFUSAL_ENTRY = 5,        /* permutation entry w or above, or repeated */
    TB_REFUSAL_NOT_REALISED = 6, /* permutation not realised by the one network named */
    TB_REFUSAL_KIND = 7,         /* kind not 1 to 10, or in kind 5 r1 not 1 to 4 */
    TB_REFUSAL_REGISTER = 8,     /* a register number in use above 15 */
    TB_REFUSAL_RANGE = 9,        /* a above b, b above the length of the words that a and b
                                    cut, or either list above 2,048 words */
    TB_REFUSAL_SHORT = 10,       /* the other list of words shorter than its bits need */
    TB_REFUSAL_SPARE = 11,       /* a spare bit of the last packed word read is one */
    TB_REFUSAL_SUBWORD = 12,     /* subword size not 1, 2, 4, 8, 16, 32 */
    TB_REFUSAL_PLANE = 13,       /* no rows, no words in a row, or the plane's length not
                                    their product */
    TB_REFUSAL_WAITING = 14,     /* another run waits, or none does, or the list is not the
                                    remainder */
    TB_REFUSAL_FRAME = 15        /* the guarantees sum above the cycles of the frame */
};

/* The answer of tb_gather, tb_scatter and tb_group. */
typedef struct {
    uint8_t refusal; /* an enum TbRefusal */
    uint32_t count;  /* k, from 0 to w; 0 if the call is refused */
    uint64_t word;   /* the result; 0 if the call is refused */
} TbGathered;

/*
 * Gather (pex): bit i of the result is bit mi of the word, for i below k;
 * bits k and up are zero.
 * Refusals: TB_REFUSAL_WIDTH, TB_REFUSAL_ABOVE.
 */
TbGathered tb_gather(uint32_t width, uint64_t mask, uint64_t word);

/*
 * Scatter (pdep): bit mi of the result is bit i of the word, for i below k;
 * unmarked bits are zero. Bits k and up of the word are not looked at, but for
 * the check that they lie below the width.
 * Refusals: TB_REFUSAL_WIDTH, TB_REFUSAL_ABOVE.
 */
TbGathered tb_scatter(uint32_t width, uint64_t mask, uint64_t word);

/*
 * Group (grp): bits 0 to k-1 as gather; bits k to w-1 are the unmarked bits
 * in their order. With k = 0 or k = w the word comes back.
 * Refusals: TB_REFUSAL_WIDTH, TB_REFUSAL_ABOVE.
 */
TbGathered tb_group(uint32_t width, uint64_t mask, uint64_t word);

/*
 * Networks. At width w = 2^L a network has L stages of w/2 two-bit switches.
 * At distance d, switch j*d + t, for t below d, joins bits 2*j*d + t and
 * 2*j*d + t + d. It is set by its control bit, bit j*d + t of the stage: one
 * means pass, zero means swap.
 *
 * The controls of one network are six stages of 32 bits, in the direction of
 * travel. Stages 0 to L-1 use their bits 0 to w/2 - 1. Every other bit and
 * stage is unused, and zero.
 */

/*
 * The answer of tb_butterfly and tb_inverse, and of the calls on subwords: tb_check,
 * tb_excheck, tb_mix_left, tb_mix_right and tb_exchange.
 */
typedef struct {
    uint8_t refusal; /* an enum TbRefusal */
    uint64_t word;   /* the result; 0 if the call is refused */
} TbCarried;

/* The answer of tb_decode and tb_route: controls for both networks. */
typedef struct {
    uint8_t refusal;       /* an enum TbRefusal */
    uint32_t butterfly[6]; /* for tb_butterfly; zeros if the call is refused */
    uint32_t inverse[6];   /* for tb_inverse; zeros if the call is refused */
} TbControls2;

/*
 * Butterfly (bfly): the word sent through stages of distances w/2, .., 2, 1.
 * Controls of zero reverse the word.
 * Refusals: TB_REFUSAL_WIDTH, TB_REFUSAL_ABOVE, TB_REFUSAL_UNUSED.
 */
TbCarried tb_butterfly(uint32_t width, const uint32_t stages[6], uint64_t word);

/*
 * Inverse butterfly (ibfly): the word sent through stages of distances 1, 2,
 * .., w/2. Controls of zero reverse the word.
 * Refusals: TB_REFUSAL_WIDTH, TB_REFUSAL_ABOVE, TB_REFUSAL_UNUSED.
 */
TbCarried tb_inverse(uint32_t width, const uint32_t stages[6], uint64_t word);

/*
 * Prepared networks. Preparing checks controls and brings them to their bits
 * once; any number of words is then sent through, each in less time than by
 * tb_butterfly or tb_inverse.
 *
 * For either network swaps[i] is the stage of distance d = 32 >> i, the widest
 * first, with ones at the lower bits of the pairs that swap. At distances w and
 * above it is zero. At the others every pair at bit w and above is marked too,
 * its control bit being unused and zero; no word of the width notices.
 */

/* The answer of tb_prepare_butterfly and tb_prepare_inverse. */
typedef struct {
    uint8_t refusal;   /* an enum TbRefusal */
    uint64_t swaps[6]; /* for the network named, prepared; zeros if the call is refused */
} TbPrepared;

/*
 * Prepare the butterfly, for tb_butterfly_prepared.
 * Refusals: TB_REFUSAL_WIDTH, TB_REFUSAL_UNUSED.
 */
TbPrepared tb_prepare_butterfly(uint32_t width, const uint32_t stages[6]);

/*
 * Prepare the inverse, for tb_inverse_prepared.
 * Refusals: TB_REFUSAL_WIDTH, TB_REFUSAL_UNUSED.
 */
TbPrepared tb_prepare_inverse(uint32_t width, const uint32_t stages[6]);

/*
 * Butterfly, prepared: the word sent through the stages of swaps[0] to swaps[5].
 * On the swaps that tb_prepare_butterfly answers, the result is that of
 * tb_butterfly for each word of the width. Of any other word the bits below w go
 * likewise.
 *
 * Nothing is refused: on any six words, at each distance d the word x becomes
 * x ^ t ^ (t << d), where t is (x ^ (x >> d)) & swaps[i].
 */
uint64_t tb_butterfly_prepared(const uint64_t swaps[6], uint64_t word);

/*
 * Inverse, prepared: the same through the stages of swaps[5] to swaps[0], for
 * tb_prepare_inverse and tb_inverse.
 */
uint64_t tb_inverse_prepared(const uint64_t swaps[6], uint64_t word);

/*
 * Decode: the controls by which the networks scatter and gather. At distance
 * d, control bits j*d to j*d + d-1 are d zeros turned left once for each one
 * of the mask in bits 0 to 2*j*d + d-1, where a turn moves the top bit to the
 * bottom and complements it. The inverse has the butterfly's stages in
 * reversed order, each stage's bits as they are. For each word of the width,
 *   tb_scatter(w, mask, word).word is tb_butterfly(w, butterfly, word).word & mask,
 *   tb_gather(w, mask, word).word is tb_inverse(w, inverse, word & mask).word.
 * Refusals: TB_REFUSAL_WIDTH, TB_REFUSAL_ABOVE.
 */
TbControls2 tb_decode(uint32_t width, uint64_t mask);

/*
 * Routing. A permutation of width w has w entries and names each bit below w
 * once: entry p is the bit that place p of the result takes. Controls realise
 * it if they bring every bit of every word to its place. In each call here,
 * `permutation` points to `length` entries.
 */

/* The answer of tb_route_butterfly and tb_route_inverse. */
typedef struct {
    uint8_t refusal;    /* an enum TbRefusal */
    uint32_t stages[6]; /* for the network named; zeros if the call is refused */
} TbControls1;

/*
 * Route: the first controls by which tb_butterfly and then tb_inverse, on its
 * result, realise the permutation; there always are some. Any others that do
 * come later: at the first switch where the two sets differ, going through the
 * butterfly's stages and then the inverse's, each from switch 0 up, the first
 * set passes. So two sets of controls for both networks, which may differ and
 * yet move every word alike, do so exactly if this call answers the same for
 * the permutations that they realise.
 * Refusals: TB_REFUSAL_WIDTH, TB_REFUSAL_LENGTH, TB_REFUSAL_ENTRY.
 */
TbControls2 tb_route(uint32_t width, const uint8_t *permutation, size_t length);

/*
 * Route through the butterfly alone: the controls by which tb_butterfly
 * realises the permutation. There is at most one such set; if there is none,
 * the call is refused by TB_REFUSAL_NOT_REALISED. So controls that
 * tb_butterfly accepts, and on which it moves every word of the width alike,
 * are equal; and for the permutation that controls realise this call answers
 * these controls. Entry p of it is the bit b for which the word 1 << b comes
 * out as 1 << p.
 * Refusals: TB_REFUSAL_WIDTH, TB_REFUSAL_LENGTH, TB_REFUSAL_ENTRY,
 * TB_REFUSAL_NOT_REALISED.
 */
TbControls1 tb_route_butterfly(uint32_t width, const uint8_t *permutation, size_t length);

/*
 * Route through the inverse alone: the same for tb_inverse.
 * Refusals: TB_REFUSAL_WIDTH, TB_REFUSAL_LENGTH, TB_REFUSAL_ENTRY,
 * TB_REFUSAL_NOT_REALISED.
 */
TbControls1 tb_route_inverse(uint32_t width, const uint8_t *permutation, size_t length);

/* The answer of tb_route_groups. */
typedef struct {
    uint8_t refusal;   /* an enum TbRefusal */
    uint64_t masks[6]; /* for tb_group, step by step; zeros if the call is refused */
} TbMasks;

/*
 * Route by groups: the masks by which tb_group, in L steps at width w = 2^L, brings
 * every bit of every word to its place. Step i, from 0, groups by masks[i] the word
 * that the step before answered. No step is refused, and the last one answers the
 * permuted word: place p of it has the bit of the first word that entry p names.
 *
 * The mask of step i marks each bit whose present content, after the steps before,
 * must end at a place with bit i zero. So each marks w/2 bits, for the identity too,
 * and different permutations get different masks.
 * masks[L] to masks[5] are zero; grouping by them leaves a word as it is.
 * Refusals: TB_REFUSAL_WIDTH, TB_REFUSAL_LENGTH, TB_REFUSAL_ENTRY.
 */
TbMasks tb_route_groups(uint32_t width, const uint8_t *permutation, size_t length);

/*
 * Packing, at width 64, from one list of words into another, each of at most
 * 2,048 words. The k bits that the mask gathers from a word form a field.
 * Packed, fields lie end to end: the first begins at bit 0 of word 0, the next
 * at the bit after its last, crossing into the next word where needed. The
 * k*(b - a) bits of fields a to b-1 need k*(b - a)/64 words, rounded up; what is
 * left of the last of these is its spare bits. A call that is carried out answers
 * k as its count, also with a = b.
 *
 * In each call here, the first pointer points to `length` words, which are only
 * read, and `out` to `out_length` words. The two lists must not overlap. A
 * refused call leaves every word as it was.
 */

/* The answer of tb_pack and tb_unpack. */
typedef struct {
    uint8_t refusal; /* an enum TbRefusal */
    uint32_t count;  /* k, from 0 to 64; 0 if the call is refused */
    uint64_t bits;   /* k*(b - a); 0 if the call is refused */
} TbPacked;

/*
 * Pack: the fields of words a to b-1 of `words`, packed into `out`. Spare bits
 * become zero, and words after them stay as they were. With no bits no word is
 * written.
 * Refusals: TB_REFUSAL_RANGE (a and b cut `words`), TB_REFUSAL_SHORT (of
 * `out`).
 */
TbPacked tb_pack(uint64_t mask, const uint64_t *words, size_t length, size_t a, size_t b,
                 uint64_t *out, size_t out_length);

/*
 * Unpack: the fields of `packed`, each scattered by the mask, written into
 * words a to b-1 of `out`; its other words stay as they were. Spare bits must be
 * zero; with k*(b - a) a multiple of 64 there are none. Words after the last one
 * read are not looked at. So tb_pack of `out`, by the same mask, a and b, gives
 * the words read. With k = 0 words a to b-1 become zero.
 * Refusals: TB_REFUSAL_RANGE (a and b cut `out`), TB_REFUSAL_SHORT and
 * TB_REFUSAL_SPARE (of `packed`).
 */
TbPacked tb_unpack(uint64_t mask, const uint64_t *packed, size_t length, size_t a, size_t b,
                   uint64_t *out, size_t out_length);

/*
 * Bit planes. Eight words hold sixty-four bytes: byte n is byte n % 8 of word
 * n / 8, byte 0 of a word being its lowest eight bits. A plane has one bit of
 * each byte: bit n of plane p is bit p of byte n, so plane 0 has the lowest bits.
 * Each call here undoes the other.
 *
 * Nothing is refused. The eight words that the pointer points to are only read.
 */

/* The answer of tb_to_planes and tb_from_planes. */
typedef struct {
    uint64_t words[8]; /* planes 0 to 7, or the words of bytes 0 to 63 */
} TbPlanes;

/*
 * To planes: the planes of the bytes in `words`, plane p as word p of the answer.
 */
TbPlanes tb_to_planes(const uint64_t words[8]);

/*
 * From planes: the words of the bytes whose planes these are, planes[p] being
 * plane p.
 */
TbPlanes tb_from_planes(const uint64_t planes[8]);

/*
 * Tiles. A tile is a word of 8 by 8 bits: row r is byte r, row 0 on top, and
 * column c is bit c of that byte, column 7 at the left. So row r, column c is bit
 * 8*r + c:
 *
 *   column   7   6   5   4   3   2   1   0
 *   row 0    7   6   5   4   3   2   1   0    the lowest byte
 *   row 1   15  14  13  12  11  10   9   8
 *   ..
 *   row 7   63  62  61  60  59  58  57  56
 *
 * Each call here takes every bit to the row and the column that it says. Nothing
 * is refused.
 */

/*
 * Transpose: row r, column c goes to row c, column r. The diagonal that stays runs
 * from the top right to the bottom left. Twice gives the tile back.
 */
uint64_t tb_tile_transpose(uint64_t tile);

/*
 * Turn left, a quarter counter-clockwise: row r, column c goes to row c, column
 * 7 - r. Four times give the tile back.
 */
uint64_t tb_tile_turn_left(uint64_t tile);

/*
 * Turn right, a quarter clockwise: row r, column c goes to row 7 - c, column r.
 * It undoes tb_tile_turn_left.
 */
uint64_t tb_tile_turn_right(uint64_t tile);

/*
 * Mirror the columns, left and right: row r, column c goes to row r, column 7 - c.
 * Twice gives the tile back.
 */
uint64_t tb_tile_mirror_columns(uint64_t tile);

/*
 * Mirror the rows, top and bottom: row r, column c goes to row 7 - r, column c.
 * Twice gives the tile back.
 */
uint64_t tb_tile_mirror_rows(uint64_t tile);

/*
 * Subwords. A size z is 1, 2, 4, 8, 16 or 32, and a word has 64/z subwords of z
 * bits, counted from 0 at the left: the leftmost has the highest bits. Every word is
 * accepted; at any other size a call is refused by TB_REFUSAL_SUBWORD.
 *
 * With first = a b c d e f g h and second = A B C D E F G H, the leftmost letter
 * first and each of 8 bits, at sizes 8 and 16:
 *
 *   tb_check        a B c D e F g H    a b C D e f G H
 *   tb_excheck      B a D c F e H g    C D a b G H e f
 *   tb_mix_left     a A c C e E g G    a b A B e f E F
 *   tb_mix_right    b B d D f F h H    c d C D g h G H
 *   tb_exchange     b a d c f e h g    c d a b g h e f    (of first)
 */

/*
 * Check: subword i of the result is subword i of first if i is even, of second if
 * i is odd.
 * Refusals: TB_REFUSAL_SUBWORD.
 */
TbCarried tb_check(uint32_t size, uint64_t first, uint64_t second);

/*
 * Excheck: tb_exchange of what tb_check answers. Subword i of the result is subword
 * i + 1 of second if i is even, i - 1 of first if i is odd.
 * Refusals: TB_REFUSAL_SUBWORD.
 */
TbCarried tb_excheck(uint32_t size, uint64_t first, uint64_t second);

/*
 * Mix left (mixL): the even subwords of both. Subword i of the result is subword i
 * of first if i is even, i - 1 of second if i is odd.
 * Refusals: TB_REFUSAL_SUBWORD.
 */
TbCarried tb_mix_left(uint32_t size, uint64_t first, uint64_t second);

/*
 * Mix right (mixR): the odd subwords of both. Subword i of the result is subword
 * i + 1 of first if i is even, i of second if i is odd.
 * Refusals: TB_REFUSAL_SUBWORD.
 */
TbCarried tb_mix_right(uint32_t size, uint64_t first, uint64_t second);

/*
 * Exchange: each even subword changes places with the odd one to the right of it.
 * Twice gives the word back.
 * Refusals: TB_REFUSAL_SUBWORD.
 */
TbCarried tb_exchange(uint32_t size, uint64_t word);

/*
 * Planes of pixels. A plane has `rows` rows of `row_words` words each, the top row
 * first, and the leftmost pixel of a row is bit 63 of its first word. So row r,
 * column c, both counted from 0 at the top left, is bit 63 - c % 64 of word
 * r*row_words + c/64. With row_words = 2:
 *
 *   column    0   1   2  ..  62  63    64  65  66  .. 126 127
 *   bit      63  62  61  ..   1   0    63  62  61  ..   1   0
 *   row 0            word 0                    word 1
 *   row 1            word 2                    word 3
 *   ..
 *
 * A one is a lit pixel, a zero a dark one. Pixels outside the plane are dark: the end
 * of a row does not touch the beginning of the next.
 *
 * A pixel and the eight around it make a number from 0 to 511, by these bits:
 *
 *   row above    8  7  6
 *   own row      5  4  3    bit 4 is the pixel itself
 *   row below    2  1  0
 */

/*
 * Despeckle: lone pixels go out. A pixel of the new plane is lit exactly if bit 4
 * and at least one other bit of its number in `plane` are one.
 *
 * `plane` points to `length` words, which are only read, and `out` to `out_length`
 * words, each at most 2,048. The two lists must not overlap. Words 0 to
 * rows*row_words - 1 of `out` become the new plane, in the same layout; words after
 * them stay as they were. A refused call leaves every word as it was. Answers an
 * enum TbRefusal. The product rows*row_words is the true one, of any two numbers,
 * above 2^64 too.
 * Refusals: TB_REFUSAL_RANGE (either list above 2,048 words), TB_REFUSAL_SHORT
 * (`out` shorter than rows*row_words words), TB_REFUSAL_PLANE (rows or row_words
 * zero, or rows*row_words not `length`).
 */
uint8_t tb_despeckle(const uint64_t *plane, size_t length, size_t rows, size_t row_words,
                     uint64_t *out, size_t out_length);

/*
 * The register unit, at width 64. Its registers lie in a bank that the caller
 * owns and lends to each call; a fresh bank is all zeros. An operation is four
 * bytes: kind, r1, r2, r3.
 *
 *   kind  does                                                        cycles
 *   1     r1 = r2 through the butterfly at b                               1
 *   2     r1 = r2 through the inverse at ib                                1
 *   3     r1 = (r2 and r3) through the inverse at ib                       1
 *   4     r1 = (r2 through the butterfly at b) and r3                      1
 *   5     r1 = 1: b[0], b[1] = r2, r3;    r1 = 2: b[2] = r2;
 *         r1 = 3: ib[0], ib[1] = r2, r3;  r1 = 4: ib[2] = r2               1
 *   6     r1 = r2 gathered by r3                                           3
 *   7     r1 = r2 scattered by r3                                          3
 *   8     ib = the inverse's controls decoded from r3                      2
 *   9     b = the butterfly's controls decoded from r3                     2
 *   10    r1 = r2 grouped by r3                                            3
 *
 * But for r1 in kind 5, r1, r2 and r3 are numbers of general registers. Those
 * that the table names for a kind are in use; the other bytes are not looked
 * at. Operands are read before the result is written, and all other registers
 * stay as they were. Kinds 6, 7 and 10 write the word alone, no count. A refused
 * call leaves the whole bank as it was, but for a bit of the status byte that a
 * refused run or frame sets.
 *
 * The status byte tells how runs ended, until that is acknowledged; the enable byte
 * says for which of its bits the interrupt line is high. Only tb_run, tb_continue,
 * tb_frame and tb_acknowledge change the status byte, only tb_enable the enable byte.
 *
 * A run that ends spent leaves the bank waiting, with a copy of the operations left,
 * the remainder. tb_continue goes on with a fresh budget, and so does tb_frame;
 * tb_drop gives the run up. Until it is done or dropped, tb_operate and tb_run are
 * refused. What tb_write writes meanwhile the operations still to come see, as if it
 * stood in the list there. Only tb_run, tb_continue, tb_frame and tb_drop change
 * whether a bank waits, only the first three its remainder.
 *
 * Any bytes are accepted in a bank. It has 4,280 of them.
 */

/*
 * The registers: b and ib hold controls of the butterfly and of the inverse. While
 * the bank waits, the first `left` bytes of `list` are the remainder; if `left` is
 * above 4,096, no list equals it. All other bytes of `list`, and `left` while the
 * bank does not wait, have no meaning.
 */
typedef struct {
    uint64_t general[16]; /* general registers 0 to 15 */
    uint64_t b[3];        /* b[0]: stage 0 in its low half, stage 1 in its high half, .. */
    uint64_t ib[3];       /* likewise */
    uint8_t status;       /* bits of enum TbStatus, read by tb_status */
    uint8_t enable;       /* the same bits, written by tb_enable */
    uint8_t waiting;      /* 0: no run waits; any other number: one does */
    uint32_t left;        /* the length of the remainder, in bytes */
    uint8_t list[4096];   /* the remainder, from its next operation on */
} TbBank;

/* The bits of the status byte, 0 to 2. Bits 3 to 7 have no meaning and read zero. */
enum TbStatus {
    TB_STATUS_DONE = 1,   /* a run, or a continued one, ended done */
    TB_STATUS_SPENT = 2,  /* one ended spent */
    TB_STATUS_REFUSED = 4 /* one was refused, or a frame was */
};

/* The answer of tb_operate. */
typedef struct {
    uint8_t refusal; /* an enum TbRefusal */
    uint32_t cycles; /* the operation's; 0 if the call is refused */
} TbCycles;

/* How a run ends. */
enum TbEnd {
    TB_END_REFUSED = 0, /* nothing was run */
    TB_END_DONE = 1,    /* no operation is left */
    TB_END_SPENT = 2    /* an operation is left and does not fit */
};

/* The answer of tb_run and tb_continue. */
typedef struct {
    uint8_t refusal; /* an enum TbRefusal */
    uint8_t end;     /* an enum TbEnd */
    uint32_t ran;    /* the count of operations run by this call; 0 if it is refused */
    uint32_t cycles; /* the sum of their cycles; 0 if the call is refused */
} TbRun;

/* The answer of tb_read. */
typedef struct {
    uint8_t refusal; /* an enum TbRefusal */
    uint64_t value;  /* the register's; 0 if the call is refused */
} TbRegister;

/*
 * Operate: one operation.
 * Refusals: TB_REFUSAL_KIND, TB_REFUSAL_REGISTER, TB_REFUSAL_WAITING (the bank
 * waits).
 */
TbCycles tb_operate(TbBank *bank, uint8_t kind, uint8_t r1, uint8_t r2, uint8_t r3);

/*
 * Run: a list of operations, `length` bytes, one after the other, while the
 * next one's cycles fit in what is left of the budget. It is spent if an
 * operation is left and does not fit, or else done; the empty list is done. The
 * whole list is checked before its first operation, whatever the budget. The
 * list must not overlap the bank.
 *
 * A run sets one bit of the status byte: TB_STATUS_DONE, TB_STATUS_SPENT, or
 * TB_STATUS_REFUSED. The byte's other bits stay as they were, bits 3 to 7 too. A
 * refused run changes nothing else.
 *
 * One that ends spent sets `waiting` to 1 and `left` to the length of the operations
 * not run, and copies these to the front of `list`, whose other bytes stay as they
 * were. One that ends done leaves `waiting` 0, `left` and `list` as they were.
 * Refusals: TB_REFUSAL_LENGTH, TB_REFUSAL_KIND, TB_REFUSAL_REGISTER,
 * TB_REFUSAL_WAITING (the bank waits).
 */
TbRun tb_run(TbBank *bank, const uint8_t *operations, size_t length, uint32_t budget);

/*
 * Continue: the run that waits, with a fresh budget, on the registers as they
 * stand. `operations` is its remainder, byte for byte: of the list that was lent
 * before, the last `left` bytes. It must not be the bank's own `list`, nor overlap
 * the bank: the caller lends its own copy, with which the bank's is only compared.
 *
 * It goes on, ends, answers and sets the status byte and what the bank remembers as
 * tb_run does, so that it may be continued again. A run that is continued until done,
 * without a write between, leaves the general registers, b and ib that one run with an
 * ample budget leaves. A refused call leaves the run waiting.
 * Refusals: TB_REFUSAL_LENGTH, TB_REFUSAL_KIND, TB_REFUSAL_REGISTER,
 * TB_REFUSAL_WAITING (the bank does not wait, or the list is not the remainder).
 */
TbRun tb_continue(TbBank *bank, const uint8_t *operations, size_t length, uint32_t budget);

/*
 * Drop: the run that waits is given up, if one does. `waiting` becomes 0, and all
 * else in the bank stays as it was. Nothing is refused.
 */
void tb_drop(TbBank *bank);

/*
 * Frames. Four channels, numbered 0 to 3, each with a bank and a list of operations,
 * share one frame. Each has a guarantee, the number of cycles within which it runs
 * first.
 */

/* What tb_frame answers for one channel, of both its turns together. */
typedef struct {
    uint8_t end;     /* an enum TbEnd */
    uint32_t ran;    /* the count of operations run by this call; 0 if it is refused */
    uint32_t cycles; /* the sum of their cycles; 0 if the call is refused */
} TbChannel;

/* The answer of tb_frame. */
typedef struct {
    uint8_t refusal;       /* an enum TbRefusal */
    TbChannel channels[4]; /* by their numbers; zeros if the call is refused */
} TbFrame;

/*
 * Frame: four channels in a frame of `cycles` cycles. In number order each channel
 * runs its list while the next operation's cycles fit in what is left of its guarantee:
 * its first turn. What the four left of their guarantees is one sum, the rest. In number
 * order each channel that is not done then runs on within what is left of the rest: its
 * second turn. Cycles beyond the sum of the guarantees are not handed out. So each channel
 * runs at least the operations that its guarantee alone carries, and the four together use
 * no more cycles than that sum.
 *
 * Where a bank waits, its list is that of a continued run, the remainder byte for byte
 * as in tb_continue; else it is that of a new run. At the end of the frame each channel
 * sets its bank's status byte and what that remembers, once, as one run does: done, or
 * spent, with the operations left that neither turn ran. So two frames carried out leave
 * a channel the same bank if they bring it the same bank and list and it ran equally
 * many operations in both, whatever the other three bring.
 *
 * All four lists are checked before a channel starts, whatever the guarantees. A
 * refused call sets TB_STATUS_REFUSED in all four banks and changes nothing else.
 *
 * The four banks must be different ones, of which no two overlap, and neither a list nor
 * the guarantees may overlap a bank: of a remainder the caller lends its own copy. Lists
 * may overlap each other.
 * Refusals, the lowest number over all four lists: TB_REFUSAL_LENGTH,
 * TB_REFUSAL_KIND, TB_REFUSAL_REGISTER, TB_REFUSAL_WAITING (a bank waits, and its list
 * is not its remainder), TB_REFUSAL_FRAME (the sum of the guarantees, the true one of
 * any four numbers, is above `cycles`).
 */
TbFrame tb_frame(TbBank *bank0, TbBank *bank1, TbBank *bank2, TbBank *bank3,
                 const uint8_t *list0, size_t length0, const uint8_t *list1, size_t length1,
                 const uint8_t *list2, size_t length2, const uint8_t *list3, size_t length3,
                 const uint32_t guarantees[4], uint32_t cycles);

/*
 * Read: the value of a general register.
 * Refusals: TB_REFUSAL_REGISTER.
 */
TbRegister tb_read(const TbBank *bank, uint8_t number);

/*
 * Write: the value into a general register. Answers an enum TbRefusal.
 * Refusals: TB_REFUSAL_REGISTER.
 */
uint8_t tb_write(TbBank *bank, uint8_t number, uint64_t value);

/*
 * Polling. Each call here is of the status and the enable byte alone and leaves all
 * else in the bank as it was. Nothing is refused.
 */

/*
 * Status: bits 0 to 2 of the status byte, each an enum TbStatus. Bits 3 to 7 read
 * zero, whatever the byte holds.
 */
uint8_t tb_status(const TbBank *bank);

/*
 * Enable: the byte, all its eight bits, into the enable byte.
 */
void tb_enable(TbBank *bank, uint8_t byte);

/*
 * Acknowledge: the status bits where the byte has ones become zero, all eight of
 * them alike; the others stay as they were. So 0xFF clears the status byte.
 */
void tb_acknowledge(TbBank *bank, uint8_t byte);

/*
 * Interrupt: the interrupt line, 1 (high) exactly if some bit is one both in what
 * tb_status answers and in the enable byte, else 0 (low). So bits 3 to 7 of either
 * byte do not count, and the line of a fresh bank is low.
 */
uint8_t tb_interrupt(const TbBank *bank);

#ifdef __cplusplus
}
#endif

#endif /* TIGBAYON_H */
