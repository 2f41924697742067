/*
 * Zemrukste: coding of the uplink shared channel (3GPP TS 36.212 V11.5.1, UL-SCH data and channel
 * reports ahead of it), of DL-SCH data for a receiver with a limited soft buffer, and of downlink
 * control messages (clause 5.3.3).
 *
 * Calls for the cell's scheduler, for the slots that hear the cars, and for a unit with less
 * memory. All work on numbers and byte slices alone:
 *
 * - A bit is one byte, 0 or 1.
 * - A slice is a pointer and its length in bytes. A length of 0 may come with a null
 *   pointer and is an empty slice; with a length above 0 the pointer must not be null and
 *   so many bytes behind it must be readable, for an output also writable. No alignment is
 *   asked for. A length beyond what the call needs is fine.
 * - The slices of one call must not overlap. An input is never written.
 * - Every number of a size_t may be given: what is out of range is refused, not undefined.
 * - The calls keep nothing between them but what lies in the bytes that the caller lends (the
 *   slots' state and store, below): no global state, no heap, no file or clock, no error
 *   variable. Their work arrays are on the caller's stack: some 41 kilobytes in every build that
 *   is accepted, however short its block, under 1 in one that is refused; at most 20 in
 *   zemrukste_receive, 34 in zemrukste_read, 40 in their packed forms, 21 in
 *   zemrukste_streams_packed, and 3 in any other call. They always return and may be made from
 *   several threads at once, as long as no two of them share an output; a block may be shared.
 * - The numbers given back are those of the project's rules. 0 is "accepted"; any other
 *   number is a refusal, and a refusal has written nothing, but where zemrukste_new and
 *   zemrukste_read say so. Where several refusals apply, the first in the order listed with the
 *   call is given.
 */
#ifndef ZEMRUKSTE_H
#define ZEMRUKSTE_H

#include <stddef.h>
#include <stdint.h>

#ifdef __cplusplus
extern "C" {
#endif

/* The largest block and the largest codeword, in bits; a block has at least one bit. */
#define ZEMRUKSTE_BLOCK_MAX 30576
#define ZEMRUKSTE_CODEWORD_MAX 172800

/* The longest report, the most control bits a layer, and the longest run of both. */
#define ZEMRUKSTE_REPORT_MAX 11
#define ZEMRUKSTE_CONTROL_MAX 4096
#define ZEMRUKSTE_RUN_MAX (4 * ZEMRUKSTE_CONTROL_MAX + ZEMRUKSTE_CODEWORD_MAX)

/* Bytes that zemrukste_sizes writes. */
#define ZEMRUKSTE_SIZES_LEN 24

/* Bytes that a room has for each of its m code blocks, and those of its packed form; m is 1
   to 5. */
#define ZEMRUKSTE_ROOM_PER_BLOCK 18528
#define ZEMRUKSTE_PACKED_PER_BLOCK 4632

/* Bytes of the slots' state. */
#define ZEMRUKSTE_STATE_LEN 272

/* The numbers given back, and what to do about each. */
#define ZEMRUKSTE_OK 0
/* The block's length A is not 1 to 30,576: choose a transport block size in that range. */
#define ZEMRUKSTE_BAD_LENGTH 1
/* A byte of the block, in either of its slices, of the report or of the received run is
   neither 0 nor 1: the caller's bits are damaged or packed; unpack them to one bit a byte,
   first bit first. */
#define ZEMRUKSTE_BAD_BIT 2
/* q, n or g does not fit: q is 2, 4 or 6; n is 1 to 4; g is at most 172,800, a multiple of
   n * q, and at least n * q for every code block (C of zemrukste_sizes). Of a received run
   g is what follows the control bits, so also a run too short for them is 3. e of a control
   message is 1 to 4,096. Correct the allocation. */
#define ZEMRUKSTE_BAD_ALLOCATION 3
/* The redundancy version is above 3: give 0, 1, 2 or 3. */
#define ZEMRUKSTE_BAD_VERSION 4
/* The output is too short: lend at least g bytes (zemrukste_build, zemrukste_build_two,
   zemrukste_build_down), n * control + g (zemrukste_report_build), o (zemrukste_report_part),
   24 (zemrukste_sizes), e (zemrukste_control_build), A (zemrukste_read), three times D
   (zemrukste_streams), ZEMRUKSTE_STATE_LEN (zemrukste_new). For the calls on slots it may also
   be the store: lend S * M rooms.
   For the change of form either buffer is too short: lend a whole room and the whole of its
   other form. */
#define ZEMRUKSTE_SHORT_OUTPUT 5
/* There is no such slot: slot is below S. */
#define ZEMRUKSTE_NO_SLOT 6
/* The slot is open already: close it for its terminal first. */
#define ZEMRUKSTE_OPEN_ALREADY 7
/* The slot is closed: open it for the terminal. */
#define ZEMRUKSTE_CLOSED 8
/* The slot is another terminal's: find this one's slot, and never act on the answer. */
#define ZEMRUKSTE_OTHER_TERMINAL 9
/* A needs more code blocks than a slot has room for: make a state with a larger M. */
#define ZEMRUKSTE_TOO_MANY_BLOCKS 10
/* Data places lack a bit: none was heard, or both a 0 and a 1. *count is how many. Wait for the
   next repeat; if the number stays when all was sent again, the rest is disputed: close the
   slot, open it again, and let the car send once more. */
#define ZEMRUKSTE_LACKING 11
/* All was heard, and the transport check is wrong: close and open the slot, and let the car send
   again. */
#define ZEMRUKSTE_WRONG_CHECK 12
/* The state is none that the calls made, or that of a refused zemrukste_new, or state_len is
   below ZEMRUKSTE_STATE_LEN: begin with zemrukste_new and hand each call the bytes as the last
   one left them. For the change of form m is not 1 to 5: give the M of the state that the room
   belongs to. */
#define ZEMRUKSTE_BAD_SHAPE 13
#define ZEMRUKSTE_BAD_STATE 13
/* There is no such code block: block is below C of zemrukste_sizes. (15 is a number of the
   replay of a log alone.) */
#define ZEMRUKSTE_NO_CODE_BLOCK 14
/* All data bits were heard, and CRC24B of a code block is wrong; *count is the first such block,
   counted from 0, and no block is released. As for 12. */
#define ZEMRUKSTE_WRONG_CODE_BLOCK 16
/* A report has 1 to 11 bits: correct its length. */
#define ZEMRUKSTE_BAD_REPORT 17
/* The control bits a layer are not a positive multiple of q, or above 4,096: correct the
   grant. */
#define ZEMRUKSTE_BAD_CONTROL 18
/* Two or more reports are as near to the received control bits as each other: too many bits
   came wrong, or the control bits are too few to tell reports of this length apart (see
   zemrukste_report_part). Keep the last report, or ask the car for another. */
#define ZEMRUKSTE_TIED 19

/* The payload of a control message is not 1 to 64 bits, or a run of payload and check not 17
   to 80: compare the format of the message with the car's. */
#define ZEMRUKSTE_BAD_PAYLOAD 20

/* The largest payload of a control message and the largest message, in bits. */
#define ZEMRUKSTE_PAYLOAD_MAX 64
#define ZEMRUKSTE_MESSAGE_MAX 4096

/* The receiver does not fit: release is 8 or 11; mimo is 1 or 2; there is at least one
   process; and its soft buffer must leave every code block as many places as stream 0 has
   on the circle, 32 * R. Correct what is told of the receiver, or send a smaller block. */
#define ZEMRUKSTE_BAD_BUFFER 21

/*
 * The codeword of one transport block: CRC24A, code blocks with CRC24B, turbo code, rate
 * matching, concatenation.
 *
 *   block, block_len   the block's A bits; A is block_len
 *   q                  bits a symbol: 2, 4 or 6
 *   n                  layers: 1 to 4
 *   version            redundancy version: 0 to 3
 *   g                  bits of the codeword
 *   out, out_len       the output, at least g bytes
 *
 * Accepted (0): out[0] to out[g - 1] are the codeword, one bit a byte; out[g] to
 * out[out_len - 1] stay as they were. Refused: every byte of out stays as it was.
 * Refusals in their order: 1, 3, 4, 5, 2.
 */
uint32_t zemrukste_build(const uint8_t *block, size_t block_len, size_t q, size_t n,
                         size_t version, size_t g, uint8_t *out, size_t out_len);

/*
 * The codeword of one transport block that lies in two slices, for a caller that keeps its
 * header apart from its payload: the same as zemrukste_build of the header's bits followed
 * by the payload's. No joined copy of the block is made.
 *
 *   header, header_len     the first bits of the block; may be empty
 *   payload, payload_len   the others; may be empty
 *
 * A is header_len + payload_len, 1 to 30,576. The other arguments, the output and the
 * refusals in their order are those of zemrukste_build: 1, 3, 4, 5, 2. 2 is a byte above 1
 * in either slice. With an empty payload the call is zemrukste_build of the header.
 */
uint32_t zemrukste_build_two(const uint8_t *header, size_t header_len, const uint8_t *payload,
                             size_t payload_len, size_t q, size_t n, size_t version, size_t g,
                             uint8_t *out, size_t out_len);

/*
 * The codeword of one transport block of the downlink shared channel, for a receiver whose
 * soft buffer is limited: each code block's circle is cut at N_cb places (clause 5.1.4.1.2).
 *
 *   block, block_len   the block's A bits; A is block_len
 *   release            11: N_IR is divided by K_C; 8: it is not
 *   mimo               K_MIMO: 2 for transmission modes 3, 4, 8, 9 and 10, else 1
 *   processes          M_DL_HARQ, at least 1; those past 8 do not count
 *   soft               N_soft, the receiver's soft channel bits
 *   layers             the most spatial layers that the receiver supports
 *
 * N_IR is soft / (K_C * mimo * min(processes, 8)), rounded down; K_C is 5 if soft is
 * 35,982,720, 2 if soft is 3,654,144 and layers at most 2, else 1. N_cb of a code block is
 * the smaller of N_IR / C, rounded down, and 96 * R. The other arguments and the output are
 * those of zemrukste_build; where N_cb is 96 * R for every code block, so is the codeword.
 * Refusals in their order: 1, 21, 3, 4, 5, 2.
 */
uint32_t zemrukste_build_down(const uint8_t *block, size_t block_len, size_t release,
                              size_t mimo, size_t processes, size_t soft, size_t layers,
                              size_t q, size_t n, size_t version, size_t g, uint8_t *out,
                              size_t out_len);

/*
 * How a block of a bits is cut into code blocks.
 *
 *   a                  the block's length, 1 to 30,576
 *   out, out_len       the output, at least 24 bytes
 *
 * Accepted (0): out[0] to out[23] are six numbers, each as four bytes with the lowest byte
 * first: C, the number of code blocks; C+, the number of long ones; K+, their size; C-, the
 * number of short ones; K-, their size (0 where C is 1); F, the number of filler bits.
 * out[24] to out[out_len - 1] stay as they were. Refused: every byte of out stays as it was.
 * Refusals in their order: 1, 5.
 */
uint32_t zemrukste_sizes(size_t a, uint8_t *out, size_t out_len);

/*
 * A channel report ahead of a block: the report by the (32, O) code, repeated circularly, and
 * behind it the codeword of the block as zemrukste_build gives it.
 *
 *   report, report_len   the report's O bits, o_0 first; O is report_len, 1 to 11
 *   control              control bits a layer: a positive multiple of q, at most 4,096
 *   block, block_len     the block's A bits, as for zemrukste_build
 *   q, n, version, g     as for zemrukste_build; g counts the data alone
 *   out, out_len         the output, at least n * control + g bytes
 *
 * Accepted (0): out[0] to out[n * control - 1] are the control bits, the g bytes behind them
 * the codeword; the others stay as they were. Refused: every byte of out stays as it was.
 * Refusals in their order: 1, 3 (q, n), 17, 18, 3 (g), 4, 5, 2.
 */
uint32_t zemrukste_report_build(const uint8_t *report, size_t report_len, size_t control,
                                const uint8_t *block, size_t block_len, size_t q, size_t n,
                                size_t version, size_t g, uint8_t *out, size_t out_len);

/*
 * The report of a received run: the one whose control bits differ from the received ones in
 * the fewest places, if only one is nearest. The data of an accepted run are the bytes from
 * received[n * control] on.
 *
 *   a                         the length of the block that the run carries
 *   q, n, control             as the run was sent
 *   o                         the report's length, 1 to 11
 *   received, received_len    the run: n * control control bits, then the data
 *   out, out_len              the output, at least o bytes
 *
 * Accepted (0): out[0] to out[o - 1] are the report's bits, o_0 first; the others stay as they
 * were. Refused: every byte of out stays as it was.
 * Refusals in their order: 1, 3 (q, n), 17, 18, 3 (data), 5, 2, 19.
 *
 * A run without a wrong control bit gives its report from n * control = 1, 3, 3, 5, 6, 11, 11,
 * 11, 11, 11, 17 on, for o = 1 to 11; below that 19 comes also from it. With 32 control bits
 * or more, fewer wrong ones than half of (n * control / 32) * d never matter, d being 32, 16,
 * 16, 16, 16, 16, 12, 12, 12, 12, 10.
 */
uint32_t zemrukste_report_part(size_t a, size_t q, size_t n, size_t o, size_t control,
                               const uint8_t *received, size_t received_len, uint8_t *out,
                               size_t out_len);

/*
 * A downlink control message: CRC16 mixed with the terminal number, tail biting convolutional
 * code, rate matching of clause 5.1.4.2; no antenna selection mask.
 *
 *   payload, payload_len   the payload's bits, 1 to 64
 *   terminal               whose the message is: 0 to 65,535
 *   e                      bits of the message: 1 to 4,096
 *   out, out_len           the output, at least e bytes
 *
 * Accepted (0): out[0] to out[e - 1] are the message, one bit a byte; out[e] to
 * out[out_len - 1] stay as they were. Refused: every byte of out stays as it was.
 * With e at least 3 * (payload_len + 16) every coded bit is sent at least once.
 * Refusals in their order: 20, 3, 5, 2.
 */
uint32_t zemrukste_control_build(const uint8_t *payload, size_t payload_len, uint16_t terminal,
                                 size_t e, uint8_t *out, size_t out_len);

/*
 * Whose a received message is, from what the decoder chip gives.
 *
 *   run, run_len           payload and check bits as one run: 17 to 80
 *   terminal               never null
 *
 * Accepted (0): *terminal is the one terminal number that fits the run. Every run of that
 * length fits one, a damaged one as well: act on a message only if the number is the car's
 * own. Refused: *terminal stays as it was. Refusals in their order: 20, 2.
 */
uint32_t zemrukste_control_whose(const uint8_t *run, size_t run_len, uint16_t *terminal);

/*
 * The packed form of one room, and the room back from it. A room keeps one place a byte; its
 * packed form keeps four places a byte, the first in the top two bits: v0 * 64 + v1 * 16 +
 * v2 * 4 + v3.
 *
 *   m                  the code blocks that the room is for: 1 to 5
 *   from, from_len     the room: at least 18,528 * m bytes (zemrukste_pack), 4,632 * m
 *                      (zemrukste_unpack)
 *   to, to_len         the other form: at least 4,632 * m bytes (zemrukste_pack), 18,528 * m
 *                      (zemrukste_unpack)
 *
 * Accepted (0): the first 4,632 * m (18,528 * m) bytes of to are the room in the other form;
 * the others stay as they were. A place of a room with a value above 3 means unheard and
 * becomes 2, which means the same: there and back gives the room with that one change, back
 * and there gives the packed room itself. Refused: every byte of to stays as it was.
 * Refusals in their order: 13, 5.
 */
uint32_t zemrukste_pack(size_t m, const uint8_t *from, size_t from_len, uint8_t *to,
                        size_t to_len);
uint32_t zemrukste_unpack(size_t m, const uint8_t *from, size_t from_len, uint8_t *to,
                          size_t to_len);

/*
 * The slots: what the cell has heard of each car, until the block can be released. A slot is
 * opened for one terminal with the length A of its block, receives, is read, and is closed:
 *
 *   zemrukste_new                         once, for S slots of M code blocks each
 *     zemrukste_open (_open_down)         the slot's room is cleared, the slot is the car's
 *       zemrukste_receive ..              once for each transmission and each repeat
 *       zemrukste_read                    11: wait for a repeat; 0: the block is released
 *       zemrukste_streams                 what was heard of a code block, for a decoder chip
 *     zemrukste_close                     the slot is free; its room stays as it is
 *
 * The caller keeps two runs of bytes between the calls and lends both:
 *
 *   state, state_len   the state, ZEMRUKSTE_STATE_LEN bytes: 34 numbers of eight bytes, lowest
 *                      byte first: S, M, then for each of eight heads 1 if it is open, else 0;
 *                      terminal; A; and its code blocks' share of the soft buffer (18,528 in an
 *                      uplink, 0 in a closed head). zemrukste_new makes it, zemrukste_open and
 *                      zemrukste_close change the 32 bytes of their slot's head. Nothing else
 *                      need be known of it; bytes past the 272 are neither read nor written.
 *   store, store_len   the rooms, S * M * ZEMRUKSTE_ROOM_PER_BLOCK bytes, slot after slot; what
 *                      stands in them at first does not matter. Bytes past them stay.
 *
 *   slot               which: 0 to S - 1
 *   terminal           whose: 0 to 65,535
 *   count              never null; written where the text says so, else as it was
 *
 * Any bytes are answered. A state_len below 272 is refused with 13 (by zemrukste_new with 5);
 * so are bytes that are no state: S or M out of range, and in a head below S a flag above 1, a
 * terminal above 65,535, or an A or a share that no opening leaves. Heads from S upward are
 * ignored and left. A refusal writes nothing: neither state nor store nor output nor *count,
 * but for the *count of 11 and of 16 and for the state that a zemrukste_new refused with 13
 * leaves, which every call refuses.
 *
 * Threads: calls on one state or one store must not run at once, but for those that write
 * neither, zemrukste_read and zemrukste_streams.
 *
 * What is proved of a history of calls holds for a caller who begins with zemrukste_new, hands
 * each call the state and the store as the last one left them, and writes neither himself. After
 * each call what he keeps stands for the state and the rooms of that history: history-in-c,
 * crates/statements/proofs/InC.antt. So a block is released exactly when every data bit of it was
 * heard since its opening, and none of another car's: released-iff and since-opening,
 * crates/history.
 */

/*
 * A state of S slots for M code blocks each, all closed: slots is S, 1 to 8, blocks is M, 1 to 5.
 *
 * Accepted (0): state[0] to state[271] are the new state. Refused with 5 (state_len below 272):
 * every byte stays. Refused with 13 (slots or blocks out of range): state[0] to state[271] are
 * a state of S = 0, which every call refuses. Refusals in their order: 5, 13.
 */
uint32_t zemrukste_new(uint8_t *state, size_t state_len, size_t slots, size_t blocks);

/*
 * Opens a slot for a terminal with a block of a bits, 1 to 30,576.
 *
 * Accepted (0): every byte of the slot's room is 2, unheard, and the slot's head is open.
 * Refused: every byte stays. Refusals in their order: 13, 5, 6, 7, 1, 10.
 */
uint32_t zemrukste_open(uint8_t *state, size_t state_len, size_t slot, uint16_t terminal, size_t a,
                        uint8_t *store, size_t store_len);

/*
 * The same for a downlink, for a receiver whose soft buffer is limited; release, mimo,
 * processes, soft and layers are those of zemrukste_build_down.
 * Refusals in their order: 13, 5, 6, 7, 1, 10, 21.
 */
uint32_t zemrukste_open_down(uint8_t *state, size_t state_len, size_t slot, uint16_t terminal,
                             size_t a, size_t release, size_t mimo, size_t processes, size_t soft,
                             size_t layers, uint8_t *store, size_t store_len);

/*
 * Puts the bits of one transmission where zemrukste_build (zemrukste_build_down) of the opened
 * block would have taken them from.
 *
 *   q, n, version      as the transmission was sent
 *   bits, bits_len     its G bits, one a byte; G is bits_len
 *
 * Accepted (0): *count is how many data places lack a bit now; a place that has heard both a 0
 * and a 1 since the opening is disputed and lacks one. Of the store only places that the
 * transmission has a bit for are written. Refused: every byte and *count stay.
 * Refusals in their order: 13, 5, 6, 8, 9, 3, 4, 2.
 */
uint32_t zemrukste_receive(const uint8_t *state, size_t state_len, size_t slot, uint16_t terminal,
                           size_t q, size_t n, size_t version, const uint8_t *bits, size_t bits_len,
                           uint8_t *store, size_t store_len, size_t *count);

/*
 * Reads the block of an open slot; the slot stays open.
 *
 * Accepted (0): out[0] to out[A - 1] are the block, one bit a byte; the others and *count stay.
 * Refused with 11: *count is how many data places lack a bit. Refused with 16: *count is the
 * first code block whose check is wrong. Any other refusal leaves *count; each leaves out.
 * Refusals in their order: 13, 5 (store), 6, 8, 9, 5 (output), 11, 16, 12.
 */
uint32_t zemrukste_read(const uint8_t *state, size_t state_len, size_t slot, uint16_t terminal,
                        const uint8_t *store, size_t store_len, uint8_t *out, size_t out_len,
                        size_t *count);

/*
 * The three streams of code block `block` as they were heard, for a decoder.
 *
 * Accepted (0): out[0] to out[3 * D - 1] are three runs of D bytes, D being the code block's size
 * and 4: 0 or 1 for a bit that was heard, 2 for a place that lacks one, 0 for filler, which is
 * not sent. The others stay. Refused: every byte of out stays.
 * Refusals in their order: 13, 5 (store), 6, 8, 9, 14, 5 (output).
 */
uint32_t zemrukste_streams(const uint8_t *state, size_t state_len, size_t slot, uint16_t terminal,
                           size_t block, const uint8_t *store, size_t store_len, uint8_t *out,
                           size_t out_len);

/*
 * Closes a slot for its terminal; the room is not written.
 *
 * Accepted (0): the slot's head is closed. Refused: every byte stays.
 * Refusals in their order: 13, 6, 8, 9.
 */
uint32_t zemrukste_close(uint8_t *state, size_t state_len, size_t slot, uint16_t terminal);

/*
 * The same calls for a unit with less memory: a store with four places a byte, in the packed
 * form of zemrukste_pack, S * M * ZEMRUKSTE_PACKED_PER_BLOCK bytes. State, answers and outputs
 * are those of the plain call on the store that zemrukste_unpack gives, and the store afterwards
 * is the packed form of what that call leaves. zemrukste_new and zemrukste_close serve both.
 */
uint32_t zemrukste_open_packed(uint8_t *state, size_t state_len, size_t slot, uint16_t terminal,
                               size_t a, uint8_t *store, size_t store_len);
uint32_t zemrukste_open_down_packed(uint8_t *state, size_t state_len, size_t slot,
                                    uint16_t terminal, size_t a, size_t release, size_t mimo,
                                    size_t processes, size_t soft, size_t layers, uint8_t *store,
                                    size_t store_len);
uint32_t zemrukste_receive_packed(const uint8_t *state, size_t state_len, size_t slot,
                                  uint16_t terminal, size_t q, size_t n, size_t version,
                                  const uint8_t *bits, size_t bits_len, uint8_t *store,
                                  size_t store_len, size_t *count);
uint32_t zemrukste_read_packed(const uint8_t *state, size_t state_len, size_t slot,
                               uint16_t terminal, const uint8_t *store, size_t store_len,
                               uint8_t *out, size_t out_len, size_t *count);
uint32_t zemrukste_streams_packed(const uint8_t *state, size_t state_len, size_t slot,
                                  uint16_t terminal, size_t block, const uint8_t *store,
                                  size_t store_len, uint8_t *out, size_t out_len);

#ifdef __cplusplus
}
#endif

#endif
