/*
 * levelspruce.h: the calls of Levelspruce for a C or C++ host.
 *
 * Where the library is installed, pkg-config --cflags --libs levelspruce finds
 * it, and find_package(levelspruce) in CMake. The manual, MANUAL.md, says how a
 * host uses the calls.
 *
 * For every call (but those that only give a text):
 * - The result is the answer number. Any answer but 0 is a refusal.
 * - A refusal changes no byte of any buffer, but for these, which change the
 *   state and nothing else: 4 of levelspruce_sender_start, of
 *   levelspruce_card_start, of levelspruce_receiver_start and of the three
 *   calls of these names with _as behind them writes an empty group (of a card,
 *   two), and 10 and 12 of levelspruce_receiver_frame record that the port is
 *   not in step, with all that follows from it.
 * - Numbers pass as uint32_t, so a number that is too large is refused by its
 *   answer and never cut down to one that fits (but of rs_ack in
 *   levelspruce_sender_report and levelspruce_card_report the lowest bit
 *   counts). Bytes pass as uint8_t: h4 of levelspruce_receiver_frame and epoch
 *   of levelspruce_receiver_reply.
 * - A buffer is a pointer and its length in bytes; where the pointer is to rows
 *   (a receiver's state, its ports), the length counts rows, and where it is to
 *   numbers (delays, times), numbers. The whole length must be the caller's to
 *   use. NULL with length 0 is an empty buffer.
 * - A buffer is lent for the time of the call.
 * - The buffers of one call must not overlap.
 * - Nothing is kept between calls, so different threads may call at once with
 *   buffers of their own.
 */
#ifndef LEVELSPRUCE_H
#define LEVELSPRUCE_H

#include <stddef.h>
#include <stdint.h>

#ifdef __cplusplus
extern "C" {
#endif

/* The version of this header. levelspruce_version gives that of the library. */
#define LEVELSPRUCE_VERSION "0.3.0"
#define LEVELSPRUCE_VERSION_MAJOR 0
#define LEVELSPRUCE_VERSION_MINOR 3
#define LEVELSPRUCE_VERSION_PATCH 0

/* The mark of a call whose answer must be looked at, where the compiler has one. */
#if defined(__cplusplus) && __cplusplus >= 201703L
#define LEVELSPRUCE_MUST_USE [[nodiscard]]
#elif defined(__STDC_VERSION__) && __STDC_VERSION__ >= 202311L
#define LEVELSPRUCE_MUST_USE [[nodiscard]]
#elif defined(__GNUC__)
#define LEVELSPRUCE_MUST_USE __attribute__((warn_unused_result))
#else
#define LEVELSPRUCE_MUST_USE
#endif

/* A number as a size_t, by the cast of the language at hand. */
#ifdef __cplusplus
#define LEVELSPRUCE_SIZE(number) (static_cast<size_t>(number))
#else
#define LEVELSPRUCE_SIZE(number) ((size_t)(number))
#endif

/* Answers. */
#define LEVELSPRUCE_ANSWER_DONE 0       /* done */
#define LEVELSPRUCE_ANSWER_SLOT 1       /* the slot or port is not below the group's count, or the card has no such group */
#define LEVELSPRUCE_ANSWER_STATE 2      /* not allowed now: by the slot's state, no wait open, no epoch started, or changes that do not fit */
#define LEVELSPRUCE_ANSWER_WAIT 3       /* add or remove while a wait is open */
#define LEVELSPRUCE_ANSWER_RANGE 4      /* a count, P, W, X, delay, time or kind is out of range */
#define LEVELSPRUCE_ANSWER_CRC 5        /* the packet's CRC differs */
#define LEVELSPRUCE_ANSWER_UNASSIGNED 6 /* CRC right, control word unassigned; of a fixed group any word but FIXED */
#define LEVELSPRUCE_ANSWER_FIXED 7      /* CRC right, control word FIXED: the far end has no LCAS; never given for a fixed group */
#define LEVELSPRUCE_ANSWER_FIELD 8      /* a field is too large, or its word is FIXED or unassigned */
#define LEVELSPRUCE_ANSWER_LENGTH 9     /* a buffer has the wrong length */
#define LEVELSPRUCE_ANSWER_FAILED 10    /* the frame came flagged as failed */
#define LEVELSPRUCE_ANSWER_OUTSIDE 11   /* the frame is in step, but outside the window: hand it again after a report */
#define LEVELSPRUCE_ANSWER_STEP 12      /* the port is not in step after this frame */
#define LEVELSPRUCE_ANSWER_LINE 13      /* the first line of a recording cannot be read, or there is none */
#define LEVELSPRUCE_ANSWER_OWNED 14     /* the slot is not the group's own, or a slot to be claimed is owned already */
#define LEVELSPRUCE_ANSWER_USED 15      /* a slot to be released is not IDLE */

/* Control words. All other numbers are unassigned. */
#define LEVELSPRUCE_WORD_FIXED 0 /* the group has no LCAS: written and read by the calls of fixed groups alone */
#define LEVELSPRUCE_WORD_ADD 1
#define LEVELSPRUCE_WORD_NORM 2
#define LEVELSPRUCE_WORD_EOS 3
#define LEVELSPRUCE_WORD_IDLE 5
#define LEVELSPRUCE_WORD_DNU 15

/* The kinds of a group. H4 is VC-3 and VC-4 with LCAS, whose packets go in the
 * H4 bytes; VC12 is VC-12 with LCAS, whose packets go bit by bit in K4; FIXED
 * is VC-3 and VC-4 without LCAS (a fixed group), of which there are receivers
 * alone. Where a comment names no kind, it holds of all. */
#define LEVELSPRUCE_KIND_H4 0
#define LEVELSPRUCE_KIND_VC12 1
#define LEVELSPRUCE_KIND_FIXED 2

/* The frames of an epoch, and so of a packet: of H4 and FIXED, and of VC-12. */
#define LEVELSPRUCE_EPOCH_FRAMES 16
#define LEVELSPRUCE_EPOCH_FRAMES_VC12 32

/* What a frame's byte has beside its bit of K4, where the host says that a
 * packet of VC-12 starts with this frame. */
#define LEVELSPRUCE_VC12_START 2

/* Sizes of buffers, in bytes. */
#define LEVELSPRUCE_PACKET_BYTES 16 /* the H4 bytes of one packet */
#define LEVELSPRUCE_PACKET_BYTES_VC12 32 /* the bytes of one packet's frames, of VC-12 */
#define LEVELSPRUCE_FIELDS_BYTES 10 /* the fields of one packet */
#define LEVELSPRUCE_SENDER_BYTES 397 /* a sender's state */
#define LEVELSPRUCE_CARD_BYTES 858  /* the state of a card with two groups */
#define LEVELSPRUCE_OWNED_BYTES 64  /* which slots a group owns */
#define LEVELSPRUCE_BOARD_BYTES 130 /* a sender's board */
#define LEVELSPRUCE_RANKS_BYTES 68  /* the ranks of an epoch */
#define LEVELSPRUCE_CHANGES_BYTES 322 /* the changes between two boards */
#define LEVELSPRUCE_SPEECH_BYTES 2188 /* the lines of any changes, at most */
#define LEVELSPRUCE_ROW_BYTES 16    /* a row of a receiver's state */
#define LEVELSPRUCE_REPORT_BYTES 8  /* the record of a report */
#define LEVELSPRUCE_PORT_BYTES 8    /* what is shown of a port */
#define LEVELSPRUCE_REPLY_BYTES 2   /* a reply */
#define LEVELSPRUCE_SEEN_BYTES 10   /* the packet that rules a port */
#define LEVELSPRUCE_CAUSE_BYTES 2   /* why a report is held or doubtful */
#define LEVELSPRUCE_HEARD_BYTES 4   /* what the far end says back */
#define LEVELSPRUCE_SETTINGS 4      /* a receiver's settings: numbers, not bytes */
#define LEVELSPRUCE_SENDER_SETTINGS_BYTES 5 /* a sender's settings */
#define LEVELSPRUCE_PLAN_BYTES 65   /* a plan of which paths to join */
#define LEVELSPRUCE_REPLAY_BYTES 17 /* how far a recording has been replayed */
#define LEVELSPRUCE_REPLAY_ROOM 1219 /* what one turn of a replay prints, at most */

/* Of a receiver: the rows of its state, and the bytes of its store and of the
 * least output. */
#define LEVELSPRUCE_RECEIVER_ROWS(ports) (LEVELSPRUCE_SIZE(ports) * 5 + 1)
#define LEVELSPRUCE_STORE_BYTES(ports, payload, window) \
    (LEVELSPRUCE_SIZE(ports) * LEVELSPRUCE_SIZE(window) * (LEVELSPRUCE_SIZE(payload) + 1))
#define LEVELSPRUCE_OUTPUT_BYTES(ports, payload) \
    (LEVELSPRUCE_SIZE(ports) * LEVELSPRUCE_EPOCH_FRAMES * LEVELSPRUCE_SIZE(payload))
#define LEVELSPRUCE_OUTPUT_BYTES_VC12(ports) \
    (LEVELSPRUCE_SIZE(ports) * LEVELSPRUCE_EPOCH_FRAMES_VC12 * LEVELSPRUCE_PAYLOAD_VC12)

/* Payload: members of a group, and bytes of a member frame. */
#define LEVELSPRUCE_MEMBERS_MOST 64
#define LEVELSPRUCE_PAYLOAD_MOST 2340
#define LEVELSPRUCE_PAYLOAD_VC3 756
#define LEVELSPRUCE_PAYLOAD_VC4 2340
#define LEVELSPRUCE_PAYLOAD_VC12 136

/* The place of each field among the ten bytes that reading gives, and the
 * greatest number that the reserved bits of H4's packets make; those of VC-12's
 * make 15. */
#define LEVELSPRUCE_FIELD_EPOCH 0
#define LEVELSPRUCE_FIELD_WORD 1
#define LEVELSPRUCE_FIELD_GID 2
#define LEVELSPRUCE_FIELD_MST 3
#define LEVELSPRUCE_FIELD_RS_ACK 4
#define LEVELSPRUCE_FIELD_SQ 5
#define LEVELSPRUCE_FIELD_RESERVED 6 /* the first of four bytes, highest first */
#define LEVELSPRUCE_RESERVED_MOST 67108863

/* A sender's slots, the groups of a card, and the number of a slot that is
 * IDLE: of H4 and FIXED, and of VC-12, where a member may have that number too:
 * the word decides. */
#define LEVELSPRUCE_SLOTS_MOST 64
#define LEVELSPRUCE_GROUPS 2
#define LEVELSPRUCE_NUMBER_IDLE 255
#define LEVELSPRUCE_NUMBER_IDLE_VC12 63

/* The bytes of a board: slot s has its word at ROWS + 2 * s and its number
 * right after it. */
#define LEVELSPRUCE_BOARD_COUNT 0
#define LEVELSPRUCE_BOARD_WAIT 1
#define LEVELSPRUCE_BOARD_ROWS 2

/* The bytes of changes: how many there are, what the wait does, and from
 * ROWS + 5 * k on change k, whose bytes have these places. */
#define LEVELSPRUCE_CHANGES_COUNT 0
#define LEVELSPRUCE_CHANGES_WAIT 1
#define LEVELSPRUCE_CHANGES_ROWS 2
#define LEVELSPRUCE_CHANGE_SLOT 0
#define LEVELSPRUCE_CHANGE_OLD_WORD 1
#define LEVELSPRUCE_CHANGE_OLD_NUMBER 2
#define LEVELSPRUCE_CHANGE_NEW_WORD 3
#define LEVELSPRUCE_CHANGE_NEW_NUMBER 4
#define LEVELSPRUCE_WAIT_SAME 0
#define LEVELSPRUCE_WAIT_OPENED 1
#define LEVELSPRUCE_WAIT_CLOSED 2

/* The bytes of an epoch's ranks: slot s has its rank at EACH + s. */
#define LEVELSPRUCE_RANKS_COUNT 0
#define LEVELSPRUCE_RANKS_BEGUN 1
#define LEVELSPRUCE_RANKS_EPOCH 2
#define LEVELSPRUCE_RANKS_X 3
#define LEVELSPRUCE_RANKS_EACH 4
#define LEVELSPRUCE_RANK_NONE 255

/* The bytes of a sender's settings. */
#define LEVELSPRUCE_SENDER_SETTING_KIND 0
#define LEVELSPRUCE_SENDER_SETTING_SLOTS 1
#define LEVELSPRUCE_SENDER_SETTING_NEXT 2   /* the next epoch to start */
#define LEVELSPRUCE_SENDER_SETTING_WAIT 3   /* 1 while a wait is open */
#define LEVELSPRUCE_SENDER_SETTING_RS_ACK 4 /* the bit that it remembers */

/*
 * The version of the library that is linked, as LEVELSPRUCE_VERSION has that
 * of the header. A program that was built with one and runs with another
 * shared library can see it.
 */
const char *levelspruce_version(void);

/*
 * What an answer means, in one English line without its end. Any number has
 * one; of a number that no call answers it says so. The text stays for as
 * long as the program runs.
 */
const char *levelspruce_answer_text(uint32_t answer);

/*
 * The name of a control word, as ADD; of any other number, unassigned.
 */
const char *levelspruce_word_name(uint32_t word);

/*
 * The name of a report's mark: none, held, doubtful or sure; of any other
 * number, unknown.
 */
const char *levelspruce_mark_name(uint32_t mark);

/*
 * What the cause of a report means, in one English line without its end. Any
 * number has one; of a number that is no cause it says so.
 */
const char *levelspruce_cause_text(uint32_t cause);

/*
 * The name of a port's member state: IDLE, FAIL or OK; of any other number,
 * unknown.
 */
const char *levelspruce_state_name(uint32_t state);

/*
 * The name of what a port waits for: none, hold-off or restore; of any other
 * number, unknown.
 */
const char *levelspruce_waiting_name(uint32_t waiting);

/*
 * Writes one control packet as the sixteen H4 bytes that carry it.
 *
 *   epoch, mst, sq   0 to 255
 *   word             ADD, NORM, EOS, IDLE or DNU
 *   gid, rs_ack      0 or 1
 *   reserved         0 to LEVELSPRUCE_RESERVED_MOST: the 26 bits that no other
 *                    field has, in the order of sending, the first one highest;
 *                    0 but for a relay
 *   h4               LEVELSPRUCE_PACKET_BYTES bytes, in the order of sending
 *
 * A byte's high nibble is the packet's; its low nibble is the frame's count
 * MFI1, which goes from 8 to 15 and on from 0 to 7. The reserved bits are the
 * three beside RS-Ack (MFI1 10), the nibbles of MFI1 11, 12 and 13, the three
 * beside GID (MFI1 3) and the nibbles of MFI1 4 and 5.
 *
 * Answers, the first that fits:
 *   9  h4_length is not 16
 *   8  a field is above its limit, or the word is FIXED or unassigned
 *   0  all sixteen bytes are written; levelspruce_packet_read gives the same
 *      fields back
 */
LEVELSPRUCE_MUST_USE
uint8_t levelspruce_packet_write(uint32_t epoch, uint32_t word, uint32_t gid,
                                 uint32_t mst, uint32_t rs_ack, uint32_t sq,
                                 uint32_t reserved,
                                 uint8_t *h4, size_t h4_length);

/*
 * Reads one control packet from the sixteen H4 bytes that carry it.
 *
 *   h4       LEVELSPRUCE_PACKET_BYTES bytes, from the frame with MFI1 8 on;
 *            only their high nibbles are looked at
 *   fields   LEVELSPRUCE_FIELDS_BYTES bytes for the result, each at its
 *            LEVELSPRUCE_FIELD_ place
 *
 * The reserved bits come in four bytes from LEVELSPRUCE_FIELD_RESERVED on, the
 * highest first. What is answered 0 can always be written, and
 * levelspruce_packet_write with the same fields gives the same high nibbles
 * again. A written packet with one to three of its 64 bits (the high nibbles')
 * changed is always answered 5.
 *
 * Answers, the first that fits:
 *   9  h4_length is not 16, or fields_length is not 10
 *   5  the CRC differs
 *   7  the control word is FIXED
 *   6  the control word is unassigned
 *   0  all ten bytes of fields are written
 */
LEVELSPRUCE_MUST_USE
uint8_t levelspruce_packet_read(const uint8_t *h4, size_t h4_length,
                                uint8_t *fields, size_t fields_length);

/*
 * Writes one packet of a fixed group (virtual concatenation without LCAS): the
 * epoch and the number in their places, the word FIXED, which is 0, and all
 * other nibbles 0.
 *
 *   epoch, sq   0 to 255
 *   h4          LEVELSPRUCE_PACKET_BYTES bytes, in the order of sending
 *
 * Answers, the first that fits:
 *   9  h4_length is not 16
 *   8  epoch or sq is above 255
 *   0  all sixteen bytes are written; levelspruce_packet_read_fixed gives epoch
 *      and sq back
 */
LEVELSPRUCE_MUST_USE
uint8_t levelspruce_packet_write_fixed(uint32_t epoch, uint32_t sq,
                                       uint8_t *h4, size_t h4_length);

/*
 * Reads one packet of a fixed group. Nothing but epoch, sq and the word is
 * looked at, and no CRC is checked: a damaged packet can read well. So what is
 * answered 0 need not be what levelspruce_packet_write_fixed writes of it.
 *
 *   h4       LEVELSPRUCE_PACKET_BYTES bytes, from the frame with MFI1 8 on;
 *            only their high nibbles are looked at
 *   fields   LEVELSPRUCE_FIELDS_BYTES bytes for the result, each at its
 *            LEVELSPRUCE_FIELD_ place; all but epoch and sq are 0
 *
 * Answers, the first that fits:
 *   9  h4_length is not 16, or fields_length is not 10
 *   6  the control word is not FIXED
 *   0  all ten bytes of fields are written
 */
LEVELSPRUCE_MUST_USE
uint8_t levelspruce_packet_read_fixed(const uint8_t *h4, size_t h4_length,
                                      uint8_t *fields, size_t fields_length);

/*
 * Writes one control packet of VC-12 as the bytes of the 32 frames that carry
 * it, one bit of K4 each: the bit in the lowest place, and in the first byte
 * LEVELSPRUCE_VC12_START beside it. So what is written can be handed to
 * levelspruce_receiver_frame, frame by frame. On the line goes the lowest bit.
 *
 *   epoch         the multiframe count, 0 to 31
 *   word          ADD, NORM, EOS, IDLE or DNU
 *   gid, rs_ack   0 or 1
 *   mst           0 to 255
 *   sq            0 to 63
 *   reserved      0 to 15: the four bits that no other field has, the first one
 *                 highest; 0 but for a relay
 *   bits          LEVELSPRUCE_PACKET_BYTES_VC12 bytes, in the order of sending
 *
 * Answers, the first that fits:
 *   9  bits_length is not 32
 *   8  a field is above its limit, or the word is FIXED or unassigned
 *   0  all 32 bytes are written; levelspruce_packet_read_vc12 gives the same
 *      fields back
 */
LEVELSPRUCE_MUST_USE
uint8_t levelspruce_packet_write_vc12(uint32_t epoch, uint32_t word,
                                      uint32_t gid, uint32_t mst,
                                      uint32_t rs_ack, uint32_t sq,
                                      uint32_t reserved,
                                      uint8_t *bits, size_t bits_length);

/*
 * Reads one control packet of VC-12 from the bytes of the 32 frames that carry
 * it.
 *
 *   bits     LEVELSPRUCE_PACKET_BYTES_VC12 bytes, from the first bit of the
 *            count on; only their lowest bits are looked at
 *   fields   LEVELSPRUCE_FIELDS_BYTES bytes for the result, each at its
 *            LEVELSPRUCE_FIELD_ place
 *
 * What is answered 0 can always be written, and levelspruce_packet_write_vc12
 * with the same fields gives the same lowest bits again. A written packet with
 * one of its 32 bits changed is always answered 5. With two changed that stand
 * 7, 14, 21 or 28 places apart its CRC is right, and it can read well as
 * another packet.
 *
 * Answers, the first that fits:
 *   9  bits_length is not 32, or fields_length is not 10
 *   5  the CRC differs
 *   7  the control word is FIXED
 *   6  the control word is unassigned
 *   0  all ten bytes of fields are written
 */
LEVELSPRUCE_MUST_USE
uint8_t levelspruce_packet_read_vc12(const uint8_t *bits, size_t bits_length,
                                     uint8_t *fields, size_t fields_length);

/*
 * Spreads a group frame over its members: byte p of the frame becomes byte
 * p / x of the member ranked p % x.
 *
 *   x         members that carry payload, 0 to 64
 *   p         payload of a member frame in bytes, 1 to 2340
 *   frame     the group frame, x * p bytes
 *   members   x * p bytes for the members one after the other, the one
 *             ranked r from byte r * p on
 *
 * Answers, the first that fits:
 *   4  x or p is out of range (p also where x is 0)
 *   9  frame_length or members_length is not x * p
 *   0  all of members is written; nothing where x is 0
 */
LEVELSPRUCE_MUST_USE
uint8_t levelspruce_spread(uint32_t x, uint32_t p,
                           const uint8_t *frame, size_t frame_length,
                           uint8_t *members, size_t members_length);

/*
 * Joins members into their group frame, the other way round: joining what
 * levelspruce_spread gave yields the frame again.
 *
 *   x, p, members, frame   as for levelspruce_spread
 *
 * Answers, the first that fits:
 *   4  x or p is out of range (p also where x is 0)
 *   9  members_length or frame_length is not x * p
 *   0  all of frame is written; nothing where x is 0
 */
LEVELSPRUCE_MUST_USE
uint8_t levelspruce_join(uint32_t x, uint32_t p,
                         const uint8_t *members, size_t members_length,
                         uint8_t *frame, size_t frame_length);

/*
 * The sender. Its whole state is one buffer of LEVELSPRUCE_SENDER_BYTES bytes
 * that the host lends to each call and keeps between calls. Begin with
 * levelspruce_sender_start, or with levelspruce_sender_start_as for VC-12. The
 * state may be copied, stored and lent from another place; what its bytes mean
 * is the library's own affair. Any bytes are coped with: a state that does not
 * come from a start is answered like any other, and no call reads or writes
 * outside its buffers; what boards, ranks and payload then show need not agree.
 *
 * A state_length other than LEVELSPRUCE_SENDER_BYTES is answered 9 before all
 * else (but 4 at starting).
 */

/*
 * Starts a group of H4: all slots IDLE, no wait open, no epoch started.
 *
 *   count         slots of the group, 1 to 64
 *   first_epoch   the number of the first epoch, 0 to 255
 *   state         LEVELSPRUCE_SENDER_BYTES bytes, of any content
 *
 * Answers, the first that fits:
 *   4  count is 0 or above 64; where state_length is right, all of state is
 *      written with an empty group, in which every slot is answered 1
 *   9  state_length is wrong
 *   8  first_epoch is above 255
 *   0  all of state is written
 */
LEVELSPRUCE_MUST_USE
uint8_t levelspruce_sender_start(uint32_t count, uint32_t first_epoch,
                                 uint8_t *state, size_t state_length);

/*
 * Starts a group of a kind. With LEVELSPRUCE_KIND_H4 this is
 * levelspruce_sender_start.
 *
 *   kind          LEVELSPRUCE_KIND_H4 or LEVELSPRUCE_KIND_VC12
 *   count         slots of the group, 1 to 64
 *   first_epoch   the number of the first epoch, 0 to 255, of VC-12 0 to 31
 *   state         LEVELSPRUCE_SENDER_BYTES bytes, of any content
 *
 * Answers, the first that fits:
 *   4  count is 0 or above 64, or kind is neither; where state_length is right,
 *      all of state is written with an empty group of H4, in which every slot
 *      is answered 1
 *   9  state_length is wrong
 *   8  first_epoch is above 255, of VC-12 above 31
 *   0  all of state is written
 */
LEVELSPRUCE_MUST_USE
uint8_t levelspruce_sender_start_as(uint32_t kind, uint32_t count,
                                    uint32_t first_epoch,
                                    uint8_t *state, size_t state_length);

/*
 * Adds an IDLE slot: it is ADD with the next free number.
 *
 * Answers, the first that fits:
 *   9  state_length is wrong
 *   1  slot is not below the group's count
 *   3  a wait is open
 *   2  the slot is not IDLE
 *   0  done
 */
LEVELSPRUCE_MUST_USE
uint8_t levelspruce_sender_add(uint8_t *state, size_t state_length,
                               uint32_t slot);

/*
 * Removes a slot that is ADD, active or DNU: it is IDLE, higher numbers fall
 * by one, and a wait opens.
 *
 * Answers, the first that fits:
 *   9  state_length is wrong
 *   1  slot is not below the group's count
 *   3  a wait is open
 *   2  the slot is IDLE
 *   0  done
 */
LEVELSPRUCE_MUST_USE
uint8_t levelspruce_sender_remove(uint8_t *state, size_t state_length,
                                  uint32_t slot);

/*
 * Takes what the far end reports.
 *
 *   epoch    the epoch of the packet that reports, 0 to 255: the MST speaks of
 *            the numbers 8 * (epoch % 32) to that plus 7, of VC-12 of
 *            8 * (epoch % 8) to that plus 7
 *   mst      the eight MST bits, first bit highest; 0 is OK, 1 is FAIL
 *   rs_ack   0 or 1; of a larger number up to 255 the lowest bit counts
 *
 * With a wait open mst is ignored, and an rs_ack other than the remembered one
 * (0 at first) is remembered and closes the wait. With none open rs_ack is
 * remembered, mst is acted on, and a wait opens if a slot that was ADD became
 * active.
 *
 * Answers, the first that fits:
 *   9  state_length is wrong
 *   8  epoch, mst or rs_ack is above 255
 *   0  done
 */
LEVELSPRUCE_MUST_USE
uint8_t levelspruce_sender_report(uint8_t *state, size_t state_length,
                                  uint32_t epoch, uint32_t mst,
                                  uint32_t rs_ack);

/*
 * Closes an open wait.
 *
 * Answers, the first that fits:
 *   9  state_length is wrong
 *   2  no wait is open
 *   0  done
 */
LEVELSPRUCE_MUST_USE
uint8_t levelspruce_sender_lapse(uint8_t *state, size_t state_length);

/*
 * Starts an epoch. From here to the next start, packets go out from the table
 * as it stands now, and payload goes by the packets of the epoch before,
 * whatever other calls come in between. The first epoch has the number given
 * at the group's start, and each next one is one more, 0 after 255, of VC-12 0
 * after 31.
 *
 *   gid, rs_ack   0 or 1, for all packets of the epoch
 *   mst           0 to 255, for all packets of the epoch
 *
 * Answers, the first that fits:
 *   9  state_length is wrong
 *   8  gid or rs_ack is above 1, or mst above 255
 *   0  done
 */
LEVELSPRUCE_MUST_USE
uint8_t levelspruce_sender_start_epoch(uint8_t *state, size_t state_length,
                                       uint32_t gid, uint32_t mst,
                                       uint32_t rs_ack);

/*
 * Writes the packet of a slot in this epoch.
 *
 *   h4   LEVELSPRUCE_PACKET_BYTES bytes, of VC-12
 *        LEVELSPRUCE_PACKET_BYTES_VC12 as levelspruce_packet_write_vc12 writes
 *        them, in the order of sending
 *
 * Answers, the first that fits:
 *   9  state_length is wrong
 *   1  slot is not below the group's count
 *   9  h4_length is not 16, of VC-12 not 32
 *   2  no epoch has started
 *   8  only with a state that does not come from a start: what it keeps makes
 *      no packet
 *   0  all of these bytes are written
 */
LEVELSPRUCE_MUST_USE
uint8_t levelspruce_sender_packet(const uint8_t *state, size_t state_length,
                                  uint32_t slot,
                                  uint8_t *h4, size_t h4_length);

/*
 * Writes the payload of a slot for one group frame of this epoch: the bytes
 * of its rank, or zeros where it has none. For many slots it is faster to
 * spread the frame once (levelspruce_sender_ranks, levelspruce_spread).
 *
 *   p        payload of a member frame in bytes, 1 to 2340, of VC-12 136
 *   frame    the group frame, x * p bytes with the x of this epoch
 *   member   p bytes for the slot's payload
 *
 * Answers, the first that fits:
 *   9  state_length is wrong
 *   1  slot is not below the group's count
 *   4  p is out of range
 *   9  frame_length is not x * p, or member_length is not p
 *   2  no epoch has started
 *   0  all of member is written
 */
LEVELSPRUCE_MUST_USE
uint8_t levelspruce_sender_payload(const uint8_t *state, size_t state_length,
                                   uint32_t slot, uint32_t p,
                                   const uint8_t *frame, size_t frame_length,
                                   uint8_t *member, size_t member_length);

/*
 * Reads the board whole: the count, 1 for an open wait or 0, and the word and
 * number of each slot, all of one table, as it stands now. The count is at
 * most 64. Past the count slots are shown IDLE, with 255, of VC-12 with 63.
 *
 *   board   LEVELSPRUCE_BOARD_BYTES bytes, by the LEVELSPRUCE_BOARD_ places
 *
 * Answers, the first that fits:
 *   9  state_length or board_length is wrong
 *   0  all of board is written
 */
LEVELSPRUCE_MUST_USE
uint8_t levelspruce_sender_board(const uint8_t *state, size_t state_length,
                                 uint8_t *board, size_t board_length);

/*
 * Reads the board whose packets go out in this epoch, in the same way. Before
 * the first epoch it is the board of the start: all slots IDLE.
 *
 * Answers, the first that fits:
 *   9  state_length or board_length is wrong
 *   0  all of board is written
 */
LEVELSPRUCE_MUST_USE
uint8_t levelspruce_sender_board_going(const uint8_t *state,
                                       size_t state_length,
                                       uint8_t *board, size_t board_length);

/*
 * Reads what rules this epoch's payload whole: the count, 1 once an epoch has
 * started or 0, this epoch's number (before the first, the one it will have),
 * x, and the rank of each slot or LEVELSPRUCE_RANK_NONE.
 *
 *   ranks   LEVELSPRUCE_RANKS_BYTES bytes, by the LEVELSPRUCE_RANKS_ places
 *
 * Answers, the first that fits:
 *   9  state_length or ranks_length is wrong
 *   0  all of ranks is written
 */
LEVELSPRUCE_MUST_USE
uint8_t levelspruce_sender_ranks(const uint8_t *state, size_t state_length,
                                 uint8_t *ranks, size_t ranks_length);

/*
 * Reads a sender's settings: the kind of its packets, its slots, the number of
 * the next epoch to start, 1 while a wait is open, and the RS-Ack that it
 * remembers.
 *
 *   settings   LEVELSPRUCE_SENDER_SETTINGS_BYTES bytes, by the
 *              LEVELSPRUCE_SENDER_SETTING_ places
 *
 * Answers, the first that fits:
 *   9  state_length or settings_length is wrong
 *   0  all of settings is written
 */
LEVELSPRUCE_MUST_USE
uint8_t levelspruce_sender_settings(const uint8_t *state, size_t state_length,
                                    uint8_t *settings, size_t settings_length);

/*
 * Two circuits on one card: two groups, 0 and 1, share the card's slots. A slot
 * is owned by one group or by nobody; claim and release move it. Numbers,
 * words, waits and epochs are each group's own, and so are its boards and
 * ranks. What a group is answered depends on its own calls and on which slots
 * the other owns; a claim is the one answer that tells of the latter.
 *
 * The card's whole state is one buffer of LEVELSPRUCE_CARD_BYTES bytes, lent
 * and kept as a sender's is. Begin with levelspruce_card_start, or with
 * levelspruce_card_start_as where both groups are of VC-12. Any bytes are coped
 * with. A call changes no byte of the other group's part of the state.
 *
 * A state_length other than LEVELSPRUCE_CARD_BYTES is answered 9 before all
 * else (but 4 at starting), then a group other than 0 and 1 is answered 1.
 */

/*
 * Starts a card: two groups of H4 with all slots IDLE, and no slot owned.
 *
 *   count           slots of the card, 1 to 64
 *   first_epoch_0   the number of the first epoch of group 0, 0 to 255
 *   first_epoch_1   that of group 1
 *   state           LEVELSPRUCE_CARD_BYTES bytes, of any content
 *
 * Answers, the first that fits:
 *   4  count is 0 or above 64; where state_length is right, all of state is
 *      written with two empty groups, in which every slot is answered 1
 *   9  state_length is wrong
 *   8  a first epoch is above 255
 *   0  all of state is written
 */
LEVELSPRUCE_MUST_USE
uint8_t levelspruce_card_start(uint32_t count, uint32_t first_epoch_0,
                               uint32_t first_epoch_1,
                               uint8_t *state, size_t state_length);

/*
 * Starts a card whose two groups are of a kind. With LEVELSPRUCE_KIND_H4 this
 * is levelspruce_card_start.
 *
 *   kind            LEVELSPRUCE_KIND_H4 or LEVELSPRUCE_KIND_VC12
 *   count           slots of the card, 1 to 64
 *   first_epoch_0   the number of the first epoch of group 0, 0 to 255, of
 *                   VC-12 0 to 31
 *   first_epoch_1   that of group 1
 *   state           LEVELSPRUCE_CARD_BYTES bytes, of any content
 *
 * Answers, the first that fits:
 *   4  count is 0 or above 64, or kind is neither; where state_length is right,
 *      all of state is written with two empty groups of H4, in which every slot
 *      is answered 1
 *   9  state_length is wrong
 *   8  a first epoch is above 255, of VC-12 above 31
 *   0  all of state is written
 */
LEVELSPRUCE_MUST_USE
uint8_t levelspruce_card_start_as(uint32_t kind, uint32_t count,
                                  uint32_t first_epoch_0,
                                  uint32_t first_epoch_1,
                                  uint8_t *state, size_t state_length);

/*
 * Claims a slot that nobody owns for the group.
 *
 * Answers, the first that fits:
 *   9   state_length is wrong
 *   1   there is no such group, or slot is not below its count
 *   14  the slot is owned, by the other group or by this one
 *   0   done
 */
LEVELSPRUCE_MUST_USE
uint8_t levelspruce_card_claim(uint8_t *state, size_t state_length,
                               uint32_t group, uint32_t slot);

/*
 * Releases a slot of the group: nobody owns it, and either group may claim it.
 * An open wait does not hinder it. Ownership changes at once, while the
 * packets of this epoch were fixed at its start: release a removed slot once
 * an epoch of IDLE has gone out.
 *
 * Answers, the first that fits:
 *   9   state_length is wrong
 *   1   there is no such group, or slot is not below its count
 *   14  the slot is not the group's own
 *   15  the slot is not IDLE
 *   0   done
 */
LEVELSPRUCE_MUST_USE
uint8_t levelspruce_card_release(uint8_t *state, size_t state_length,
                                 uint32_t group, uint32_t slot);

/*
 * Adds an IDLE slot of the group, as levelspruce_sender_add does.
 *
 * Answers, the first that fits:
 *   9   state_length is wrong
 *   1   there is no such group, or slot is not below its count
 *   14  the slot is not the group's own: the other's and nobody's alike
 *   3   a wait of this group is open
 *   2   the slot is not IDLE
 *   0   done
 */
LEVELSPRUCE_MUST_USE
uint8_t levelspruce_card_add(uint8_t *state, size_t state_length,
                             uint32_t group, uint32_t slot);

/*
 * Removes a slot of the group that is ADD, active or DNU, as
 * levelspruce_sender_remove does. The slot stays the group's own.
 *
 * Answers, the first that fits:
 *   9   state_length is wrong
 *   1   there is no such group, or slot is not below its count
 *   14  the slot is not the group's own
 *   3   a wait of this group is open
 *   2   the slot is IDLE
 *   0   done
 */
LEVELSPRUCE_MUST_USE
uint8_t levelspruce_card_remove(uint8_t *state, size_t state_length,
                                uint32_t group, uint32_t slot);

/*
 * Takes what the far end of the group reports, as levelspruce_sender_report
 * does.
 *
 * Answers, the first that fits:
 *   9  state_length is wrong
 *   1  there is no such group
 *   8  epoch, mst or rs_ack is above 255
 *   0  done
 */
LEVELSPRUCE_MUST_USE
uint8_t levelspruce_card_report(uint8_t *state, size_t state_length,
                                uint32_t group, uint32_t epoch, uint32_t mst,
                                uint32_t rs_ack);

/*
 * Closes an open wait of the group; the other's wait stays as it is.
 *
 * Answers, the first that fits:
 *   9  state_length is wrong
 *   1  there is no such group
 *   2  the group has no wait open
 *   0  done
 */
LEVELSPRUCE_MUST_USE
uint8_t levelspruce_card_lapse(uint8_t *state, size_t state_length,
                               uint32_t group);

/*
 * Starts an epoch of the group, as levelspruce_sender_start_epoch does. Each
 * group counts its own epochs. A claimed slot sends for its new owner from
 * that group's next start on.
 *
 * Answers, the first that fits:
 *   9  state_length is wrong
 *   1  there is no such group
 *   8  gid or rs_ack is above 1, or mst above 255
 *   0  done
 */
LEVELSPRUCE_MUST_USE
uint8_t levelspruce_card_start_epoch(uint8_t *state, size_t state_length,
                                     uint32_t group, uint32_t gid,
                                     uint32_t mst, uint32_t rs_ack);

/*
 * Writes the packet of a slot of the group in this epoch of it. Fetch all
 * packets right after the start of an epoch: once a slot is released, its
 * packet is answered 14.
 *
 *   h4   LEVELSPRUCE_PACKET_BYTES bytes, of VC-12
 *        LEVELSPRUCE_PACKET_BYTES_VC12, in the order of sending
 *
 * Answers, the first that fits:
 *   9   state_length is wrong
 *   1   there is no such group, or slot is not below its count
 *   14  the slot is not the group's own
 *   9   h4_length is not 16, of VC-12 not 32
 *   2   no epoch of the group has started
 *   8   only with a state that does not come from a start: what it keeps makes
 *       no packet
 *   0   all of these bytes are written
 */
LEVELSPRUCE_MUST_USE
uint8_t levelspruce_card_packet(const uint8_t *state, size_t state_length,
                                uint32_t group, uint32_t slot,
                                uint8_t *h4, size_t h4_length);

/*
 * Writes the payload of a slot of the group for one frame of the group, as
 * levelspruce_sender_payload does.
 *
 *   p        payload of a member frame in bytes, 1 to 2340, of VC-12 136
 *   frame    the group frame, x * p bytes with the x of this epoch
 *   member   p bytes for the slot's payload
 *
 * Answers, the first that fits:
 *   9   state_length is wrong
 *   1   there is no such group, or slot is not below its count
 *   14  the slot is not the group's own
 *   4   p is out of range
 *   9   frame_length is not x * p, or member_length is not p
 *   2   no epoch of the group has started
 *   0   all of member is written
 */
LEVELSPRUCE_MUST_USE
uint8_t levelspruce_card_payload(const uint8_t *state, size_t state_length,
                                 uint32_t group, uint32_t slot, uint32_t p,
                                 const uint8_t *frame, size_t frame_length,
                                 uint8_t *member, size_t member_length);

/*
 * Reads the board of the group whole, as levelspruce_sender_board does: all
 * slots of the card, and those that are not the group's own are IDLE.
 *
 *   board   LEVELSPRUCE_BOARD_BYTES bytes, by the LEVELSPRUCE_BOARD_ places
 *
 * Answers, the first that fits:
 *   9  state_length is wrong
 *   1  there is no such group
 *   9  board_length is wrong
 *   0  all of board is written
 */
LEVELSPRUCE_MUST_USE
uint8_t levelspruce_card_board(const uint8_t *state, size_t state_length,
                               uint32_t group,
                               uint8_t *board, size_t board_length);

/*
 * Reads the board whose packets go out in this epoch of the group, in the same
 * way. A slot that was released since the epoch's start still shows there.
 *
 * Answers, the first that fits:
 *   9  state_length is wrong
 *   1  there is no such group
 *   9  board_length is wrong
 *   0  all of board is written
 */
LEVELSPRUCE_MUST_USE
uint8_t levelspruce_card_board_going(const uint8_t *state,
                                     size_t state_length, uint32_t group,
                                     uint8_t *board, size_t board_length);

/*
 * Reads what rules the payload of this epoch of the group whole, as
 * levelspruce_sender_ranks does. A slot that was released since may still have
 * a rank there.
 *
 *   ranks   LEVELSPRUCE_RANKS_BYTES bytes, by the LEVELSPRUCE_RANKS_ places
 *
 * Answers, the first that fits:
 *   9  state_length is wrong
 *   1  there is no such group
 *   9  ranks_length is wrong
 *   0  all of ranks is written
 */
LEVELSPRUCE_MUST_USE
uint8_t levelspruce_card_ranks(const uint8_t *state, size_t state_length,
                               uint32_t group,
                               uint8_t *ranks, size_t ranks_length);

/*
 * Reads which slots the group owns: a byte a slot, 1 or 0. Nothing tells what
 * the other owns.
 *
 *   owned   LEVELSPRUCE_OWNED_BYTES bytes, in the order of the slots
 *
 * Answers, the first that fits:
 *   9  state_length is wrong
 *   1  there is no such group
 *   9  owned_length is wrong
 *   0  all of owned is written
 */
LEVELSPRUCE_MUST_USE
uint8_t levelspruce_card_owned(const uint8_t *state, size_t state_length,
                               uint32_t group,
                               uint8_t *owned, size_t owned_length);

/*
 * A whole work order at once: a list of commands, each three numbers, done one
 * behind the other. State and answers are those of the single calls above in
 * that order, byte by byte. A refused command stops nothing: the next one is
 * tried on the card as it stands.
 *
 * A remove opens its group's wait, so every later add and remove of that group
 * in the same order is answered 3. Give one remove an order and group, at its
 * end.
 */
#define LEVELSPRUCE_COMMAND_NUMBERS 3
#define LEVELSPRUCE_COMMAND_KIND 0
#define LEVELSPRUCE_COMMAND_GROUP 1
#define LEVELSPRUCE_COMMAND_SLOT 2

/* the kinds of a command */
#define LEVELSPRUCE_COMMAND_ADD 0
#define LEVELSPRUCE_COMMAND_REMOVE 1
#define LEVELSPRUCE_COMMAND_CLAIM 2
#define LEVELSPRUCE_COMMAND_RELEASE 3

/*
 * Does the commands of a list and writes the answer to each.
 *
 *   commands   any number of commands: kind, group and slot
 *   answers    a byte for each; a command is answered as its single call is,
 *              and 8 where its kind is above 3, before all else
 *
 * Answers, the first that fits:
 *   9  state_length is wrong
 *   9  answers_length is not commands_length; nothing is done, and no answer
 *      is written
 *   0  each command was tried, and all of answers is written
 */
LEVELSPRUCE_MUST_USE
uint8_t levelspruce_card_order(
    uint8_t *state, size_t state_length,
    const uint32_t (*commands)[LEVELSPRUCE_COMMAND_NUMBERS],
    size_t commands_length, uint8_t *answers, size_t answers_length);

/*
 * The spoken board: for a console that tells what changes. A board to be told
 * is one going out: it stays as it is from one start of an epoch to the next,
 * so no list of changes mixes two orders. The board as it stands now may come
 * and go in between. levelspruce_sender_changes and levelspruce_card_changes
 * take the board going out from the state themselves, so that a console cannot
 * tell another.
 */

/*
 * Lists what has changed on the sender's board going out since the board told
 * last, as levelspruce_board_changes does, and makes the board told the one
 * going out. Whenever it is called, that is the board of the last start of an
 * epoch; before the first one it is the board of the sender's start, all slots
 * IDLE. Applied by levelspruce_board_apply to the board told before, the
 * changes make it the board told now.
 *
 *   state     LEVELSPRUCE_SENDER_BYTES bytes
 *   told      LEVELSPRUCE_BOARD_BYTES bytes: the board told last, at first
 *             the one that levelspruce_sender_board_going shows
 *   changes   LEVELSPRUCE_CHANGES_BYTES bytes, as levelspruce_board_changes
 *             writes them
 *
 * Answers, the first that fits:
 *   9  a length is wrong
 *   4  the counts of told and of the board going out differ, or are above 64
 *   0  all of told and of changes is written
 */
LEVELSPRUCE_MUST_USE
uint8_t levelspruce_sender_changes(const uint8_t *state, size_t state_length,
                                   uint8_t *told, size_t told_length,
                                   uint8_t *changes, size_t changes_length);

/*
 * The same of a group of a card. At first told is the board that
 * levelspruce_card_board_going shows.
 *
 *   state     LEVELSPRUCE_CARD_BYTES bytes
 *   group     0 or 1
 *
 * Answers, the first that fits:
 *   9  state_length is wrong
 *   1  there is no such group
 *   9  told_length or changes_length is wrong
 *   4  the counts of told and of the board going out differ, or are above 64
 *   0  all of told and of changes is written
 */
LEVELSPRUCE_MUST_USE
uint8_t levelspruce_card_changes(const uint8_t *state, size_t state_length,
                                 uint32_t group,
                                 uint8_t *told, size_t told_length,
                                 uint8_t *changes, size_t changes_length);

/*
 * Lists what has changed from one board to another: each slot whose word or
 * number differs, once, in slot order, with its old and its new word and
 * number, and whether a wait has opened or closed. Slots past the count are
 * not looked at. Any byte but 0 is an open wait.
 *
 *   before, after   two boards, LEVELSPRUCE_BOARD_BYTES bytes each
 *   changes         LEVELSPRUCE_CHANGES_BYTES bytes, by the
 *                   LEVELSPRUCE_CHANGES_ and LEVELSPRUCE_CHANGE_ places
 *
 * Answers, the first that fits:
 *   9  a length is wrong
 *   4  the boards' counts differ, or are above 64
 *   0  all of changes is written, 0 behind the last change
 */
LEVELSPRUCE_MUST_USE
uint8_t levelspruce_board_changes(const uint8_t *before, size_t before_length,
                                  const uint8_t *after, size_t after_length,
                                  uint8_t *changes, size_t changes_length);

/*
 * Applies changes to a board: those of levelspruce_board_changes(before,
 * after) make the board before the board after. Every change is held to the
 * board as it stood before the first, and none is applied where one does not
 * fit. Bytes behind the last change are not looked at.
 *
 *   board     LEVELSPRUCE_BOARD_BYTES bytes
 *   changes   LEVELSPRUCE_CHANGES_BYTES bytes
 *
 * Answers, the first that fits:
 *   9  a length is wrong
 *   2  the changes do not fit the board: more than 64, a slot not below the
 *      count or not above the slot before it, an old word or number that is
 *      not the board's, a change to the same, a wait that opens though it is
 *      open or closes though none is, a wait above 2, or a count above 64
 *   0  the board is the new one, its wait 0 or 1
 */
LEVELSPRUCE_MUST_USE
uint8_t levelspruce_board_apply(uint8_t *board, size_t board_length,
                                const uint8_t *changes, size_t changes_length);

/*
 * Writes changes as lines, for speech and braille: one change a line, fields
 * parted by tabs, as 'slot 3 was NORM 2 now EOS 2' (spaces standing for tabs),
 * then 'wait open' or 'wait closed'. Where nothing has changed there is no
 * line. Each line has its end; no byte 0 is written.
 *
 *   changes   LEVELSPRUCE_CHANGES_BYTES bytes
 *   text      LEVELSPRUCE_SPEECH_BYTES bytes or more; the lines stand at its
 *             front, and the rest stays
 *   written   how many bytes the lines take
 *
 * Answers, the first that fits:
 *   9  changes_length is wrong, or text_length below LEVELSPRUCE_SPEECH_BYTES
 *   2  the changes fit no board at all, or have a word that no board shows
 *   0  the lines and written are written
 */
LEVELSPRUCE_MUST_USE
uint8_t levelspruce_board_speak(const uint8_t *changes, size_t changes_length,
                                uint8_t *text, size_t text_length,
                                size_t *written);

/*
 * The same in runs, for many slots: slots next to each other whose old and new
 * words are alike, and whose numbers rise by one with each slot or are alike,
 * are one line, as 'slots 1 to 62 was NORM 1 to 62 now NORM 0 to 61'. Numbers
 * that are alike are told once, and IDLE's 255 not at all, as 'slots 0 to 63
 * was IDLE now ADD 0 to 63'. Each run is as long as it can be. A slot by itself
 * is told as levelspruce_board_speak tells it.
 *
 * Its parameters and answers are those of levelspruce_board_speak.
 */
LEVELSPRUCE_MUST_USE
uint8_t levelspruce_board_speak_runs(const uint8_t *changes,
                                     size_t changes_length, uint8_t *text,
                                     size_t text_length, size_t *written);

/*
 * Writes a whole board as lines, in such runs, as 'slots 0 to 4 NORM 0 to 4',
 * 'slot 5 EOS 5', 'slots 6 to 63 IDLE'; then 'wait 0' or 'wait 1'.
 *
 *   board     LEVELSPRUCE_BOARD_BYTES bytes
 *   text      LEVELSPRUCE_SPEECH_BYTES bytes or more; the lines stand at its
 *             front, and the rest stays
 *   written   how many bytes the lines take
 *
 * Answers, the first that fits:
 *   9  board_length is wrong, or text_length below LEVELSPRUCE_SPEECH_BYTES
 *   2  the count is above 64, or a slot has a word that no board shows
 *   0  the lines and written are written
 */
LEVELSPRUCE_MUST_USE
uint8_t levelspruce_board_speak_whole(const uint8_t *board, size_t board_length,
                                      uint8_t *text, size_t text_length,
                                      size_t *written);

/*
 * The receiver. The host lends the calls
 * - the state: LEVELSPRUCE_RECEIVER_ROWS(ports) rows of sixteen bytes;
 * - the store: LEVELSPRUCE_STORE_BYTES(ports, payload, window) bytes, in which
 *   frames wait for those of slower ports.
 * The host keeps both between calls, from levelspruce_receiver_start to the
 * last fetch, and lends each call the bytes that the call before left; what
 * they mean is the library's own affair. They may be copied and lent from
 * another place. levelspruce_receiver_start writes all of the state; the store
 * may have any content then.
 *
 * Any bytes are coped with: a state that does not come from
 * levelspruce_receiver_start is answered like any other, and no call reads or
 * writes outside its buffers. A state with no row, or whose kind, count, P or W
 * is out of range, is that of an empty group: it has 0 ports, a store of 0
 * bytes and any number of rows, and none of its reports is ever due.
 *
 * The calls that only read the state take rows of const bytes. A strict C
 * compiler (before C23) wants a cast there:
 * (const uint8_t (*)[LEVELSPRUCE_ROW_BYTES])state.
 */

/* Ports and windows, in frames: of H4 and FIXED, and of VC-12. */
#define LEVELSPRUCE_PORTS_MOST 64
#define LEVELSPRUCE_WINDOW_LEAST 16
#define LEVELSPRUCE_WINDOW_MOST 2048
#define LEVELSPRUCE_WINDOW_LEAST_VC12 32
#define LEVELSPRUCE_WINDOW_MOST_VC12 512

/* The marks of a report. */
#define LEVELSPRUCE_MARK_NONE 0     /* none is due */
#define LEVELSPRUCE_MARK_HELD 1     /* held back whole: no bytes */
#define LEVELSPRUCE_MARK_DOUBTFUL 2 /* bytes, but some port has no whole ruling packet, or the numbers are not 0 to n - 1; never of a fixed group */
#define LEVELSPRUCE_MARK_SURE 3     /* the client's bytes */

/* The bytes of a report's record. COUNT is the first of four, highest first:
 * how many bytes of the output belong to the report. */
#define LEVELSPRUCE_REPORT_MARK 0
#define LEVELSPRUCE_REPORT_EPOCH 1
#define LEVELSPRUCE_REPORT_X 2
#define LEVELSPRUCE_REPORT_CAUSE 3
#define LEVELSPRUCE_REPORT_COUNT 4

/* The causes of a mark: which clause decided. Where several hold it is the
 * first, in this order; of a fixed group UNSEEN comes first, and GID and EOS
 * are never the cause. A report is held by REFUSED to EOS and doubtful by the
 * other two; one of a fixed group is held by any. */
#define LEVELSPRUCE_CAUSE_NONE 0     /* sure, or none is due */
#define LEVELSPRUCE_CAUSE_REFUSED 1  /* a whole ruling packet was refused */
#define LEVELSPRUCE_CAUSE_LACKING 2  /* an active port lacks a frame */
#define LEVELSPRUCE_CAUSE_REPEATED 3 /* active and DNU ports share a number */
#define LEVELSPRUCE_CAUSE_GID 4      /* GID differs among ports not IDLE */
#define LEVELSPRUCE_CAUSE_EOS 5      /* EOS is not on the highest active alone */
#define LEVELSPRUCE_CAUSE_UNSEEN 6   /* a port has no whole ruling packet */
#define LEVELSPRUCE_CAUSE_NUMBERS 7  /* the numbers are not 0 to n - 1 */

/* The bytes of what levelspruce_receiver_cause says: one of these causes, and
 * the lowest port to which it applies. */
#define LEVELSPRUCE_CAUSE_CLAUSE 0
#define LEVELSPRUCE_CAUSE_PORT 1
#define LEVELSPRUCE_CAUSE_NO_PORT 255 /* NONE, or NUMBERS: no one port's */

/* Member states of a port, worked out at each report. */
#define LEVELSPRUCE_PORT_IDLE 0
#define LEVELSPRUCE_PORT_FAIL 1
#define LEVELSPRUCE_PORT_OK 2

/* The bytes of what is shown of a port. A state byte that is none of IDLE, FAIL
 * and OK is shown as it is. It is there only in a state that has bytes which no
 * call returned. */
#define LEVELSPRUCE_PORT_STATE 0    /* at the last report; IDLE before the first */
#define LEVELSPRUCE_PORT_NUMBER 1   /* with that state; where it is IDLE LEVELSPRUCE_NUMBER_IDLE, of VC-12 LEVELSPRUCE_NUMBER_IDLE_VC12 */
#define LEVELSPRUCE_PORT_STEP 2     /* 1 while in step */
#define LEVELSPRUCE_PORT_JOINED 3   /* 1 while joined */
#define LEVELSPRUCE_PORT_READABLE 4 /* 1 while readable */
#define LEVELSPRUCE_PORT_FAILED 5   /* 1 where the latest frame came flagged */
#define LEVELSPRUCE_PORT_WORD 6     /* of the last good packet, 0 (FIXED) in a fixed group; 255 where there was none */
#define LEVELSPRUCE_PORT_WAITING 7  /* which timer runs, never both */

/* Which timer of a port runs. */
#define LEVELSPRUCE_WAITING_NONE 0
#define LEVELSPRUCE_WAITING_HOLD_OFF 1 /* OK without its claim; FAIL when the hold-off is over */
#define LEVELSPRUCE_WAITING_RESTORE 2  /* FAIL with its claim; OK when the wait-to-restore is over */

/* The greatest count of a timer, in epochs. */
#define LEVELSPRUCE_TIMER_MOST 5000

/* The bytes of a reply. */
#define LEVELSPRUCE_REPLY_MST 0
#define LEVELSPRUCE_REPLY_RS_ACK 1

/* The bytes of what is seen of a port: the packet that rules the oldest epoch
 * not yet reported, which is that of the epoch before. Where it is not whole,
 * all but HERE are 0; where its answer is not 0, EPOCH to RS_ACK are 0. Of a
 * fixed group GID, MST and RS_ACK are 0. */
#define LEVELSPRUCE_SEEN_WHOLE 0  /* 1 where all frames of the packet came */
#define LEVELSPRUCE_SEEN_ANSWER 1 /* 0, 5, 6 or 7, as of reading a packet of its kind */
#define LEVELSPRUCE_SEEN_OTHER 2  /* 1 where it carries another MFI2 than the receiver's own count; the packet is then judged as one with 5; 0 of VC-12, whose step rule has the count */
#define LEVELSPRUCE_SEEN_EPOCH 3  /* the epoch that it carries */
#define LEVELSPRUCE_SEEN_WORD 4
#define LEVELSPRUCE_SEEN_NUMBER 5
#define LEVELSPRUCE_SEEN_GID 6
#define LEVELSPRUCE_SEEN_MST 7
#define LEVELSPRUCE_SEEN_RS_ACK 8
#define LEVELSPRUCE_SEEN_HERE 9   /* 1 where the port's frames of the oldest epoch are all here */

/* The bytes of what is heard. */
#define LEVELSPRUCE_HEARD_SAID 0 /* 1, or 0 where no packet is whole and good; the others are 0 then */
#define LEVELSPRUCE_HEARD_EPOCH 1
#define LEVELSPRUCE_HEARD_MST 2
#define LEVELSPRUCE_HEARD_RS_ACK 3

/* What stands for a port that is not in step, among frames behind. */
#define LEVELSPRUCE_BEHIND_NONE 65535

/* A receiver's settings, by their places; all 0 of an empty group. */
#define LEVELSPRUCE_SETTING_KIND 0
#define LEVELSPRUCE_SETTING_PORTS 1
#define LEVELSPRUCE_SETTING_PAYLOAD 2
#define LEVELSPRUCE_SETTING_WINDOW 3

/*
 * Starts a receiver of H4: no port has had a frame, all are IDLE, RS-Ack is 0.
 *
 *   ports         1 to 64
 *   payload       P, bytes of a member frame, 1 to 2340
 *   window        W, frames, 16 to 2048: delays may differ by W - 16 frames
 *   store_bytes   the length of the store that will be lent
 *   state         LEVELSPRUCE_RECEIVER_ROWS(ports) rows, of any content
 *
 * Answers, the first that fits:
 *   4  ports, payload or window is out of range; the first row of state, if it
 *      has one, is written with an empty group, in which every port is
 *      answered 1
 *   9  state_length or store_bytes is wrong
 *   0  all of state is written
 */
LEVELSPRUCE_MUST_USE
uint8_t levelspruce_receiver_start(uint32_t ports, uint32_t payload,
                                   uint32_t window, size_t store_bytes,
                                   uint8_t (*state)[LEVELSPRUCE_ROW_BYTES],
                                   size_t state_length);

/*
 * Starts a receiver of a kind of packets, with a hold-off and a wait-to-restore
 * for each port, in reports, that is, in epochs while receiving goes on.
 *
 * A port that is OK and loses its claim (it is not readable, or another port
 * has its number) stays OK under the number it has, against others, at as many
 * reports as its hold-off says, and is FAIL at the next; a port that is FAIL
 * and has its claim stays FAIL at as many as its wait-to-restore says, and is
 * OK at the next. A port whose packets say IDLE is IDLE at once. With 0 and 0
 * this is levelspruce_receiver_start, which is this call with
 * LEVELSPRUCE_KIND_H4 and two empty lists. Give all ports of a group the same
 * times: a kept number can make a healthy port FAIL that is renumbered into it
 * and has no hold-off. To change the times, start anew.
 *
 * A receiver of LEVELSPRUCE_KIND_FIXED is for a far end without LCAS, whose
 * packets levelspruce_packet_read_fixed reads. All ports carry payload, always:
 * a report is sure where every port has a whole packet of the epoch before that
 * was read well and has that epoch's number, has brought its frames, and the
 * ports' numbers are 0 to ports - 1, each once. Else it is held, so one port
 * that is dark holds all reports. None is doubtful. Nothing detects a damaged
 * number but that it does not fit the others. There is no reply:
 * levelspruce_receiver_reply gives 0 and 0. Frames, windows and member states
 * are as with LCAS, but that two packets in a row with another MFI2 than the
 * receiver's count lose step whatever their CRC.
 *
 * A receiver of LEVELSPRUCE_KIND_VC12 is handed frames of VC-12, a bit of K4
 * each. Its P is 136 and its W 32 to 512: delays may differ by W - 32 frames.
 * Its epochs are 32 frames and 0 to 31, and two changed bits of a packet can
 * pass its CRC, so sure is as good as the line.
 *
 *   kind          LEVELSPRUCE_KIND_H4, _VC12 or _FIXED
 *   ports, store_bytes, state
 *                 as for levelspruce_receiver_start
 *   payload       1 to 2340, of VC-12 136
 *   window        16 to 2048, of VC-12 32 to 512
 *   hold_off      a count for each port, 0 to LEVELSPRUCE_TIMER_MOST; an empty
 *                 list is 0 for every port
 *   restore       the same for wait-to-restore
 *
 * Answers, the first that fits:
 *   4  kind is no such, ports, payload or window is out of range, or a count
 *      is above LEVELSPRUCE_TIMER_MOST, wherever in its list; the first row of
 *      state, if it has one, is written with an empty group
 *   9  state_length or store_bytes is wrong, or a list is neither empty nor as
 *      long as there are ports
 *   0  all of state is written
 */
LEVELSPRUCE_MUST_USE
uint8_t levelspruce_receiver_start_as(uint32_t kind, uint32_t ports, uint32_t payload,
                                      uint32_t window, size_t store_bytes,
                                      const uint32_t *hold_off, size_t hold_off_length,
                                      const uint32_t *restore, size_t restore_length,
                                      uint8_t (*state)[LEVELSPRUCE_ROW_BYTES],
                                      size_t state_length);

/*
 * Takes a frame of a port. Hand over each frame of each port once, in the
 * order in which that port got them; fetch reports after each frame until none
 * is due, or at an even pace. (Each report fetched moves the window on. A host
 * that fetches at once moves with the slowest port that is readable, and a
 * slower one that failed comes back behind the window and cannot join.)
 *
 *   port      the port, below the group's count
 *   failed    not 0 where the line has failed (a flagged frame): neither its
 *             byte h4, with what it says of a start, nor its payload is looked
 *             at, but P bytes must be there
 *   h4        its H4 byte; of VC-12 its bit of K4 in the lowest place, and
 *             LEVELSPRUCE_VC12_START more where the host says that a packet
 *             starts with this frame, other bits not being looked at
 *   payload   its P bytes
 *   store     the store
 *
 * Answers, the first that fits:
 *   1  port is not below the group's count
 *   9  state_length, payload_length or store_length is wrong
 *  10  the frame is flagged: the port is unreadable, and its step is lost
 *  12  the port is not in step after this frame: its count of frames goes on
 *      or starts anew. Of H4 and FIXED a port in step counts by itself and
 *      takes up to three frames in a row that break the count of MFI1 and MFI2;
 *      the fourth is 12, and so is the end of a second packet in a row with a
 *      right CRC (of a fixed group with any) and another MFI2 than that
 *      count's. Of VC-12 a port comes into step with two whole packets in a
 *      row, each start said where it is due, whose counts differ by one, 0
 *      after 31. It loses step at the fifth bit of a count that is not the next
 *      one, and that packet is the first of a new two; and at a start said
 *      early or left out. A frame said to be a start is always a first bit.
 *      Hand one flagged frame at every known switch of a path: until step is
 *      lost, frames of the new path are taken under the tags of the old one
 *  11  the frame is in step, but lies outside the window, and the port has
 *      joined: nothing changes; hand the same frame again after a report
 *   0  taken: its payload and its byte h4 are stored, or dropped where the port
 *      has not joined yet
 *
 * Under 10 and 12 no byte of store changes, but state does. What follows from a
 * frame by the rules of beginning is done in the same call, whether the answer
 * is 0, 10 or 12: receiving stops where no port is readable any more, it begins
 * (anew), and the epoch before the first reported one is gathered. Epochs that
 * were not fetched before receiving stops are lost.
 */
LEVELSPRUCE_MUST_USE
uint8_t levelspruce_receiver_frame(uint8_t (*state)[LEVELSPRUCE_ROW_BYTES],
                                   size_t state_length,
                                   uint32_t port, uint32_t failed, uint8_t h4,
                                   const uint8_t *payload,
                                   size_t payload_length, uint8_t *store,
                                   size_t store_length);

/*
 * Fetches the next report, if one is due. From a beginning until receiving
 * stops each report is given once, in the order of epochs.
 *
 *   store    the store, which is only read
 *   out      at least LEVELSPRUCE_OUTPUT_BYTES(ports, payload) bytes, of VC-12
 *            LEVELSPRUCE_OUTPUT_BYTES_VC12(ports)
 *   report   LEVELSPRUCE_REPORT_BYTES bytes, by the LEVELSPRUCE_REPORT_ places
 *
 * Answers, the first that fits:
 *   9  state_length, store_length or report_length is wrong, or out_length is
 *      too small, also where no report is due
 *   0  all of report is written
 *
 * Under 0, by the mark of the report:
 *   NONE       none is due: the other bytes of report are 0, and neither state
 *              nor out changes
 *   HELD       X and the count are 0, and no byte of out changes; the window
 *              moves on, and member states and RS-Ack are worked out. The
 *              cause says why, by the LEVELSPRUCE_CAUSE_ numbers
 *   DOUBTFUL   the first 16 * X * P bytes of out are sixteen group frames of
 *              X * P bytes, of VC-12 the first 32 * X * P are 32 of them, and
 *              the rest of out stays; for state and cause as HELD
 *   SURE       as DOUBTFUL, with no cause
 */
LEVELSPRUCE_MUST_USE
uint8_t levelspruce_receiver_fetch(uint8_t (*state)[LEVELSPRUCE_ROW_BYTES],
                                   size_t state_length,
                                   const uint8_t *store, size_t store_length,
                                   uint8_t *out, size_t out_length,
                                   uint8_t *report, size_t report_length);

/*
 * Reads all ports at once, from one state: eight bytes of each.
 *
 *   ports   as many as the group has, each LEVELSPRUCE_PORT_BYTES bytes by the
 *           LEVELSPRUCE_PORT_ places; ports_length counts ports
 *
 * Answers, the first that fits:
 *   9  state_length is wrong, or ports_length is not the group's count
 *   0  all of ports is written
 */
LEVELSPRUCE_MUST_USE
uint8_t levelspruce_receiver_ports(const uint8_t (*state)[LEVELSPRUCE_ROW_BYTES],
                                   size_t state_length,
                                   uint8_t (*ports)[LEVELSPRUCE_PORT_BYTES],
                                   size_t ports_length);

/*
 * Reads the reply to send back with the packets of an epoch: MST for the
 * numbers 8 * (epoch % 32) to that plus 7, of VC-12 8 * (epoch % 8) to that
 * plus 7, the lowest number in the highest bit, 0 for OK and 1 for FAIL; and
 * RS-Ack, 0 or 1. Both are as the last report left them. Of a fixed group both
 * are 0 in every epoch, which is what an end without LCAS sends back.
 *
 *   epoch   the epoch of the packets that will carry it
 *   reply   LEVELSPRUCE_REPLY_BYTES bytes, by the LEVELSPRUCE_REPLY_ places
 *
 * Answers, the first that fits:
 *   9  state_length or reply_length is wrong
 *   0  both bytes are written
 */
LEVELSPRUCE_MUST_USE
uint8_t levelspruce_receiver_reply(const uint8_t (*state)[LEVELSPRUCE_ROW_BYTES],
                                   size_t state_length, uint8_t epoch,
                                   uint8_t *reply, size_t reply_length);

/*
 * Reads what the receiver saw: of every port the packet that rules the oldest
 * epoch not yet reported. It is what a fetch judges that epoch by. Read before
 * a fetch it says what the report will go by; read after a report it is the
 * packets of the epoch just reported.
 *
 *   seen   as many as the group has ports, each LEVELSPRUCE_SEEN_BYTES bytes by
 *          the LEVELSPRUCE_SEEN_ places; seen_length counts ports
 *
 * Answers, the first that fits:
 *   9  state_length is wrong, or seen_length is not the group's count
 *   0  all of seen is written
 */
LEVELSPRUCE_MUST_USE
uint8_t levelspruce_receiver_seen(const uint8_t (*state)[LEVELSPRUCE_ROW_BYTES],
                                  size_t state_length,
                                  uint8_t (*seen)[LEVELSPRUCE_SEEN_BYTES],
                                  size_t seen_length);

/*
 * Reads why the oldest epoch not yet reported would be held or doubtful, and
 * which port is to blame. Read before a fetch: the cause is that of the report
 * which the fetch gives, and after it the packets have moved on. The port is
 * the lowest that was refused (REFUSED), that lacks a frame (LACKING), whose
 * number a lower one has already (REPEATED), whose GID is not a lower one's
 * (GID), that has EOS and is not the highest or is the highest and has none
 * (EOS), or that has no whole packet (UNSEEN). Where no report is due the
 * cause says what is not yet there, and is no report's.
 *
 *   cause   LEVELSPRUCE_CAUSE_BYTES bytes: at LEVELSPRUCE_CAUSE_CLAUSE one of
 *           the causes NONE to NUMBERS, at LEVELSPRUCE_CAUSE_PORT the port, or
 *           LEVELSPRUCE_CAUSE_NO_PORT
 *
 * Answers, the first that fits:
 *   9  state_length or cause_length is wrong
 *   0  both bytes are written
 */
LEVELSPRUCE_MUST_USE
uint8_t levelspruce_receiver_cause(const uint8_t (*state)[LEVELSPRUCE_ROW_BYTES],
                                   size_t state_length,
                                   uint8_t *cause, size_t cause_length);

/*
 * Reads the way back: what the far end says in the epoch before the oldest one
 * not yet reported. Read after each fetch that gave a report it is 1 and the
 * epoch just reported, its MST and its RS-Ack, from the lowest port whose
 * packet came whole and good; or four zeros where there is none. Hand it to
 * levelspruce_sender_report, or levelspruce_card_report, of the sender that
 * sends the other way. From a beginning until receiving stops, reports come
 * once and in order, so an RS-Ack from before a turn does not come after it.
 * Where receiving begins anew on slower lines alone, epochs can come once more,
 * with the RS-Ack of then. Of VC-12 the epoch is 0 to 31, and MST speaks of the
 * numbers 8 * (epoch % 8) to that plus 7. Of a fixed group MST and RS-Ack are 0
 * and say nothing: hand nothing on.
 *
 *   heard   LEVELSPRUCE_HEARD_BYTES bytes, by the LEVELSPRUCE_HEARD_ places
 *
 * Answers, the first that fits:
 *   9  state_length or heard_length is wrong
 *   0  all of heard is written
 */
LEVELSPRUCE_MUST_USE
uint8_t levelspruce_receiver_heard(const uint8_t (*state)[LEVELSPRUCE_ROW_BYTES],
                                   size_t state_length,
                                   uint8_t *heard, size_t heard_length);

/*
 * Reads how many frames each port in step lies behind the foremost one now, 0
 * to 4095, of VC-12 to 1023; LEVELSPRUCE_BEHIND_NONE of a port that is not in
 * step. Where every port has had a frame and is in step or flagged failed, one
 * is in step, and none lies more than window - 16 behind, of VC-12 window - 32,
 * receiving has begun. Between the frames of one frame time a port that has
 * not had its own is a frame further behind.
 *
 *   behind   a number for each port; behind_length counts them
 *
 * Answers, the first that fits:
 *   9  state_length is wrong, or behind_length is not the group's count
 *   0  all of behind is written
 */
LEVELSPRUCE_MUST_USE
uint8_t levelspruce_receiver_behind(const uint8_t (*state)[LEVELSPRUCE_ROW_BYTES],
                                    size_t state_length,
                                    uint32_t *behind, size_t behind_length);

/*
 * Begins receiving anew: the state is as after one frame flagged failed on
 * every port, in port order. Receiving stops, unreported epochs are dropped,
 * every port is out of step; member states and RS-Ack stay. The store is read
 * and not changed.
 *
 * Answers, the first that fits:
 *   9  state_length or store_length is wrong
 *   0  done
 */
LEVELSPRUCE_MUST_USE
uint8_t levelspruce_receiver_anew(uint8_t (*state)[LEVELSPRUCE_ROW_BYTES],
                                  size_t state_length,
                                  const uint8_t *store, size_t store_length);

/*
 * Reads what the receiver was started with.
 *
 *   settings   LEVELSPRUCE_SETTINGS numbers, by the LEVELSPRUCE_SETTING_ places
 *
 * Answers, the first that fits:
 *   9  state_length or settings_length is wrong
 *   0  all of settings is written
 */
LEVELSPRUCE_MUST_USE
uint8_t levelspruce_receiver_settings(const uint8_t (*state)[LEVELSPRUCE_ROW_BYTES],
                                      size_t state_length,
                                      uint32_t *settings, size_t settings_length);

/*
 * Which paths to join. Candidates are numbered as they are handed over, from 0,
 * each with its measured delay in frames. Delays count plainly, never round
 * 4096. A group whose delays lie at most window - 16 apart is joined by a
 * receiver with that window. For VC-12 hand over the receiver's window less 16:
 * delays then lie at most that window less 32 apart.
 */

/* Candidates, and the greatest delay. */
#define LEVELSPRUCE_PATHS_MOST 64
#define LEVELSPRUCE_DELAY_MOST 4095

/* The bytes of a plan: k, or 0 where there is no such set; then the chosen
 * candidates' numbers, rising, and LEVELSPRUCE_PATH_NONE for the rest. */
#define LEVELSPRUCE_PLAN_COUNT 0
#define LEVELSPRUCE_PLAN_EACH 1
#define LEVELSPRUCE_PATH_NONE 255

/*
 * Proposes k candidates no two of which differ in delay by more than
 * window - 16. Of several such sets it is the tightest, of several tightest the
 * one with the least delays, and of equal delays the lower numbers. It says
 * none exactly if there is no such set.
 *
 *   delays   a delay for each candidate, 0 to 4095; 1 to 64 candidates
 *   k        how many to join, 1 to the number of candidates
 *   window   the receiver's window in frames, of VC-12 less 16; 16 to 2048
 *   plan     LEVELSPRUCE_PLAN_BYTES bytes, by the LEVELSPRUCE_PLAN_ places
 *
 * Answers, the first that fits:
 *   4  delays_length, k, window or a delay is out of range
 *   9  plan_length is not 65
 *   0  all of plan is written
 */
LEVELSPRUCE_MUST_USE
uint8_t levelspruce_paths_plan(const uint32_t *delays, size_t delays_length,
                               uint32_t k, uint32_t window,
                               uint8_t *plan, size_t plan_length);

/*
 * Checks a set of candidates, whoever proposed it: it is accepted exactly if
 * it names k different candidates no two of which differ in delay by more than
 * window - 16.
 *
 *   delays, k, window   as for levelspruce_paths_plan
 *   set                 a candidate's number in each byte, in any order; any
 *                       length and any bytes
 *   accepted            one byte: 1 where the set is accepted, or 0
 *
 * Answers, the first that fits:
 *   4  delays_length, k, window or a delay is out of range
 *   9  accepted_length is not 1
 *   0  accepted is written
 */
LEVELSPRUCE_MUST_USE
uint8_t levelspruce_paths_check(const uint32_t *delays, size_t delays_length,
                                uint32_t k, uint32_t window,
                                const uint8_t *set, size_t set_length,
                                uint8_t *accepted, size_t accepted_length);

/*
 * A torn recording: a recorder that lost power, or a transfer that stopped, has
 * left lines that nobody wrote. The manual, 'At the desk', has the form of a
 * recording. Mending copies it without the lines that are malformed, and
 * follows the second digit of H4 in the lines of each port, from the first: one
 * to three lines that break the count, before one that is good again, get their
 * digit restored, as a capital. With four, or at the end, the port is followed
 * afresh from the first of them, and by it another can be restored. Lines of
 * VC-12 have no such count, and nothing is restored in them. Nothing else is
 * altered, and frames that were lost stay lost. What comes out, mended again,
 * is the same, without notes.
 *
 * For each line that was dropped or altered there is a note, a line of four
 * fields parted by tabs: the number of the line in the recording, whose first
 * line is 1; the field, 'H4' or 'line'; its old text; its new text, which of a
 * dropped line is empty. A dropped line may hold tabs: its old text is what
 * stands between the second tab and the last.
 */

/*
 * How many bytes the mended recording and its notes have.
 *
 *   recording       the whole recording, of any length and any bytes
 *   mended_length   the bytes of the mended recording
 *   notes_length    the bytes of its notes; of more than a size_t holds, its
 *                   largest number, with which levelspruce_mend answers 9
 *
 * mended_length and notes_length are two numbers apart, and neither is NULL.
 * Under 13 and 4 both stay as they were.
 *
 * Answers, the first that fits:
 *   13  the first line cannot be read, or there is none
 *   4   the first line's settings are out of range
 *   0   mended_length and notes_length are written
 */
LEVELSPRUCE_MUST_USE
uint8_t levelspruce_mend_lengths(const uint8_t *recording,
                                 size_t recording_length,
                                 size_t *mended_length, size_t *notes_length);

/*
 * Mends a recording.
 *
 *   recording   the whole recording, of any length and any bytes
 *   mended      as many bytes as levelspruce_mend_lengths says
 *   notes       as many bytes as it says
 *
 * Answers, the first that fits:
 *   13  the first line cannot be read, or there is none
 *   4   the first line's settings are out of range
 *   9   mended_length or notes_length is another than the one told
 *   0   all of mended and of notes is written
 */
LEVELSPRUCE_MUST_USE
uint8_t levelspruce_mend(const uint8_t *recording, size_t recording_length,
                         uint8_t *mended, size_t mended_length,
                         uint8_t *notes, size_t notes_length);

/*
 * A recording run again at a desk, of a group of any size. The manual, 'At the
 * desk', has the form of a recording and of what is printed of it: each report
 * and each change of a port's state, in the order in which they arise, and of
 * each line that is refused its number. levelspruce_replay_lengths says what to
 * lend, levelspruce_replay_begin begins, and then each levelspruce_replay_turn
 * reads one line or fetches one report.
 */

/*
 * How much store and output the first line of a recording asks for.
 *
 *   recording      the recording from its first byte on: as far as its first
 *                  line at least, or 8193 bytes of it
 *   store_length   the bytes of the receiver's store
 *   out_length     the bytes of an epoch's output
 *
 * store_length and out_length are two numbers apart, and neither is NULL. Under
 * 13 and 4 both stay as they were. A group starts with a store as long as is
 * told or longer, and with no shorter one.
 *
 * Answers, the first that fits:
 *   13  the first line cannot be read, or there is none
 *   4   the first line's settings are out of range
 *   0   store_length and out_length are written
 */
LEVELSPRUCE_MUST_USE
uint8_t levelspruce_replay_lengths(const uint8_t *recording,
                                   size_t recording_length,
                                   size_t *store_length, size_t *out_length);

/*
 * Begins a replay: its first line is to come.
 *
 *   state   LEVELSPRUCE_REPLAY_BYTES bytes
 *
 * Answers, the first that fits:
 *   9  state_length is not 17
 *   0  all of state is written
 */
LEVELSPRUCE_MUST_USE
uint8_t levelspruce_replay_begin(uint8_t *state, size_t state_length);

/*
 * One turn of a replay: it reads a line of the text from a place on, or fetches
 * a report. Call until wants is 1; then lend more of the recording, what is
 * left of the text before it, and call again. However a recording is cut into
 * texts, the same is printed.
 *
 *   state     as levelspruce_replay_begin or the last turn left it
 *   text      a part of the recording
 *   at        how far the text has been read: 0 at first. The turn reads from
 *             there and moves it on, never behind the text's end. It is not
 *             NULL, and so are written and wants not
 *   last      not 0 where nothing follows the text: its last line may lack its
 *             end. So a part ends that is a file of its own
 *   rows      the receiver's state: LEVELSPRUCE_RECEIVER_ROWS(64) rows, whose
 *             first are the group's own
 *   store     at least as many bytes as levelspruce_replay_lengths says
 *   out       at least as many bytes as it says
 *   said      at least LEVELSPRUCE_REPLAY_ROOM bytes, into whose first the turn
 *             writes the lines that it prints
 *   written   how many bytes of said it has written
 *   wants     1 where nothing more can be done without more text, or 0
 *
 * Lend rows and store as the last turn left them. Whatever stood in them before
 * the first line, the same is printed: a group that starts clears them.
 *
 * A report that is held or doubtful says why behind its line's number: 'cause',
 * the words of levelspruce_cause_text, and where it is one port's 'port' and the
 * lowest, as levelspruce_receiver_cause would have said before the fetch.
 *
 * A refused line is no refusal of the call: 'answer', the number, 'line' and the
 * line's number are printed. 13 is a malformed line; of the first line the
 * replay ends there, as it does with 4, settings out of range or a store that
 * is shorter than they ask for. A replay that has ended swallows the text.
 *
 * Answers:
 *   9  state_length is not 17, at lies behind the text's end, or rows, store,
 *      out or said is shorter than the turn asks for
 *   0  done; at, written and wants are written
 */
LEVELSPRUCE_MUST_USE
uint8_t levelspruce_replay_turn(uint8_t *state, size_t state_length,
                                const uint8_t *text, size_t text_length,
                                size_t *at, uint32_t last,
                                uint8_t (*rows)[LEVELSPRUCE_ROW_BYTES],
                                size_t rows_length,
                                uint8_t *store, size_t store_length,
                                uint8_t *out, size_t out_length,
                                uint8_t *said, size_t said_length,
                                size_t *written, uint8_t *wants);

#ifdef __cplusplus
}
#endif

#endif
