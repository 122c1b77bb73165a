/* The C interface of the proved replica: each call on pointers and lengths, each answer as one number.
 *
 * A book is 576 + 880 * H bytes that you own and keep (H heights, 1 to 1000). Lend it to every call; nothing else is
 * remembered between calls, nothing is allocated, and no call keeps a pointer. So threads may call at the same time, as
 * long as each has a book and buffers of its own. An observer, which follows the register without a vote, has a book of
 * 64 + 184 * H bytes and calls of its own, mavunilai_observer_..; neither's calls take the other's book. Their lengths
 * do not tell the two apart (22 heights of a station, 108 of an observer: 19936 bytes), the calls do.
 *
 * Each station has a weight, 1 to 1000, which is fixed when a book is opened and must be the same in the books of all
 * stations and observers of a season. Stations are a quorum if they weigh two thirds of all or more, and the register
 * is safe while the dishonest ones weigh less than a third.
 *
 * A new book is of edition 3. Books of editions 1 and 2, kept from before, have 63 heights at most; they work on and
 * stay of their edition. One of edition 1, from before there were weights, is read as one in which all weights are 1.
 * Heights in frames and pages have two bytes whatever the edition of a book is.
 *
 * What you owe for each pointer and the length behind it, and nothing checks:
 *   - So many bytes are there, readable, and writable too where the pointer is not const. No alignment is needed.
 *   - Nobody else writes them during the call, and bytes that the call may write overlap with no others lent to it.
 * With a length of 0 nothing is read or written through the pointer, so it may be null, as that of an empty vector is.
 * One pointer has no length behind it, that of the counts of a packet: it points to a mavunilai_counts, aligned as its
 * type is, and is never null.
 * All else is checked: bytes, lengths and numbers may have any value. Bytes behind a const pointer never change.
 *
 * This header is for C99 or later and for C++. The library is for x86-64 Linux, where size_t and uint64_t are the same,
 * and needs nothing but memset. The stack that a call needs grows with the book; docs/PARTNERS.md says how much it is
 * at 1000 heights. Before its first call a program asks mavunilai_fits() whether library and header are of one
 * interface.
 *
 * Every packed answer's lowest byte is the number of a refusal, 0 if the call was not refused; MAVUNILAI_REFUSED_..
 * below names them. A refused call leaves every byte of every buffer as it was, and its answer is that number alone.
 * Bytes of a reply or buffer past what a call writes keep their values. A call that is refused for several reasons
 * answers the first in the order given with it. What stands above the lowest byte is told at each call; where nothing
 * is told it is 0.
 *
 * The packing is defined in crates/packing/specs/Packing.antt, and the contracts in crates/replica_c/src/lib.rt say
 * that each call returns the packed answer of its definition, after documents 01 and 02, and leaves its bytes;
 * docs/GUIDE.md leads there. That the functions below which take an answer apart give back what was packed is proved of
 * their counterparts in Unpacking.antt beside it; names and bodies of this file itself are not proved, the host's tests
 * hold them to the library and to the host's types.
 */
#ifndef MAVUNILAI_H
#define MAVUNILAI_H

#include <stddef.h>
#include <stdint.h>

#ifdef __cplusplus
extern "C" {
#endif

/* Before a function whose answer must be looked at: the compiler warns where one is dropped. Who has no use for an
 * answer says so by mavunilai_disregard. */
#if (defined(__cplusplus) && __cplusplus >= 201703L) || (defined(__STDC_VERSION__) && __STDC_VERSION__ >= 202311L)
#define MAVUNILAI_LOOK [[nodiscard]]
#elif defined(__GNUC__)
#define MAVUNILAI_LOOK __attribute__((warn_unused_result))
#else
#define MAVUNILAI_LOOK
#endif

/* The number of the interface that this header declares. It goes up with each call that is added, with each change to
 * a call's arguments or to the set of its answers, and where a replica would read another register from the same book:
 * so with 4, where an entry that its chain repeats is read once; with 5 there is mavunilai_digest; with 6 both opening
 * calls take the stations' weights; with 7 there are 1000 heights, in answers, frames, pages and books of edition 3. A
 * change of another rule by which a call chooses another of the answers that it had leaves the number as it is: a
 * program that was built before still fits. */
#define MAVUNILAI_INTERFACE 7u

/* The number of the interface that the library has. */
MAVUNILAI_LOOK uint64_t mavunilai_interface(void);

/* 1 if library and header are of one interface, else 0: then make no other call. */
MAVUNILAI_LOOK static inline int mavunilai_fits(void) {
    return mavunilai_interface() == MAVUNILAI_INTERFACE;
}

/* ---- Lengths in bytes ---- */

#define MAVUNILAI_BOOK(heights) (576u + 880u * (size_t)(heights))
#define MAVUNILAI_OBSERVER_BOOK(heights) (64u + 184u * (size_t)(heights))
#define MAVUNILAI_WEIGHTS(stations) (2u * (size_t)(stations)) /* what both opening calls are lent as weights */
#define MAVUNILAI_FRAME 224u
#define MAVUNILAI_PAGE 176u
#define MAVUNILAI_ENTRY 16u
#define MAVUNILAI_DIGEST 32u
#define MAVUNILAI_MOVE_REPLY 448u
#define MAVUNILAI_FETCH_REPLY 224u

/* ---- The most there can be ---- */

#define MAVUNILAI_MOST_STATIONS 16u
#define MAVUNILAI_MOST_WEIGHT 1000u    /* of one station; the least is 1 */
#define MAVUNILAI_MOST_HEIGHTS 1000u
#define MAVUNILAI_MOST_SHORT_HEIGHTS 63u /* of a book of edition 1 or 2 */
#define MAVUNILAI_MOST_PENDING 32u     /* entries */
#define MAVUNILAI_MOST_PAGE_ENTRIES 8u /* entries of one page */
#define MAVUNILAI_MOST_REGISTER 128000u /* bytes: 1000 pages of 8 entries of 16, none of which repeats another */
#define MAVUNILAI_MOST_BOOK 880576u     /* bytes: MAVUNILAI_BOOK(1000) */
#define MAVUNILAI_MOST_OBSERVER_BOOK 184064u /* bytes: MAVUNILAI_OBSERVER_BOOK(1000) */

#define MAVUNILAI_NO_STATION 255u /* what stands for a station where there is none; a station's number is below 16 */

/* ---- Refusals ---- */

#define MAVUNILAI_REFUSED_UNSOUND 1u          /* the book is not sound (open: its length does not fit H) */
#define MAVUNILAI_REFUSED_OUT_OF_RANGE 2u     /* n, own number, H, a weight, a leader or how many there are of these */
#define MAVUNILAI_REFUSED_SHORT_REPLY 3u      /* the reply is too short */
#define MAVUNILAI_REFUSED_MALFORMED 4u        /* frame, kind to fetch or entry not of the required form */
#define MAVUNILAI_REFUSED_NO_SUCH_SIGNER 5u   /* signer or mask bit not below n */
#define MAVUNILAI_REFUSED_NO_SUCH_HEIGHT 6u   /* height 0 or above H */
#define MAVUNILAI_REFUSED_NOT_LEADER 7u       /* the proposer does not lead the height */
#define MAVUNILAI_REFUSED_OTHER_KEPT 8u       /* another page vote is kept, or another proposal, not at height c */
#define MAVUNILAI_REFUSED_NO_QUORUM 9u        /* the certificate's mask is no quorum */
#define MAVUNILAI_REFUSED_OTHER_NOTARISED 10u /* another page is notarised */
#define MAVUNILAI_REFUSED_NO_CERTIFICATE 11u  /* no such certificate in the book */
#define MAVUNILAI_REFUSED_PENDING_FULL 12u    /* 32 entries are pending, none in the register */
#define MAVUNILAI_REFUSED_ENTRY_KNOWN 13u     /* the entry is pending or in the register */
#define MAVUNILAI_REFUSED_NOT_DUE 14u         /* signal not for the current height, or its timer fired before */
#define MAVUNILAI_REFUSED_UNEVEN_PACKET 15u   /* the packet's length is not a multiple of 224 */
#define MAVUNILAI_REFUSED_NOT_A_CERTIFICATE 16u /* an observer was given a frame of kinds 1 to 4 */

/* What a refusal means, for people: one sentence without the full stop. */
static inline const char *mavunilai_refusal_text(unsigned refusal) {
    switch (refusal) {
    case 0: return "not refused";
    case MAVUNILAI_REFUSED_UNSOUND: return "the book is not sound, or its length does not fit the number of heights";
    case MAVUNILAI_REFUSED_OUT_OF_RANGE:
        return "n, own number, number of heights, a weight or a leader is out of range";
    case MAVUNILAI_REFUSED_SHORT_REPLY: return "the reply buffer is too short";
    case MAVUNILAI_REFUSED_MALFORMED: return "the frame, entry or kind does not have the required form";
    case MAVUNILAI_REFUSED_NO_SUCH_SIGNER: return "a signer or a bit of the mask names no station";
    case MAVUNILAI_REFUSED_NO_SUCH_HEIGHT: return "the height is 0 or above the last one";
    case MAVUNILAI_REFUSED_NOT_LEADER: return "the proposer does not lead that height";
    case MAVUNILAI_REFUSED_OTHER_KEPT: return "another proposal or vote is kept already";
    case MAVUNILAI_REFUSED_NO_QUORUM: return "the certificate's signers are no quorum";
    case MAVUNILAI_REFUSED_OTHER_NOTARISED: return "another page is notarised at that height";
    case MAVUNILAI_REFUSED_NO_CERTIFICATE: return "the book holds no such certificate";
    case MAVUNILAI_REFUSED_PENDING_FULL: return "all 32 pending places are taken";
    case MAVUNILAI_REFUSED_ENTRY_KNOWN: return "the entry is pending or in the register already";
    case MAVUNILAI_REFUSED_NOT_DUE: return "the signal is not for the current height, or its timer fired before";
    case MAVUNILAI_REFUSED_UNEVEN_PACKET: return "the packet's length is not a multiple of 224";
    case MAVUNILAI_REFUSED_NOT_A_CERTIFICATE: return "the frame is no certificate, and an observer takes no other";
    default: return "this is no number of the table of refusals";
    }
}

/* ---- Frames: where their fields are, and the kinds ---- */

#define MAVUNILAI_FRAME_KIND 0u
#define MAVUNILAI_FRAME_SIGNER 1u  /* kinds 1 to 4 */
#define MAVUNILAI_FRAME_HEIGHT 2u  /* two bytes, the low one first: mavunilai_frame_height reads them */
#define MAVUNILAI_FRAME_MASK 4u    /* kinds 5 to 7; two bytes, the low one first, bit i for station i */
#define MAVUNILAI_FRAME_DIGEST 16u /* kind 2; 32 bytes */
#define MAVUNILAI_FRAME_PAGE 48u   /* kinds 1 and 5; 176 bytes */

/* Within a page. */
#define MAVUNILAI_PAGE_HEIGHT 0u      /* two bytes, the low one first, as every height */
#define MAVUNILAI_PAGE_BACK_HEIGHT 2u /* two bytes */
#define MAVUNILAI_PAGE_COUNT 4u
#define MAVUNILAI_PAGE_BACK_DIGEST 16u
#define MAVUNILAI_PAGE_ENTRIES 48u

#define MAVUNILAI_KIND_PROPOSAL 1u
#define MAVUNILAI_KIND_PAGE_VOTE 2u
#define MAVUNILAI_KIND_BLANK_VOTE 3u
#define MAVUNILAI_KIND_FINALISE 4u
#define MAVUNILAI_KIND_PAGE_CERTIFICATE 5u
#define MAVUNILAI_KIND_BLANK_CERTIFICATE 6u
#define MAVUNILAI_KIND_FINALISE_CERTIFICATE 7u

/* The number in two bytes, the low one first. */
static inline unsigned mavunilai_word(const uint8_t *bytes) {
    return bytes[0] + 256u * bytes[1];
}

/* The height of a frame of 224 bytes, whatever they are: 0 to 65535. */
static inline unsigned mavunilai_frame_height(const uint8_t *frame) {
    return mavunilai_word(frame + MAVUNILAI_FRAME_HEIGHT);
}

/* ---- The book: where its head's fields are, and readers of them ---- */

#define MAVUNILAI_HEAD_STATIONS 0u /* n */
#define MAVUNILAI_HEAD_OWN 1u
#define MAVUNILAI_HEAD_FLAGS 3u    /* of the current height */
#define MAVUNILAI_HEAD_PENDING 6u  /* how many entries are pending */
#define MAVUNILAI_HEAD_EDITION 7u  /* 1 to 3; no call changes it but the opening ones, which make 3 */
#define MAVUNILAI_HEAD_WEIGHTS 8u  /* from edition 2 on: two bytes for each of 16 stations, 0 from n up */
#define MAVUNILAI_HEAD_LONG_HEIGHTS 40u /* edition 3: H in two bytes, the low one first */
#define MAVUNILAI_HEAD_LONG_CURRENT 42u /* edition 3: c in two bytes */
#define MAVUNILAI_HEAD_LONG_SETTLED 44u /* edition 3: g in two bytes */
#define MAVUNILAI_HEAD_SHORT_HEIGHTS 2u /* editions 1 and 2: H in one byte; in edition 3 it is 0 */
#define MAVUNILAI_HEAD_SHORT_CURRENT 4u /* editions 1 and 2: c */
#define MAVUNILAI_HEAD_SHORT_SETTLED 5u /* editions 1 and 2: g */
#define MAVUNILAI_EDITION_UNWEIGHED 1u /* the edition in which bytes 8 to 63 are 0 and all weights 1 */
#define MAVUNILAI_EDITION_WEIGHED 2u   /* the edition with weights in the head and heights of one byte */
#define MAVUNILAI_EDITION_LONG 3u      /* the edition with weights in the head and heights of two bytes */
#define MAVUNILAI_PENDING_AT 64u   /* the pending entries, 16 bytes each */
#define MAVUNILAI_CONTENTS_AT 576u /* the rows, 16 bytes for each height; a row's first byte is the leader */
#define MAVUNILAI_ROW 16u
#define MAVUNILAI_ROW_STATE 1u     /* within a row: the bits held, 1, and notarised, 2; so 3 if the height has both */
#define MAVUNILAI_STATE_HELD 1u    /* a proposal is held: its page begins the height's body */
#define MAVUNILAI_BODY 864u        /* the bodies, one for each height, follow the rows */

#define MAVUNILAI_FLAG_TIMER 1u    /* fired, by a signal or by a second page of the leader */
#define MAVUNILAI_FLAG_BLANK_VOTE 2u
#define MAVUNILAI_FLAG_PAGE_VOTE 4u
#define MAVUNILAI_FLAG_PROPOSED 8u

/* An observer's book: its head is laid out so too, by edition, with own number, flags, current height and pending
 * count 0. Then come rows of 8 bytes, one for each height, then the notarised pages, 176 bytes for each height. */
#define MAVUNILAI_OBSERVER_ROWS_AT 64u
#define MAVUNILAI_OBSERVER_ROW 8u           /* state, 0 or 2; a zero; three masks of two bytes, the low one first */
#define MAVUNILAI_OBSERVER_ROW_PAGE 2u      /* within a row: signers of the page certificate */
#define MAVUNILAI_OBSERVER_ROW_BLANK 4u     /* signers of blank certificates */
#define MAVUNILAI_OBSERVER_ROW_FINALISE 6u  /* signers of finalise certificates */
#define MAVUNILAI_STATE_NOTARISED 2u        /* a page is notarised; in a station's row a bit: & and not == */

/* These read bytes of a book, a station's or an observer's, of any edition, and no height that they are given makes
 * them read beyond it. But they do not look whether it is sound: they are for a book that a call has taken, so not
 * refused with 1, and that no other hand has changed since. Bytes that no call has taken may be too few to be read at
 * all. */

/* A number of the head that stands in one byte or, in a book of edition 3, in two bytes at another place. */
static inline unsigned mavunilai_head_number(const uint8_t *book, size_t short_at, size_t long_at) {
    if (book[MAVUNILAI_HEAD_EDITION] == MAVUNILAI_EDITION_LONG) {
        return mavunilai_word(book + long_at);
    }
    return book[short_at];
}

/* The number of heights, H: 1 to 1000, in a book of edition 1 or 2 to 63. */
static inline unsigned mavunilai_heights(const uint8_t *book) {
    return mavunilai_head_number(book, MAVUNILAI_HEAD_SHORT_HEIGHTS, MAVUNILAI_HEAD_LONG_HEIGHTS);
}

/* The current height, 1 to H + 1: the one whose timer is to run. At H + 1 all heights are passed. Of an observer's book
 * 0: it has none. */
static inline unsigned mavunilai_current(const uint8_t *book) {
    return mavunilai_head_number(book, MAVUNILAI_HEAD_SHORT_CURRENT, MAVUNILAI_HEAD_LONG_CURRENT);
}

/* The settled height, 0 to H; of a station's book and of an observer's. */
static inline unsigned mavunilai_settled(const uint8_t *book) {
    return mavunilai_head_number(book, MAVUNILAI_HEAD_SHORT_SETTLED, MAVUNILAI_HEAD_LONG_SETTLED);
}

/* 1 if a book is a station's and has that height, 1 to H; 0 for every other height, and for an observer's book. */
static inline int mavunilai_has_height(const uint8_t *book, unsigned height) {
    return mavunilai_current(book) != 0 && height != 0 && height <= mavunilai_heights(book);
}

/* The weight of a station as the book is read, 1 to 1000: in a book of edition 1 it is 1. 0 for a station that is not
 * below n. */
static inline unsigned mavunilai_weight(const uint8_t *book, unsigned station) {
    if (station >= MAVUNILAI_MOST_STATIONS || station >= book[MAVUNILAI_HEAD_STATIONS]) {
        return 0;
    }
    if (book[MAVUNILAI_HEAD_EDITION] == MAVUNILAI_EDITION_UNWEIGHED) {
        return 1;
    }
    return mavunilai_word(book + MAVUNILAI_HEAD_WEIGHTS + 2u * station);
}

/* The weight of the stations of a mask together, bit i for station i; bits from n up weigh nothing. */
static inline unsigned mavunilai_mask_weight(const uint8_t *book, unsigned mask) {
    unsigned weight = 0, station;
    for (station = 0; station < MAVUNILAI_MOST_STATIONS; station++) {
        weight += (mask >> station & 1u) * mavunilai_weight(book, station);
    }
    return weight;
}

/* The total weight: that of all stations together, n where each weighs 1. */
static inline unsigned mavunilai_total_weight(const uint8_t *book) {
    return mavunilai_mask_weight(book, 65535u);
}

/* The least weight of a quorum: two thirds of the total weight, rounded up. */
static inline unsigned mavunilai_needed_weight(const uint8_t *book) {
    return (2u * mavunilai_total_weight(book) + 2u) / 3u;
}

/* 1 if the stations of a mask, bit i for station i, are a quorum: if they weigh two thirds of the total weight or more.
 * 0 if they do not, if n is not 1 to 16, and if the mask has a bit for a station that is not below n. */
static inline int mavunilai_quorum(const uint8_t *book, unsigned mask) {
    unsigned n = book[MAVUNILAI_HEAD_STATIONS];
    if (n == 0 || n > MAVUNILAI_MOST_STATIONS || mask >> n != 0) {
        return 0;
    }
    return 3u * mavunilai_mask_weight(book, mask) >= 2u * mavunilai_total_weight(book);
}

/* The leader of a height; MAVUNILAI_NO_STATION if the book is not a station's or has no such height. */
static inline unsigned mavunilai_leader(const uint8_t *book, unsigned height) {
    if (!mavunilai_has_height(book, height)) {
        return MAVUNILAI_NO_STATION;
    }
    return book[MAVUNILAI_CONTENTS_AT + (size_t)MAVUNILAI_ROW * (height - 1u)];
}

/* 1 if a frame of 224 bytes is a proposal of another page than the one that the book holds at its height, else 0: so
 * where the book is not a station's, has no such height or holds no page there. If mavunilai_deliver took the frame, or
 * refused it with 8, the leader of that height has proposed two pages: keep both frames. A held page is never replaced,
 * so that of one frame it does not matter whether this is asked before mavunilai_deliver or after. Of a packet's frames
 * ask after mavunilai_packet: it may bring the first page itself. Then, before any move, deliver each for which this is
 * 1 once more: any refusal but 8 says it is no second page. */
static inline int mavunilai_second_page(const uint8_t *book, const uint8_t *frame) {
    size_t height = mavunilai_frame_height(frame), rows = MAVUNILAI_CONTENTS_AT, held, at;
    if (frame[MAVUNILAI_FRAME_KIND] != MAVUNILAI_KIND_PROPOSAL || !mavunilai_has_height(book, (unsigned)height) ||
        (book[rows + MAVUNILAI_ROW * (height - 1u) + MAVUNILAI_ROW_STATE] & MAVUNILAI_STATE_HELD) == 0) {
        return 0;
    }
    held = rows + (size_t)MAVUNILAI_ROW * mavunilai_heights(book) + MAVUNILAI_BODY * (height - 1u);
    for (at = 0; at < MAVUNILAI_PAGE; at++) {
        if (book[held + at] != frame[MAVUNILAI_FRAME_PAGE + at]) {
            return 1;
        }
    }
    return 0;
}

/* ---- Answers ---- */

/* A packed answer. It has a type of its own so that no plain number passes for one, nor two are mixed: the functions
 * below take it apart. Calls return it where they return a uint64_t, in one register. */
typedef struct mavunilai_answer {
    uint64_t packed;
} mavunilai_answer;

/* The refusal's number; 0 if the call was not refused. Ask it first: what the others give for a refused call is 0. */
static inline unsigned mavunilai_refusal(mavunilai_answer answer) {
    return (unsigned)(answer.packed & 255u);
}

/* Says that an answer, though it was given, is of no use to you. */
static inline void mavunilai_disregard(mavunilai_answer answer) {
    (void)answer;
}

/* Deliver: 1 if the frame was fresh, 0 if it was known. */
static inline unsigned mavunilai_fresh(mavunilai_answer answer) {
    return (unsigned)(answer.packed >> 8 & 255u);
}

/* Packet: what became of its frames. The three sum to the number of frames. */
typedef struct mavunilai_counts {
    uint64_t fresh, known, refused;
} mavunilai_counts;

/* Move: which move it was. */
static inline unsigned mavunilai_made(mavunilai_answer answer) {
    return (unsigned)(answer.packed >> 8 & 255u);
}

#define MAVUNILAI_MOVE_IDLE 0u       /* no move applies; nothing is written */
#define MAVUNILAI_MOVE_BLANK_VOTE 1u /* one frame of kind 3 */
#define MAVUNILAI_MOVE_SETTLE 2u     /* the settled height grew; nothing is written */
#define MAVUNILAI_MOVE_PASS 3u       /* a certificate, then a finalise or 224 zero bytes */
#define MAVUNILAI_MOVE_PROPOSAL 4u   /* one frame of kind 1 */
#define MAVUNILAI_MOVE_PAGE_VOTE 5u  /* one frame of kind 2 */

/* Move: its height. */
static inline unsigned mavunilai_height(mavunilai_answer answer) {
    return (unsigned)(answer.packed >> 16 & 65535u);
}

/* Move: of a pass the kind of the first frame. */
static inline unsigned mavunilai_certificate(mavunilai_answer answer) {
    return (unsigned)(answer.packed >> 32 & 255u);
}

/* Move: of a pass 4 if the second frame is a finalise. */
static inline unsigned mavunilai_finalise(mavunilai_answer answer) {
    return (unsigned)(answer.packed >> 40 & 255u);
}

/* Move: how many frames it wrote to the front of the reply, 0, 1 or 2. */
static inline unsigned mavunilai_frames(mavunilai_answer answer) {
    unsigned made = mavunilai_made(answer);
    if (made == MAVUNILAI_MOVE_IDLE || made == MAVUNILAI_MOVE_SETTLE) {
        return 0;
    }
    return mavunilai_finalise(answer) != 0 ? 2 : 1;
}

/* Size: the register's length in bytes, repeats not counted. */
static inline uint64_t mavunilai_bytes(mavunilai_answer answer) {
    return answer.packed >> 8;
}

/* ---- The calls ---- */

/* Makes a new book for station `own` of `n`, with `heights` heights, 1 to 1000. `weights` has two bytes for each
 * station, the low one first, each weight 1 to 1000, so `weights_len` must be MAVUNILAI_WEIGHTS(n);
 * mavunilai_make_weights writes them. Byte h - 1 of `leaders` leads height h, so `leaders_len` must equal `heights`,
 * and `book_len` MAVUNILAI_BOOK(heights). The book's old bytes do not matter.
 * Refusals: 2, 1. After 0 the book is new: n, own number, heights, current height 1, edition 3, the weights and the
 * leaders stand in it, and every other byte is 0. So it is for every number of heights and where all weights are 1. */
MAVUNILAI_LOOK
mavunilai_answer mavunilai_open(uint8_t *book, size_t book_len, uint64_t n, uint64_t own, uint64_t heights,
                                const uint8_t *weights, size_t weights_len, const uint8_t *leaders,
                                size_t leaders_len);

/* Takes one frame of 224 bytes whose signatures you have checked; a station's own frames too.
 * Refusals: 1, 4, 6, 5, 7, 9, 8, 10. Else byte 1 of the answer (mavunilai_fresh) is 1 if the frame was fresh: the book
 * now holds what it states; 0 if it was known: the book is as before. Of the book only the frame's height changes: its
 * row of the contents and its body. A height above the book's last is 6 over books of every edition, unless frame and
 * page, of kinds 1 and 5, have different heights: that is 4.
 * One frame is otherwise: a proposal of another page than the held one, by the leader of the current height, for that
 * height. It is not refused with 8 but fires the timer, and is not kept: fresh, and flag 1 alone is set; or known, if
 * it was set. At every other height it is 8. mavunilai_second_page tells such a frame. */
MAVUNILAI_LOOK
mavunilai_answer mavunilai_deliver(uint8_t *book, size_t book_len, const uint8_t *frame, size_t frame_len);

/* Takes a packet: frames of 224 bytes one behind the other, whose signatures you have checked, each one's. They are
 * delivered in order, each over the book that those before it left, as that many calls of mavunilai_deliver would.
 * Refusals: 1, 15, before any frame; then `*counts` too is as it was. Else the answer is 0, and `*counts` says how many
 * frames were fresh, known and refused. A refused frame changes nothing, and those after it are delivered all the same:
 * the packet is not refused for it. A packet of 0 bytes has no frames, and all three counts are 0. */
MAVUNILAI_LOOK
mavunilai_answer mavunilai_packet(uint8_t *book, size_t book_len, const uint8_t *packet, size_t packet_len,
                                  mavunilai_counts *counts);

/* Makes the first move that applies; call it until it is idle. The reply needs 448 bytes or more.
 * Refusals: 1, 3. Else the answer's bytes are
 *   1 (mavunilai_made)         the move, 0 to 5
 *   2, 3 (mavunilai_height)    its height; for move 2 the new settled height; 0 if idle
 *   4 (mavunilai_certificate)  for a pass the kind of the first frame, 5 page or 6 blank certificate; else 0
 *   5 (mavunilai_finalise)     for a pass 4 if the second frame is a finalise, else 0
 * Moves 1, 4 and 5 write bytes 0 to 223 of the reply, one frame. Move 3 writes bytes 0 to 447: the certificate, then
 * the finalise or zeros, which are no frame. Moves 0 and 2 write none. Of the book only bytes of the head change: the
 * flags (moves 1, 4, 5), the settled height (2), the current height and the flags (3), none if idle. What a move wrote
 * enters the book when you deliver it. */
MAVUNILAI_LOOK
mavunilai_answer mavunilai_move(uint8_t *book, size_t book_len, uint8_t *reply, size_t reply_len);

/* Tells the book that the timer of a height fired. The height is any number and is not cut to two bytes: 65537 is not
 * height 1, and gets 6. Refusals: 1, 6, 14; 14 too if a second page of the leader fired it before. After 0 flag 1 of
 * the current height is set, and no other byte has changed. */
MAVUNILAI_LOOK
mavunilai_answer mavunilai_signal(uint8_t *book, size_t book_len, uint64_t height);

/* Adds an entry of 16 bytes to the pending ones; those that the register holds by now are dropped.
 * Refusals: 1, 4, 13, 12. After 0 the entry is the last pending one, the pending places after it are 0, the count fits,
 * and no other byte has changed. */
MAVUNILAI_LOOK
mavunilai_answer mavunilai_submit(uint8_t *book, size_t book_len, const uint8_t *entry, size_t entry_len);

/* The register's length in bytes: mavunilai_bytes of the answer, which is the refusal plus 256 times the size. The
 * register is the entries of the chain that ends at the settled height, oldest page first; one that the same page or
 * one below has before is not counted again.
 * Refusals: 1. No byte changes. The largest size, where no entry repeats another, is 1000 * 8 * 16 = 128000. */
MAVUNILAI_LOOK
mavunilai_answer mavunilai_size(const uint8_t *book, size_t book_len);

/* Writes the register to the front of the buffer, oldest page first, each entry once and at its first place, and
 * returns the number of bytes of the part read. This is no packed answer: it returns 0, and writes nothing, where the
 * book is not sound or the buffer is shorter than the register, whose length mavunilai_size gives; it returns 0 for an
 * empty register as well. Bytes of the buffer past the part keep their values. */
MAVUNILAI_LOOK
uint64_t mavunilai_read(const uint8_t *book, size_t book_len, uint8_t *buffer, size_t buffer_len);

/* Writes the certificate of kind 5, 6 or 7 of a height to bytes 0 to 223 of the reply, which needs 224 or more. The
 * height is taken as mavunilai_signal takes it.
 * Refusals: 1, 4, 6, 3, 11. Bytes of the reply past 223 keep their values. */
MAVUNILAI_LOOK
mavunilai_answer mavunilai_fetch(const uint8_t *book, size_t book_len, uint64_t kind, uint64_t height, uint8_t *reply,
                                 size_t reply_len);

/* Writes the SHA-256 of bytes, a page's 176 or any others, to bytes 0 to 31 of `digest`, which needs 32 or more: what a
 * page vote names, and the frame that each signer of a page certificate signed. No book is looked at.
 * Refusals: 3. Bytes of `digest` past 31 keep their values. */
MAVUNILAI_LOOK
mavunilai_answer mavunilai_digest(const uint8_t *bytes, size_t bytes_len, uint8_t *digest, size_t digest_len);

/* ---- The calls of an observer ----
 *
 * An observer has no vote, no timer and nothing to send. It is given certificates, settles, and reads. Of any two
 * registers that it and honest stations read, one begins the other, on the premises that docs/HOST.md names: among them
 * that the dishonest stations weigh less than a third of all, that the books share the weights, and that you have
 * checked the signatures. These calls take an observer's book alone; to them a station's book is not sound, and to the
 * calls above an observer's is not. */

/* Makes a new observer's book over `n` stations, with `heights` heights, 1 to 1000: `book_len` must be
 * MAVUNILAI_OBSERVER_BOOK(heights). `weights` and `weights_len` are as for mavunilai_open, and must be the stations'.
 * The book's old bytes do not matter.
 * Refusals: 2, 1. After 0 the book is new: n, heights, edition 3 and the weights stand in it, and every other byte
 * is 0. */
MAVUNILAI_LOOK
mavunilai_answer mavunilai_observer_open(uint8_t *book, size_t book_len, uint64_t n, uint64_t heights,
                                         const uint8_t *weights, size_t weights_len);

/* Takes one certificate, a frame of kind 5, 6 or 7, whose signatures you have checked, each one's.
 * Refusals: 1, 4, 16, 6, 5, 9, 10. A frame of kinds 1 to 4 that is well formed is 16, whatever its height and signer.
 * Else byte 1 of the answer (mavunilai_fresh) is 1 if the frame was fresh: the book now holds what it states; 0 if it
 * was known: the book is as before. Of the book only the frame's height changes: its row and its page. */
MAVUNILAI_LOOK
mavunilai_answer mavunilai_observer_deliver(uint8_t *book, size_t book_len, const uint8_t *frame, size_t frame_len);

/* Lets the settled height follow the certificates; nothing but the book is written, so that no reply is lent.
 * Refusals: 1. Else the answer is packed as that of mavunilai_move: move MAVUNILAI_MOVE_SETTLE with the new settled
 * height, which alone of the book changes, or MAVUNILAI_MOVE_IDLE. After the first the next one is idle, until a
 * certificate comes. */
MAVUNILAI_LOOK
mavunilai_answer mavunilai_observer_move(uint8_t *book, size_t book_len);

/* The register's length in bytes, as mavunilai_size, repeats not counted: mavunilai_bytes of the answer.
 * Refusals: 1. No byte changes. */
MAVUNILAI_LOOK
mavunilai_answer mavunilai_observer_size(const uint8_t *book, size_t book_len);

/* Writes the register to the front of the buffer, each entry once and at its first place, and returns the number of
 * bytes of the part read, as mavunilai_read: no packed answer, and 0, with nothing written, where the book is not sound
 * or the buffer is too short. */
MAVUNILAI_LOOK
uint64_t mavunilai_observer_read(const uint8_t *book, size_t book_len, uint8_t *buffer, size_t buffer_len);

/* ---- Weights out of numbers ---- */

/* Writes the weights of n stations as the opening calls take them, to bytes 0 to 2 * n - 1. Nothing is judged: what is
 * out of range the opening call refuses. */
static inline void mavunilai_make_weights(uint8_t *bytes, const uint16_t *weights, size_t n) {
    size_t station;
    for (station = 0; station < n; station++) {
        bytes[2u * station] = (uint8_t)(weights[station] & 255u);
        bytes[2u * station + 1u] = (uint8_t)(weights[station] >> 8);
    }
}

/* ---- Pages and frames out of their parts, for tests ----
 *
 * A station's own frames are those that a move writes: a host makes none by hand. These are for tests, and to play the
 * other stations. Nothing is judged: a frame that every replica refuses can be made too. */

/* Writes so many bytes of `from` to `to`. */
static inline void mavunilai_copy(uint8_t *to, const uint8_t *from, size_t length) {
    size_t at;
    for (at = 0; at < length; at++) {
        to[at] = from[at];
    }
}

/* Makes the 176 bytes of a page: its height, that of the page it stands on with that page's digest (0 and null where it
 * stands on none), and so many entries of 16 bytes, one behind the other. 1 if it is made; 0, with nothing written, for
 * more than 8 entries. */
MAVUNILAI_LOOK static inline int mavunilai_make_page(uint8_t *page, uint16_t height, uint16_t back_height,
                                                     const uint8_t *back_digest, const uint8_t *entries,
                                                     size_t count) {
    size_t at;
    if (count > MAVUNILAI_MOST_PAGE_ENTRIES) {
        return 0;
    }
    for (at = 0; at < MAVUNILAI_PAGE; at++) {
        page[at] = 0;
    }
    page[MAVUNILAI_PAGE_HEIGHT] = (uint8_t)(height & 255u);
    page[MAVUNILAI_PAGE_HEIGHT + 1u] = (uint8_t)(height >> 8);
    page[MAVUNILAI_PAGE_BACK_HEIGHT] = (uint8_t)(back_height & 255u);
    page[MAVUNILAI_PAGE_BACK_HEIGHT + 1u] = (uint8_t)(back_height >> 8);
    page[MAVUNILAI_PAGE_COUNT] = (uint8_t)count;
    mavunilai_copy(page + MAVUNILAI_PAGE_BACK_DIGEST, back_digest, back_digest == NULL ? 0 : MAVUNILAI_DIGEST);
    mavunilai_copy(page + MAVUNILAI_PAGE_ENTRIES, entries, count * MAVUNILAI_ENTRY);
    return 1;
}

/* Makes a frame of 224 bytes with kind, signer and height alone; the four below go by it. */
static inline void mavunilai_make_frame(uint8_t *frame, uint8_t kind, uint8_t signer, uint16_t height) {
    size_t at;
    for (at = 0; at < MAVUNILAI_FRAME; at++) {
        frame[at] = 0;
    }
    frame[MAVUNILAI_FRAME_KIND] = kind;
    frame[MAVUNILAI_FRAME_SIGNER] = signer;
    frame[MAVUNILAI_FRAME_HEIGHT] = (uint8_t)(height & 255u);
    frame[MAVUNILAI_FRAME_HEIGHT + 1u] = (uint8_t)(height >> 8);
}

/* Kind 1: the signer proposes a page of 176 bytes, for the height that stands in it. */
static inline void mavunilai_make_proposal(uint8_t *frame, uint8_t signer, const uint8_t *page) {
    unsigned height = mavunilai_word(page + MAVUNILAI_PAGE_HEIGHT);
    mavunilai_make_frame(frame, MAVUNILAI_KIND_PROPOSAL, signer, (uint16_t)height);
    mavunilai_copy(frame + MAVUNILAI_FRAME_PAGE, page, MAVUNILAI_PAGE);
}

/* Kind 2: the signer votes for the page with this digest, 32 bytes, which mavunilai_digest gives. */
static inline void mavunilai_make_page_vote(uint8_t *frame, uint8_t signer, uint16_t height, const uint8_t *digest) {
    mavunilai_make_frame(frame, MAVUNILAI_KIND_PAGE_VOTE, signer, height);
    mavunilai_copy(frame + MAVUNILAI_FRAME_DIGEST, digest, MAVUNILAI_DIGEST);
}

/* Kind 3: the signer votes for the blank. */
static inline void mavunilai_make_blank_vote(uint8_t *frame, uint8_t signer, uint16_t height) {
    mavunilai_make_frame(frame, MAVUNILAI_KIND_BLANK_VOTE, signer, height);
}

/* Kind 4: the signer finalises the height. */
static inline void mavunilai_make_finalise(uint8_t *frame, uint8_t signer, uint16_t height) {
    mavunilai_make_frame(frame, MAVUNILAI_KIND_FINALISE, signer, height);
}

/* ---- A packet, frame by frame ---- */

/* Tells what becomes of each frame of a packet, which mavunilai_packet only counts: ask over the book as it is before
 * that call. `answers` has a place for each frame, packet_len / MAVUNILAI_FRAME of them; `copy` has `book_len` bytes,
 * overlaps with nothing and is written over; the book stays as it is. Returns the answer of the packet. If that is a
 * refusal, 1 or 15, the answers are as they were. Else answers[i] is that of mavunilai_deliver to frame i, over the
 * book that the frames before it left, and the copy is the book after the packet. Those that are refused with 8 or 10
 * are evidence. It takes the time of delivering the frames singly, so ask where the counts have refused ones. */
MAVUNILAI_LOOK static inline mavunilai_answer mavunilai_packet_each(const uint8_t *book, size_t book_len,
                                                                    uint8_t *copy, const uint8_t *packet,
                                                                    size_t packet_len, mavunilai_answer *answers) {
    mavunilai_counts counts;
    mavunilai_answer answer;
    size_t at;
    mavunilai_copy(copy, book, book_len);
    answer = mavunilai_packet(copy, book_len, packet, packet_len, &counts);
    if (mavunilai_refusal(answer) != 0) {
        return answer;
    }
    mavunilai_copy(copy, book, book_len);
    for (at = 0; at < packet_len / MAVUNILAI_FRAME; at++) {
        answers[at] = mavunilai_deliver(copy, book_len, packet + at * MAVUNILAI_FRAME, MAVUNILAI_FRAME);
    }
    return answer;
}

#ifdef __cplusplus
}
#endif

#endif
