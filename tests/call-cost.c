/* The calls whose instructions tests/call-cost counts: each call, over books that it lays out itself, so that every
 * library gets the same. Its arguments are the number of stations, that of heights, and the edition of the books. For
 * each counted call it prints a line: the books, the call, its answer, and a sum over the bytes that it left. */
#include <stdint.h>
#include <stdio.h>
#include <stdlib.h>
#include <string.h>

/* The calls are declared here, since the header is that of one library: Open has weights from interface 6 on. */
uint64_t mavunilai_interface(void);
uint64_t mavunilai_open();
uint64_t mavunilai_observer_open();
uint64_t mavunilai_deliver(uint8_t *, size_t, const uint8_t *, size_t);
uint64_t mavunilai_packet(uint8_t *, size_t, const uint8_t *, size_t, uint64_t *);
uint64_t mavunilai_move(uint8_t *, size_t, uint8_t *, size_t);
uint64_t mavunilai_signal(uint8_t *, size_t, uint64_t);
uint64_t mavunilai_submit(uint8_t *, size_t, const uint8_t *, size_t);
uint64_t mavunilai_size(const uint8_t *, size_t);
uint64_t mavunilai_read(const uint8_t *, size_t, uint8_t *, size_t);
uint64_t mavunilai_fetch(const uint8_t *, size_t, uint64_t, uint64_t, uint8_t *, size_t);
uint64_t mavunilai_observer_deliver(uint8_t *, size_t, const uint8_t *, size_t);
uint64_t mavunilai_observer_move(uint8_t *, size_t);
uint64_t mavunilai_observer_size(const uint8_t *, size_t);
uint64_t mavunilai_observer_read(const uint8_t *, size_t, uint8_t *, size_t);
uint64_t mavunilai_digest(const uint8_t *, size_t, uint8_t *, size_t);

enum call { OPEN, DELIVER, PACKET, MOVE, SIGNAL, SUBMIT, SIZE, READ, FETCH, OBSERVER = 16 };
enum { FRAME = 224, PAGE = 176, PAGE_AT = 48, ENTRY = 16, MOST = 56016 };
enum { PROPOSAL = 1, PAGE_VOTE, BLANK_VOTE, FINALISE, PAGE_CERTIFICATE, BLANK_CERTIFICATE, FINALISE_CERTIFICATE };
/* What the heights below the last one have: nothing, blanks, pages, or pages that are settled. */
enum filling { NEW, BLANK, NOTARISED, SETTLED, FILLINGS };

typedef struct {
    uint8_t bytes[MOST];
    size_t size;
    int observer;
} Book;

static const char *const fillings[FILLINGS] = {"new", "blank", "notarised", "settled"};
static unsigned n, heights, edition, quorum;
static uint8_t reply[8064], pages[64][PAGE], weights[32], leaders[64];
/* The current height of the books, and a page that stands there. */
static unsigned current;
static uint8_t page[PAGE];

/* ---- the counted call ---- */

static uint64_t open_call(Book *book) {
    int weighed = mavunilai_interface() >= 6;
    size_t own = 0, stations = n, last = heights, two = 2 * n;
    if (book->observer) {
        return weighed ? mavunilai_observer_open(book->bytes, book->size, stations, last, weights, two)
                       : mavunilai_observer_open(book->bytes, book->size, stations, last);
    }
    return weighed ? mavunilai_open(book->bytes, book->size, stations, own, last, weights, two, leaders, last)
                   : mavunilai_open(book->bytes, book->size, stations, own, last, leaders, last);
}

/* The one function in which instructions are counted. */
__attribute__((noinline)) static uint64_t counted(enum call call, Book *book, const uint8_t *bytes, size_t length) {
    static uint64_t counts[3];
    switch ((int)call + OBSERVER * book->observer) {
    case OPEN:
    case OBSERVER + OPEN: return open_call(book);
    case DELIVER: return mavunilai_deliver(book->bytes, book->size, bytes, length);
    case PACKET: return mavunilai_packet(book->bytes, book->size, bytes, length, counts);
    case MOVE: return mavunilai_move(book->bytes, book->size, reply, sizeof reply);
    case SIGNAL: return mavunilai_signal(book->bytes, book->size, length);
    case SUBMIT: return mavunilai_submit(book->bytes, book->size, bytes, length);
    case SIZE: return mavunilai_size(book->bytes, book->size);
    case READ: return mavunilai_read(book->bytes, book->size, reply, sizeof reply);
    case FETCH: return mavunilai_fetch(book->bytes, book->size, PAGE_CERTIFICATE, length, reply, sizeof reply);
    case OBSERVER + DELIVER: return mavunilai_observer_deliver(book->bytes, book->size, bytes, length);
    case OBSERVER + MOVE: return mavunilai_observer_move(book->bytes, book->size);
    case OBSERVER + SIZE: return mavunilai_observer_size(book->bytes, book->size);
    default: return mavunilai_observer_read(book->bytes, book->size, reply, sizeof reply);
    }
}

/* A sum over the bytes that do not tell the editions apart. */
static uint32_t sum(const uint8_t *bytes, size_t size, int is_book) {
    uint32_t found = 2166136261u;
    size_t at;
    for (at = 0; at < size; at++) {
        found = (found ^ (is_book && at >= 7 && at < 40 ? 0u : bytes[at])) * 16777619u;
    }
    return found;
}

/* Makes a call on a copy of a book. */
static void row(enum filling filling, const char *what, enum call call, const Book *book, const uint8_t *bytes,
                size_t length) {
    static Book copy;
    uint64_t answer;
    copy = *book;
    memset(reply, 0, sizeof reply);
    answer = counted(call, &copy, bytes, length);
    printf("%s|%s%s|%llu|%08x%08x\n", fillings[filling], book->observer ? "observer's " : "", what,
           (unsigned long long)answer, sum(copy.bytes, copy.size, 1), sum(reply, sizeof reply, 0));
}

/* ---- frames and books ---- */

/* A page of a height on the page of a lower one. */
static void put_page(uint8_t *to, unsigned height, unsigned back) {
    unsigned place;
    memset(to, 0, PAGE);
    to[0] = (uint8_t)height, to[2] = (uint8_t)back, to[4] = 8;
    if (back > 0) {
        mavunilai_digest(pages[back], PAGE, to + 16, 32);
    }
    for (place = 0; place < 8; place++) {
        uint8_t *entry = to + 48 + ENTRY * place;
        memset(entry, 'a', ENTRY);
        entry[0] = (uint8_t)place, entry[1] = (uint8_t)height;
    }
}

/* A statement of a signer, or a certificate of so many. */
static const uint8_t *made(unsigned kind, unsigned who, unsigned height, const uint8_t *of) {
    static uint8_t frame[FRAME];
    unsigned mask = (1u << who) - 1u;
    memset(frame, 0, sizeof frame);
    frame[0] = (uint8_t)kind, frame[2] = (uint8_t)height;
    if (kind < PAGE_CERTIFICATE) {
        frame[1] = (uint8_t)who;
    } else {
        frame[4] = (uint8_t)mask, frame[5] = (uint8_t)(mask >> 8);
    }
    if (kind == PAGE_VOTE) {
        mavunilai_digest(of, PAGE, frame + 16, 32);
    } else if (kind == PROPOSAL || kind == PAGE_CERTIFICATE) {
        memcpy(frame + PAGE_AT, of, PAGE);
    }
    return frame;
}

static void deliver(Book *book, const uint8_t *frame) {
    if (book->observer) {
        mavunilai_observer_deliver(book->bytes, book->size, frame, FRAME);
    } else {
        mavunilai_deliver(book->bytes, book->size, frame, FRAME);
    }
}

/* A new book of station 0, or of an observer; station 1 leads every height. */
static void laid_out(Book *book, int observer) {
    unsigned h;
    memset(book, 0, sizeof *book);
    book->observer = observer;
    book->size = observer ? 64 + 184 * heights : 576 + 880 * heights;
    book->bytes[0] = (uint8_t)n, book->bytes[2] = (uint8_t)heights, book->bytes[7] = (uint8_t)edition;
    memcpy(book->bytes + 8, weights, edition == 1 ? 0 : 2 * n);
    book->bytes[4] = !observer;
    for (h = 0; h < heights && !observer; h++) {
        book->bytes[576 + 16 * h] = 1;
    }
}

static void moved(Book *book) {
    uint64_t answer;
    do {
        answer = book->observer ? mavunilai_observer_move(book->bytes, book->size)
                                : mavunilai_move(book->bytes, book->size, reply, sizeof reply);
    } while (answer >> 8);
}

/* Fills the heights below the last one, and moves until there is no move. */
static void filled(Book *book, int observer, enum filling filling) {
    unsigned h;
    laid_out(book, observer);
    for (h = 1; h < heights && filling != NEW; h++) {
        deliver(book, made(filling == BLANK ? BLANK_CERTIFICATE : PAGE_CERTIFICATE, quorum, h, pages[h]));
        if (filling == SETTLED) {
            deliver(book, made(FINALISE_CERTIFICATE, quorum, h, 0));
        }
    }
    moved(book);
}

/* ---- each call ---- */

/* A frame that is fresh, then known; and one of the kind that is refused. */
static void three(enum filling filling, const char *what, const Book *book, const uint8_t *fresh,
                  const uint8_t *refused) {
    static Book after;
    char name[64];
    uint8_t frame[FRAME];
    after = *book;
    memcpy(frame, fresh, FRAME);
    snprintf(name, sizeof name, "Deliver, %s, fresh", what);
    row(filling, name, DELIVER, book, frame, FRAME);
    deliver(&after, frame);
    snprintf(name, sizeof name, "Deliver, %s, known", what);
    row(filling, name, DELIVER, &after, frame, FRAME);
    if (refused) {
        snprintf(name, sizeof name, "Deliver, %s, refused", what);
        row(filling, name, DELIVER, &after, refused, FRAME);
    }
}

/* A certificate of a quorum, fresh and known; and one whose signers are no quorum. */
static void certificate(enum filling filling, const char *what, const Book *book, unsigned kind) {
    uint8_t few[FRAME];
    memcpy(few, made(kind, quorum - 1, current, page), FRAME);
    three(filling, what, book, made(kind, quorum, current, page), few);
}

static void deliveries(enum filling filling, const Book *book) {
    uint8_t other[FRAME];
    static Book holding;
    unsigned s;
    memcpy(other, made(PROPOSAL, 0, current, page), FRAME);
    three(filling, "proposal", book, made(PROPOSAL, 1, current, page), other);
    memcpy(other, made(PAGE_VOTE, 2, current, pages[0]), FRAME);
    three(filling, "page vote", book, made(PAGE_VOTE, 2, current, page), other);
    memcpy(other, made(BLANK_VOTE, n, current, 0), FRAME);
    three(filling, "blank vote", book, made(BLANK_VOTE, 2, current, 0), other);
    three(filling, "finalise", book, made(FINALISE, 2, current, 0), 0);
    holding = *book;
    deliver(&holding, made(PROPOSAL, 1, current, page));
    for (s = 1; s < quorum; s++) {
        deliver(&holding, made(PAGE_VOTE, s, current, page));
    }
    row(filling, "Deliver, page vote that notarises", DELIVER, &holding,
        made(PAGE_VOTE, 0, current, page), FRAME);
}

static void moves(enum filling filling, const Book *book) {
    static Book other;
    other = *book;
    mavunilai_signal(other.bytes, other.size, current);
    row(filling, "Move, blank vote", MOVE, &other, 0, 0);
    other = *book;
    deliver(&other, made(FINALISE_CERTIFICATE, quorum, current, 0));
    deliver(&other, made(PAGE_CERTIFICATE, quorum, current, page));
    row(filling, "Move, settle", MOVE, &other, 0, 0);
    other = *book;
    deliver(&other, made(BLANK_CERTIFICATE, quorum, current, 0));
    row(filling, "Move, pass", MOVE, &other, 0, 0);
    other = *book;
    other.bytes[1] = 1;
    row(filling, "Move, proposal", MOVE, &other, 0, 0);
    other = *book;
    deliver(&other, made(PROPOSAL, 1, current, page));
    row(filling, "Move, page vote", MOVE, &other, 0, 0);
}

static void station(enum filling filling, const Book *book) {
    uint8_t packet[3 * FRAME];
    unsigned k;
    deliveries(filling, book);
    moves(filling, book);
    for (k = 0; k < 3; k++) {
        memcpy(packet + FRAME * k, made(BLANK_VOTE + k, k == 2 ? quorum : 1, current, page), FRAME);
    }
    row(filling, "Packet of three", PACKET, book, packet, sizeof packet);
    row(filling, "Signal", SIGNAL, book, 0, current);
    row(filling, "Submit", SUBMIT, book, pages[0] + 48, ENTRY);
    row(filling, "Submit, refused", SUBMIT, book, pages[0], 1);
    row(filling, "Fetch", FETCH, book, 0, 1);
}

/* What stations and observers have alike. */
static void each_call(enum filling filling, int observer) {
    static Book book;
    current = filling == NEW ? 1 : heights;
    put_page(page, current, filling == NEW || filling == BLANK ? 0 : current - 1);
    filled(&book, observer, filling);
    if (filling == NEW) {
        row(filling, "Open", OPEN, &book, 0, 0);
    }
    certificate(filling, "page certificate", &book, PAGE_CERTIFICATE);
    certificate(filling, "blank certificate", &book, BLANK_CERTIFICATE);
    certificate(filling, "finalise certificate", &book, FINALISE_CERTIFICATE);
    row(filling, "Deliver, no frame", DELIVER, &book, pages[0], FRAME);
    row(filling, "Move, idle", MOVE, &book, 0, 0);
    row(filling, "Size", SIZE, &book, 0, 0);
    row(filling, "Read", READ, &book, 0, 0);
    if (!observer) {
        station(filling, &book);
    }
}

int main(int count, char **words) {
    unsigned h, filling;
    if (count != 4) {
        return 2;
    }
    n = (unsigned)atoi(words[1]), heights = (unsigned)atoi(words[2]), edition = (unsigned)atoi(words[3]);
    quorum = (2 * n + 2) / 3;
    for (h = 0; h < n; h++) {
        weights[2 * h] = 1;
    }
    memset(leaders, 1, sizeof leaders);
    for (h = 0; h < heights; h++) {
        put_page(pages[h], h, h > 0 ? h - 1 : 0);
    }
    for (filling = 0; filling < FILLINGS; filling++) {
        if (filling == NEW || heights > 1) {
            each_call((enum filling)filling, 0);
            each_call((enum filling)filling, 1);
        }
    }
    return 0;
}
