/* The calls whose instructions tests/season-cost counts: each call over full books of so many heights, its argument.
 * The books come about by calls, so that any library can be linked that takes as many heights; the current height alone
 * is written into the head, where the edition has it, and an observer's rows and pages are those of a station. For each
 * counted call it prints a line: the book, the call, its answer, and a sum over the bytes that it left. Exit status 3:
 * the library does not open so many heights. */
#include <stdint.h>
#include <stdio.h>
#include <stdlib.h>
#include <string.h>

/* The calls are declared here, since the header is that of one library. */
uint64_t mavunilai_open(uint8_t *, size_t, uint64_t, uint64_t, uint64_t, const uint8_t *, size_t, const uint8_t *,
                        size_t);
uint64_t mavunilai_observer_open(uint8_t *, size_t, uint64_t, uint64_t, const uint8_t *, size_t);
uint64_t mavunilai_deliver(uint8_t *, size_t, const uint8_t *, size_t);
uint64_t mavunilai_packet(uint8_t *, size_t, const uint8_t *, size_t, uint64_t *);
uint64_t mavunilai_move(uint8_t *, size_t, uint8_t *, size_t);
uint64_t mavunilai_signal(uint8_t *, size_t, uint64_t);
uint64_t mavunilai_submit(uint8_t *, size_t, const uint8_t *, size_t);
uint64_t mavunilai_size(const uint8_t *, size_t);
uint64_t mavunilai_read(const uint8_t *, size_t, uint8_t *, size_t);
uint64_t mavunilai_fetch(const uint8_t *, size_t, uint64_t, uint64_t, uint8_t *, size_t);
uint64_t mavunilai_observer_deliver(uint8_t *, size_t, const uint8_t *, size_t);
uint64_t mavunilai_observer_move(uint8_t *, size_t);
uint64_t mavunilai_observer_size(const uint8_t *, size_t);
uint64_t mavunilai_observer_read(const uint8_t *, size_t, uint8_t *, size_t);
uint64_t mavunilai_digest(const uint8_t *, size_t, uint8_t *, size_t);

enum call { OPEN, DELIVER, PACKET, MOVE, SIGNAL, SUBMIT, SIZE, READ, FETCH, OBSERVER = 16 };
enum { FRAME = 224, PAGE = 176, PAGE_AT = 48, ENTRY = 16, HEIGHTS = 1000, MOST = 576 + 880 * HEIGHTS };
enum { PROPOSAL = 1, BLANK_VOTE = 3, PAGE_CERTIFICATE = 5, BLANK_CERTIFICATE, FINALISE_CERTIFICATE };

/* What a book has below its last height. */
enum shape {
    SETTLED,      /* a chain of full pages, each on the one below, settled at its top */
    UNSETTLED,    /* the same, and no finalise */
    ON_THE_FIRST, /* every page on page 1, blanks everywhere, finalises at each height, settled at the top */
    UNLINKED,     /* a chain whose first page is another, finalises at each height: nothing is settled */
    BLANK,        /* blanks and no page */
    SHAPES
};

static const char *const shapes[SHAPES] = {"settled", "not settled", "all on page 1, blanks everywhere",
                                           "finalised, not linked", "blank"};

typedef struct {
    uint8_t bytes[MOST];
    size_t size;
    int observer;
} Book;

static const uint8_t weights[8] = {1, 0, 1, 0, 1, 0, 1, 0};
static uint8_t leaders[HEIGHTS], reply[8 * ENTRY * HEIGHTS], pages[HEIGHTS + 1][PAGE];
static uint8_t packet[4 * HEIGHTS * FRAME];
static unsigned heights;

/* ---- the counted call ---- */

static uint64_t open_call(Book *book) {
    return book->observer ? mavunilai_observer_open(book->bytes, book->size, 4, heights, weights, sizeof weights)
                          : mavunilai_open(book->bytes, book->size, 4, 0, heights, weights, sizeof weights, leaders,
                                           heights);
}

/* The one function in which instructions are counted. */
__attribute__((noinline)) static uint64_t counted(enum call call, Book *book, const uint8_t *bytes, size_t length) {
    static uint64_t counts[3];
    switch ((int)call + OBSERVER * book->observer) {
    case OPEN:
    case OBSERVER + OPEN: return open_call(book);
    case DELIVER: return mavunilai_deliver(book->bytes, book->size, bytes, length);
    case PACKET: return mavunilai_packet(book->bytes, book->size, bytes, length, counts);
    case MOVE: return mavunilai_move(book->bytes, book->size, reply, sizeof reply);
    case SIGNAL: return mavunilai_signal(book->bytes, book->size, length);
    case SUBMIT: return mavunilai_submit(book->bytes, book->size, bytes, length);
    case SIZE: return mavunilai_size(book->bytes, book->size);
    case READ: return mavunilai_read(book->bytes, book->size, reply, sizeof reply);
    case FETCH: return mavunilai_fetch(book->bytes, book->size, BLANK_CERTIFICATE, length, reply, sizeof reply);
    case OBSERVER + DELIVER: return mavunilai_observer_deliver(book->bytes, book->size, bytes, length);
    case OBSERVER + MOVE: return mavunilai_observer_move(book->bytes, book->size);
    case OBSERVER + SIZE: return mavunilai_observer_size(book->bytes, book->size);
    default: return mavunilai_observer_read(book->bytes, book->size, reply, sizeof reply);
    }
}

static uint32_t sum(const uint8_t *bytes, size_t size) {
    uint32_t found = 2166136261u;
    size_t at;
    for (at = 0; at < size; at++) {
        found = (found ^ bytes[at]) * 16777619u;
    }
    return found;
}

/* Makes a call on a copy of a book. The sum leaves the head out, whose edition is the library's. */
static void row(enum shape shape, const char *what, enum call call, const Book *book, const uint8_t *bytes,
                size_t length) {
    static Book copy;
    uint64_t answer;
    copy = *book;
    memset(reply, 0, sizeof reply);
    answer = counted(call, &copy, bytes, length);
    printf("%s|%s%s|%llu|%08x%08x\n", shapes[shape], book->observer ? "observer's " : "", what,
           (unsigned long long)answer, sum(copy.bytes + 64, copy.size - 64), sum(reply, sizeof reply));
}

/* ---- pages, frames and books ---- */

static void put_height(uint8_t *to, unsigned height) {
    to[0] = (uint8_t)height, to[1] = (uint8_t)(height >> 8);
}

/* A full page of a height on the page of a lower one; no two pages share an entry. */
static void put_page(uint8_t *to, unsigned height, unsigned back) {
    unsigned place;
    memset(to, 0, PAGE);
    put_height(to, height), put_height(to + 2, back), to[4] = 8;
    if (back > 0) {
        mavunilai_digest(pages[back], PAGE, to + 16, 32);
    }
    for (place = 0; place < 8; place++) {
        uint8_t *entry = to + 48 + ENTRY * place;
        memset(entry, 'a', ENTRY);
        entry[0] = (uint8_t)(place % 4), entry[1] = (uint8_t)place;
        put_height(entry + 2, height);
    }
}

/* A certificate of stations 0 to 2, or a statement of station 1. */
static const uint8_t *made(unsigned kind, unsigned height, const uint8_t *page) {
    static uint8_t frame[FRAME];
    memset(frame, 0, sizeof frame);
    frame[0] = (uint8_t)kind, put_height(frame + 2, height);
    if (kind < PAGE_CERTIFICATE) {
        frame[1] = 1;
    } else {
        frame[4] = 7;
    }
    if (kind == PROPOSAL || kind == PAGE_CERTIFICATE) {
        memcpy(frame + PAGE_AT, page, PAGE);
    }
    return frame;
}

/* Whether a shape has pages, blanks, and finalises at a height below the last. */
static int has_pages(enum shape shape) { return shape != BLANK; }
static int has_blanks(enum shape shape) { return shape == BLANK || shape == ON_THE_FIRST; }
static int has_finalise(enum shape shape, unsigned height) {
    return shape == ON_THE_FIRST || shape == UNLINKED || (shape == SETTLED && height == heights - 1);
}

/* The certificates of a shape one behind the other; how many they are. */
static unsigned certificates(enum shape shape) {
    unsigned height, count = 0;
    for (height = 1; height < heights; height++) {
        put_page(pages[height], height, shape == ON_THE_FIRST && height > 1 ? 1 : height - 1);
    }
    if (shape == UNLINKED) {
        put_page(pages[1], 1, 0), pages[1][4] = 0, memset(pages[1] + 48, 0, 128);
    }
    for (height = 1; height < heights; height++) {
        if (has_pages(shape)) {
            memcpy(packet + FRAME * count++, made(PAGE_CERTIFICATE, height, pages[height]), FRAME);
        }
        if (has_blanks(shape)) {
            memcpy(packet + FRAME * count++, made(BLANK_CERTIFICATE, height, 0), FRAME);
        }
        if (has_finalise(shape, height)) {
            memcpy(packet + FRAME * count++, made(FINALISE_CERTIFICATE, height, 0), FRAME);
        }
    }
    return count;
}

/* A new book. */
static void opened(Book *book, int observer) {
    memset(book, 0, sizeof *book);
    book->observer = observer;
    book->size = observer ? 64 + 184 * heights : 576 + 880 * heights;
    if (open_call(book)) {
        exit(3);
    }
}

/* A station's book of a shape whose current height is the last, before its first move. */
static void filled(Book *book, enum shape shape) {
    unsigned count = certificates(shape);
    uint64_t counts[3];
    opened(book, 0);
    mavunilai_packet(book->bytes, book->size, packet, FRAME * count, counts);
    put_height(book->bytes + (book->bytes[7] == 3 ? 42 : 4), heights);
}

/* The observer's book with the same certificates; it has no packets, so that rows and pages are copied. */
static void watched(Book *book, const Book *station) {
    unsigned at;
    opened(book, 1);
    for (at = 0; at < heights; at++) {
        const uint8_t *row = station->bytes + 576 + 16 * at;
        const uint8_t *page = station->bytes + 576 + 16 * heights + 864 * at + PAGE;
        book->bytes[64 + 8 * at] = row[1] & 2;
        memcpy(book->bytes + 64 + 8 * at + 2, row + 2, 6);
        memcpy(book->bytes + 64 + 8 * heights + PAGE * at, page, PAGE);
    }
}

/* ---- each call ---- */

static void moves(enum shape shape, const Book *book) {
    static Book other;
    uint8_t page[PAGE];
    row(shape, "Move, the first", MOVE, book, 0, 0);
    other = *book;
    mavunilai_move(other.bytes, other.size, reply, sizeof reply);
    row(shape, "Move, the second", MOVE, &other, 0, 0);
    mavunilai_signal(other.bytes, other.size, heights);
    row(shape, "Move, blank vote", MOVE, &other, 0, 0);
    other = *book;
    mavunilai_deliver(other.bytes, other.size, made(BLANK_CERTIFICATE, heights, 0), FRAME);
    mavunilai_move(other.bytes, other.size, reply, sizeof reply);
    row(shape, "Move, after a blank certificate", MOVE, &other, 0, 0);
    other = *book;
    other.bytes[1] = 1;
    mavunilai_move(other.bytes, other.size, reply, sizeof reply);
    row(shape, "Move, of the leader", MOVE, &other, 0, 0);
    other = *book;
    put_page(page, heights, has_pages(shape) ? heights - 1 : 0);
    mavunilai_deliver(other.bytes, other.size, made(PROPOSAL, heights, page), FRAME);
    mavunilai_move(other.bytes, other.size, reply, sizeof reply);
    row(shape, "Move, over a held page", MOVE, &other, 0, 0);
}

static void station(enum shape shape) {
    static Book book;
    uint8_t three[3 * FRAME], entry[ENTRY] = "\1a new entry";
    unsigned k;
    filled(&book, shape);
    row(shape, "Open", OPEN, &book, 0, 0);
    moves(shape, &book);
    mavunilai_move(book.bytes, book.size, reply, sizeof reply);
    row(shape, "Deliver, blank vote", DELIVER, &book, made(BLANK_VOTE, heights, 0), FRAME);
    row(shape, "Deliver, blank certificate", DELIVER, &book, made(BLANK_CERTIFICATE, 1, 0), FRAME);
    for (k = 0; k < 3; k++) {
        memcpy(three + FRAME * k, made(PAGE_CERTIFICATE + k, heights, pages[1]), FRAME);
    }
    row(shape, "Packet of three", PACKET, &book, three, sizeof three);
    row(shape, "Signal", SIGNAL, &book, 0, heights);
    row(shape, "Submit", SUBMIT, &book, entry, ENTRY);
    for (k = 0; k < 32; k++) {
        entry[15] = (uint8_t)(k + 1);
        mavunilai_submit(book.bytes, book.size, entry, ENTRY);
    }
    entry[15] = 77;
    row(shape, "Submit, all places taken", SUBMIT, &book, entry, ENTRY);
    row(shape, "Size", SIZE, &book, 0, 0);
    row(shape, "Read", READ, &book, 0, 0);
    row(shape, "Fetch", FETCH, &book, 0, 1);
    book.bytes[1] = 1;
    row(shape, "Move, of the leader, all places taken", MOVE, &book, 0, 0);
}

static void observer(enum shape shape) {
    static Book book, station;
    filled(&station, shape);
    watched(&book, &station);
    row(shape, "Open", OPEN, &book, 0, 0);
    row(shape, "Move", MOVE, &book, 0, 0);
    mavunilai_observer_move(book.bytes, book.size);
    row(shape, "Move, the second", MOVE, &book, 0, 0);
    row(shape, "Deliver, blank certificate", DELIVER, &book, made(BLANK_CERTIFICATE, 1, 0), FRAME);
    row(shape, "Size", SIZE, &book, 0, 0);
    row(shape, "Read", READ, &book, 0, 0);
}

int main(int count, char **words) {
    enum shape shape;
    heights = count == 2 ? (unsigned)strtoul(words[1], 0, 10) : 0;
    if (heights < 2 || heights > HEIGHTS) {
        return 2;
    }
    memset(leaders, 1, sizeof leaders);
    for (shape = SETTLED; shape < SHAPES; shape++) {
        station(shape);
        observer(shape);
    }
    return 0;
}
