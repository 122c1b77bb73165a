/* A station's host in C, to be copied: the book in a file, timer, sending, own frames, evidence.
 *
 * It does what docs/HOST.md asks of a host, but for two things that are yours: signatures (signatures_hold and
 * send_frame are the places) and a network. In the place of a network there are the standard input and output, a
 * message a line, which another program carries to all other stations and from them:
 *
 *   frame 448-DIGITS     both ways: a frame
 *   hello                both ways: this station has just begun, and lacks what was sent before
 *   entry 32-DIGITS      in: an entry for the register, handed to every station
 *   settled 32-DIGITS    out: an entry of the register, each once and in order
 *
 * The same messages, in Rust: host/example/src/main.rs, which keeps its book by host/store. That crate also remembers
 * what the station has said, against an older copy that is put back; this one does not. From the repository's root,
 * once target/staticlib/libreplica_c.a is there; station 0 of 4, which weigh the same, with a delta of half a second:
 *
 *   cc -Ihost/include host/example/host.c target/staticlib/libreplica_c.a -o host
 *   ./host BOOK 4 0 1,1,1,1 0,1,2,3 500 EVIDENCE
 *
 * BOOK is made where it is not there; else the station goes on with it, whatever ended it before. */
#define _DEFAULT_SOURCE /* flock */
#include <errno.h>
#include <fcntl.h>
#include <libgen.h>
#include <limits.h>
#include <poll.h>
#include <stdio.h>
#include <stdlib.h>
#include <string.h>
#include <sys/file.h>
#include <sys/stat.h>
#include <time.h>
#include <unistd.h>

#include "mavunilai.h"

/* The files beside the book. */
static char book_name[PATH_MAX], new_name[PATH_MAX], frames_name[PATH_MAX], frames_new[PATH_MAX], lock_name[PATH_MAX];
static char folder_name[PATH_MAX], evidence_name[PATH_MAX];

/* The book as it is in the file, with a byte more so that a file that is too long is seen; and which file that is. */
static uint8_t book[MAVUNILAI_MOST_BOOK + 1];
static size_t book_length;
static struct stat book_file;

/* The copy of the book on which a call is made before it is committed: too large for the stack of some threads. */
static uint8_t next[MAVUNILAI_MOST_BOOK + 1];

/* The longest time in milliseconds that a message takes between two stations that work; the height that the timer was
 * started for last, and when it fires, -1 while it does not run. */
static long delta;
static unsigned timed;
static long long timer = -1;

/* How many bytes of the register are told, and the settled height at which they were read. */
static uint64_t told;
static unsigned told_height;

/* Ends the host with a sentence: nothing is lost, and it can be begun again. */
static void die(const char *sentence) {
    fprintf(stderr, "host: %s\n", sentence);
    exit(1);
}

/* Ends it because the system refused something of a file. */
static void fail(const char *name) {
    fprintf(stderr, "host: %s: %s\n", name, strerror(errno));
    exit(1);
}

/* ---- Digits ---- */

/* Prints bytes as digits. */
static void print_digits(FILE *to, const uint8_t *bytes, size_t length) {
    size_t at;
    for (at = 0; at < length; at++) {
        fprintf(to, "%02x", bytes[at]);
    }
}

/* The value of a digit; -1 for another letter. */
static int digit_value(char digit) {
    const char *digits = "0123456789abcdef", *found = digit == '\0' ? NULL : strchr(digits, digit);
    return found == NULL ? -1 : (int)(found - digits);
}

/* Reads so many bytes out of their digits; 1 if the text is these and no more. */
static int read_digits(const char *text, uint8_t *bytes, size_t length) {
    size_t at;
    for (at = 0; at < length; at++) {
        int high = digit_value(text[2 * at]), low = high < 0 ? -1 : digit_value(text[2 * at + 1]);
        if (low < 0) {
            return 0;
        }
        bytes[at] = (uint8_t)(16 * high + low);
    }
    return text[2 * length] == '\0';
}

/* ---- Keeping: docs/HOST.md, "Keeping and sending" ---- */

/* Syncs a file that is written, and closes it. */
static void close_synced(FILE *file, const char *name) {
    if (fflush(file) != 0 || fsync(fileno(file)) != 0 || fclose(file) != 0) {
        fail(name);
    }
}

/* Opens a file. */
static FILE *open_file(const char *name, const char *how) {
    FILE *file = fopen(name, how);
    if (file == NULL) {
        fail(name);
    }
    return file;
}

/* Syncs the folder: only then a new name in it is there after an end of the machine. */
static void sync_folder(void) {
    int folder = open(folder_name, O_RDONLY | O_DIRECTORY);
    if (folder < 0 || fsync(folder) != 0 || close(folder) != 0) {
        fail(folder_name);
    }
}

/* Renames a file, and ends the host where that fails. */
static void rename_file(const char *from, const char *to) {
    if (rename(from, to) != 0) {
        fail(to);
    }
}

/* Puts frames beside the book, with the digest of the book that cast them: who finds them knows whether it was ever
 * committed. The form is that of host/store. */
static void keep_frames(const uint8_t *frames, unsigned count) {
    uint8_t digest[MAVUNILAI_DIGEST];
    FILE *file = open_file(frames_new, "w");
    unsigned at;
    mavunilai_disregard(mavunilai_digest(next, book_length, digest, sizeof digest)); /* there is room */
    fprintf(file, "mavunilai frames 1\nbook ");
    print_digits(file, digest, sizeof digest);
    for (at = 0; at < count; at++) {
        fprintf(file, "\n");
        print_digits(file, frames + at * MAVUNILAI_FRAME, MAVUNILAI_FRAME);
    }
    fprintf(file, "\nend\n");
    close_synced(file, frames_new);
    rename_file(frames_new, frames_name);
}

/* Writes a book to the new file beside it; which file that is. */
static struct stat write_new(const uint8_t *bytes) {
    struct stat written;
    FILE *file = open_file(new_name, "w");
    if (fstat(fileno(file), &written) != 0 || fwrite(bytes, 1, book_length, file) != book_length) {
        fail(new_name);
    }
    close_synced(file, new_name);
    sync_folder();
    return written;
}

/* Puts the copy in the place of the book in the file. This is the commit. */
static void replace_book(void) {
    struct stat found, written = write_new(next);
    /* One who renamed or replaced the book meanwhile would make two books of one station. */
    if (stat(book_name, &found) != 0 || found.st_dev != book_file.st_dev || found.st_ino != book_file.st_ino) {
        die("the book is not the file any more that was read; nothing is written");
    }
    rename_file(new_name, book_name);
    sync_folder();
    book_file = written;
    memcpy(book, next, book_length);
}

/* Commits a call: first the frames that it cast, then the book. An end at any step leaves the old book, or the new one
 * with its frames beside it. */
static void commit(const uint8_t *frames, unsigned count) {
    if (count > 0) {
        keep_frames(frames, count);
    }
    if (memcmp(next, book, book_length) != 0) {
        replace_book();
    }
}

/* Keeps a frame as evidence, with what it shows, and syncs it. With signatures, keep those too, and those of the frame
 * that it contradicts. */
static void keep_evidence(const char *what, const uint8_t *frame) {
    FILE *file = open_file(evidence_name, "a");
    fprintf(file, "%s ", what);
    print_digits(file, frame, MAVUNILAI_FRAME);
    fprintf(file, "\n");
    close_synced(file, evidence_name);
    fprintf(stderr, "host: kept as evidence: %s\n", what);
}

/* ---- Sending ---- */

/* YOURS: sends a frame to all other stations, signed under the season's name if it is of kinds 1 to 4, else with the
 * signatures that you keep. What is sent must arrive in the end: send again until the other host has it. A pipe loses
 * nothing, so this example sends once. */
static void send_frame(const uint8_t *frame) {
    printf("frame ");
    print_digits(stdout, frame, MAVUNILAI_FRAME);
    printf("\n");
}

/* Sees that what was sent has left this process. */
static void flush_output(void) {
    if (fflush(stdout) != 0 || ferror(stdout)) {
        die("the output cannot be written");
    }
}

/* Sends all that fetch gives: what takes a station that is behind to our height. */
static void send_certificates(void) {
    uint8_t reply[MAVUNILAI_FETCH_REPLY];
    unsigned height, kind;
    for (height = 1; height <= mavunilai_heights(book); height++) {
        for (kind = MAVUNILAI_KIND_PAGE_CERTIFICATE; kind <= MAVUNILAI_KIND_FINALISE_CERTIFICATE; kind++) {
            /* Refused with 11 where the book does not hold it. */
            if (mavunilai_refusal(mavunilai_fetch(book, book_length, kind, height, reply, sizeof reply)) == 0) {
                send_frame(reply);
            }
        }
    }
    flush_output();
}

/* The next line of the file of frames, without its end; the host ends where there is none. */
static const char *waiting_line(FILE *file) {
    static char line[2 * MAVUNILAI_FRAME + 2];
    if (fgets(line, sizeof line, file) == NULL) {
        die("the file of the frames that wait is not whole");
    }
    line[strcspn(line, "\n")] = '\0';
    return line;
}

/* Sends the frames that an earlier life left beside the book. Those of another book were never cast: they are dropped.
 * A file that is none of ours is left alone. */
static void send_waiting(void) {
    uint8_t named[MAVUNILAI_DIGEST], digest[MAVUNILAI_DIGEST], frame[MAVUNILAI_FRAME];
    FILE *file = fopen(frames_name, "r");
    const char *line;
    int ours;
    if (file == NULL) {
        return; /* none wait */
    }
    mavunilai_disregard(mavunilai_digest(book, book_length, digest, sizeof digest));
    ours = strcmp(waiting_line(file), "mavunilai frames 1") == 0;
    line = waiting_line(file);
    ours = ours && strncmp(line, "book ", 5) == 0 && read_digits(line + 5, named, sizeof named);
    while (ours && strcmp(line = waiting_line(file), "end") != 0) {
        ours = read_digits(line, frame, sizeof frame);
        if (ours && memcmp(named, digest, sizeof digest) == 0) {
            send_frame(frame);
        }
    }
    if (!ours) {
        die("the file of the frames that wait holds something else");
    }
    fclose(file);
    flush_output();
    remove(frames_name);
}

/* ---- What comes ---- */

/* YOURS: whether all signatures of a frame hold that came from another station. Of kinds 1 to 4 its signer's, of kinds
 * 5 to 7 one for each bit of the mask, under the name of this season, as docs/HOST.md says; mavunilai_digest gives the
 * digest of a certified page. Keep what you have checked, synced, before the frame is delivered. This example has no
 * keys and believes everybody, so it is for trials among friends only. */
static int signatures_hold(const uint8_t *frame) {
    (void)frame;
    return 1;
}

/* Takes a frame whose signatures hold, and keeps it where it shows that somebody broke the rules. */
static void deliver(const uint8_t *frame) {
    unsigned refusal;
    memcpy(next, book, book_length);
    refusal = mavunilai_refusal(mavunilai_deliver(next, book_length, frame, MAVUNILAI_FRAME));
    if (refusal == MAVUNILAI_REFUSED_OTHER_KEPT) {
        keep_evidence("refused with 8", frame);
    } else if (refusal == MAVUNILAI_REFUSED_OTHER_NOTARISED) {
        keep_evidence("refused with 10", frame);
        die("another page is notarised at that height: stop, and compare");
    } else if (refusal != 0) {
        fprintf(stderr, "host: a frame is dropped: %s\n", mavunilai_refusal_text(refusal));
    } else {
        if (mavunilai_second_page(next, frame)) {
            keep_evidence("second page", frame);
        }
        commit(NULL, 0);
    }
}

/* Hands an entry to the station. One that is pending or in the register already is taken. */
static void submit(const uint8_t *entry) {
    unsigned refusal;
    memcpy(next, book, book_length);
    refusal = mavunilai_refusal(mavunilai_submit(next, book_length, entry, MAVUNILAI_ENTRY));
    if (refusal == 0) {
        commit(NULL, 0);
    } else if (refusal != MAVUNILAI_REFUSED_ENTRY_KNOWN) {
        fprintf(stderr, "host: an entry is not taken: %s\n", mavunilai_refusal_text(refusal));
    }
}

/* The timer of the current height has fired. That it comes late is no fault: it is refused with 14. */
static void timer_fired(void) {
    timer = -1;
    memcpy(next, book, book_length);
    if (mavunilai_refusal(mavunilai_signal(next, book_length, timed)) == 0) {
        commit(NULL, 0);
    }
}

/* Takes a message. One that is none of ours is said and dropped. */
static void take_message(const char *line) {
    uint8_t frame[MAVUNILAI_FRAME], entry[MAVUNILAI_ENTRY];
    if (strncmp(line, "frame ", 6) == 0 && read_digits(line + 6, frame, sizeof frame) && signatures_hold(frame)) {
        deliver(frame);
    } else if (strncmp(line, "entry ", 6) == 0 && read_digits(line + 6, entry, sizeof entry)) {
        submit(entry);
    } else if (strcmp(line, "hello") == 0) {
        send_certificates();
    } else {
        fprintf(stderr, "host: a line that is no message, or a frame without its signatures, is dropped\n");
    }
}

/* ---- The round of work: docs/HOST.md ---- */

/* Makes a move, delivers what it wrote to the same book, commits both, and sends; 0 if no move applies. With each pass
 * and each proposal goes all that fetch gives. */
static int make_move(void) {
    uint8_t reply[MAVUNILAI_MOVE_REPLY];
    mavunilai_answer answer;
    unsigned made, at;
    memcpy(next, book, book_length);
    answer = mavunilai_move(next, book_length, reply, sizeof reply);
    if (mavunilai_refusal(answer) != 0) {
        die(mavunilai_refusal_text(mavunilai_refusal(answer)));
    }
    for (at = 0; at < mavunilai_frames(answer); at++) {
        /* What the own book refuses is sent all the same. */
        mavunilai_disregard(mavunilai_deliver(next, book_length, reply + at * MAVUNILAI_FRAME, MAVUNILAI_FRAME));
    }
    commit(reply, mavunilai_frames(answer));
    for (at = 0; at < mavunilai_frames(answer); at++) {
        send_frame(reply + at * MAVUNILAI_FRAME);
    }
    flush_output();
    remove(frames_name);
    made = mavunilai_made(answer);
    if (made == MAVUNILAI_MOVE_PASS || made == MAVUNILAI_MOVE_PROPOSAL) {
        send_certificates();
    }
    return made != MAVUNILAI_MOVE_IDLE;
}

/* Milliseconds of a clock that nobody sets. */
static long long now(void) {
    struct timespec time;
    clock_gettime(CLOCK_MONOTONIC, &time);
    return time.tv_sec * 1000LL + time.tv_nsec / 1000000;
}

/* Tells the entries by which the register has grown: they are in it for good. It is read where the settled height has
 * grown, and not with every frame. */
static void tell_register(void) {
    static uint8_t entries[MAVUNILAI_MOST_REGISTER];
    uint64_t length;
    if (mavunilai_settled(book) == told_height) {
        return;
    }
    told_height = mavunilai_settled(book);
    length = mavunilai_read(book, book_length, entries, sizeof entries);
    for (; told < length; told += MAVUNILAI_ENTRY) {
        printf("settled ");
        print_digits(stdout, entries + told, MAVUNILAI_ENTRY);
        printf("\n");
    }
    flush_output();
}

/* Moves until idle. If the current height has grown, its timer is started, 3 delta from now; above the last height
 * there is none. */
static void work(void) {
    while (make_move()) {
    }
    if (mavunilai_current(book) != timed) {
        timed = mavunilai_current(book);
        timer = mavunilai_has_height(book, timed) ? now() + 3 * delta : -1;
    }
    tell_register();
}

/* Takes the lines that have come; 0 once the input has ended. */
static int take_input(void) {
    static char input[1 << 16];
    static size_t held;
    ssize_t more = read(STDIN_FILENO, input + held, sizeof input - held);
    char *line = input, *end;
    if (more <= 0) {
        return more < 0 && errno == EINTR;
    }
    held += (size_t)more;
    while ((end = (char *)memchr(line, '\n', (size_t)(input + held - line))) != NULL) {
        *end = '\0';
        take_message(line);
        line = end + 1;
    }
    held = (size_t)(input + held - line);
    memmove(input, line, held);
    if (held == sizeof input) {
        die("a line has no end");
    }
    return 1;
}

/* ---- The beginning ---- */

/* Names the files. */
static void name_files(const char *name, const char *evidence) {
    char copy[PATH_MAX];
    if (strlen(name) + sizeof ".frames.new" > sizeof copy || strlen(evidence) >= sizeof copy) {
        die("a name is too long");
    }
    strcpy(book_name, name);
    strcpy(evidence_name, evidence);
    sprintf(new_name, "%s.new", name);
    sprintf(frames_name, "%s.frames", name);
    sprintf(frames_new, "%s.frames.new", name);
    sprintf(lock_name, "%s.lock", name);
    strcpy(copy, name);
    strcpy(folder_name, dirname(copy));
}

/* Reads numbers with commas between them, at most so many, and gives how many there are. One that is too large for two
 * bytes becomes the largest: nothing that is opened takes it. */
static size_t read_numbers(const char *list, uint16_t *numbers, size_t most) {
    size_t count = 0;
    char *end = NULL;
    for (; list != NULL && count < most; list = *end == ',' ? end + 1 : NULL) {
        unsigned long number = strtoul(list, &end, 10);
        numbers[count++] = number < UINT16_MAX ? (uint16_t)number : (uint16_t)UINT16_MAX;
    }
    if (list != NULL) {
        die(mavunilai_refusal_text(MAVUNILAI_REFUSED_OUT_OF_RANGE));
    }
    return count;
}

/* Makes a new book in a file that is not there. */
static void make_book(unsigned long n, unsigned long own, const char *weight_list, const char *roll) {
    uint8_t weights[MAVUNILAI_WEIGHTS(MAVUNILAI_MOST_STATIONS)], leaders[MAVUNILAI_MOST_HEIGHTS];
    uint16_t numbers[MAVUNILAI_MOST_HEIGHTS];
    size_t stations = read_numbers(weight_list, numbers, MAVUNILAI_MOST_STATIONS), heights, at;
    unsigned refusal;
    mavunilai_make_weights(weights, numbers, stations);
    heights = read_numbers(roll, numbers, MAVUNILAI_MOST_HEIGHTS);
    for (at = 0; at < heights; at++) {
        leaders[at] = (uint8_t)(numbers[at] < MAVUNILAI_MOST_STATIONS ? numbers[at] : MAVUNILAI_NO_STATION);
    }
    book_length = MAVUNILAI_BOOK(heights);
    refusal = mavunilai_refusal(mavunilai_open(book, book_length, n, own, heights, weights, MAVUNILAI_WEIGHTS(stations),
                                               leaders, heights));
    if (refusal != 0) {
        die(mavunilai_refusal_text(refusal));
    }
    book_file = write_new(book);
    rename_file(new_name, book_name);
}

/* Reads the book that is in the file, or makes it; the lock is held until the process ends. */
static void open_book(unsigned long n, unsigned long own, const char *weight_list, const char *roll) {
    int lock = open(lock_name, O_RDWR | O_CREAT, 0644);
    FILE *file;
    if (lock < 0 || flock(lock, LOCK_EX) != 0) {
        fail(lock_name);
    }
    file = fopen(book_name, "r");
    if (file == NULL && errno == ENOENT) {
        make_book(n, own, weight_list, roll);
    } else if (file == NULL || fstat(fileno(file), &book_file) != 0) {
        fail(book_name);
    } else {
        book_length = fread(book, 1, sizeof book, file);
        fclose(file);
        if (mavunilai_refusal(mavunilai_size(book, book_length)) != 0) {
            die(mavunilai_refusal_text(MAVUNILAI_REFUSED_UNSOUND));
        }
    }
    sync_folder(); /* who was here before may have ended just after renaming */
}

int main(int count, char **words) {
    if (count != 8) {
        fprintf(stderr, "usage: host BOOK N OWN WEIGHT,WEIGHT,.. LEADER,LEADER,.. MILLISECONDS EVIDENCE\n");
        return 2;
    }
    if (!mavunilai_fits()) {
        die("the library is of another interface than the header");
    }
    name_files(words[1], words[7]);
    delta = strtol(words[6], NULL, 10);
    open_book(strtoul(words[2], NULL, 10), strtoul(words[3], NULL, 10), words[4], words[5]);
    fclose(open_file(evidence_name, "a"));
    send_waiting();
    printf("hello\n");
    for (;;) {
        struct pollfd input = {STDIN_FILENO, POLLIN, 0};
        long long left;
        int ready;
        work();
        left = timer < 0 ? -1 : timer - now();
        ready = poll(&input, 1, timer < 0 ? -1 : left < 0 ? 0 : (int)left);
        if (ready > 0 && !take_input()) {
            return 0;
        }
        if (timer >= 0 && now() >= timer) {
            timer_fired();
        }
    }
}
