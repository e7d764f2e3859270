/* Tells why a meter meets a frame with silence or an error: a sentence for each frame.
   usage: why [-b BANK] [-r RING] [-f FRAME] SHEET
   BANK is a file with a bank's bytes, or one that the simulated meter keeps; without it the bank is a fresh one. RING is a file with a ring's bytes, for
   a sheet that has a history, as the simulated meter keeps it; without it the ring is empty. FRAME is a frame in hex; without it each line of standard
   input is one. Every frame is judged with the bank and the ring as they are given: none of them changes it.
   Exit status 2, and nothing on standard output, where the sheet, the bank, the ring or one of the frames cannot be taken. */
#define _XOPEN_SOURCE 700
#include <errno.h>
#include <stdio.h>
#include <stdlib.h>
#include <string.h>
#include <unistd.h>

#include "bank_file.h"
#include "hex.h"
#include "reasons.h"
#include "ring_file.h"
#include "shown.h"

enum { REFUSED = 2 };

struct frame {
    uint8_t *bytes;
    size_t n;
};

struct capture {
    struct frame *frames;
    size_t n, room;
};

struct names {
    const char *sheet, *bank, *ring, *frame;
};

/* Where the name for an option's letter goes; NULL for any other letter. */
static const char **name_of(struct names *names, int letter)
{
    switch (letter) {
    case 'b': return &names->bank;
    case 'r': return &names->ring;
    case 'f': return &names->frame;
    default: return NULL;
    }
}

/* Says how it is used, and ends the program, where it is used otherwise. */
static struct names names_given(int argc, char **argv)
{
    struct names names = { NULL, NULL, NULL, NULL };
    int letter = getopt(argc, argv, "b:r:f:");
    for (; name_of(&names, letter); letter = getopt(argc, argv, "b:r:f:"))
        *name_of(&names, letter) = optarg;
    if (letter != -1 || optind + 1 != argc) {
        fprintf(stderr, "usage: why [-b BANK] [-r RING] [-f FRAME] SHEET\n");
        exit(REFUSED);
    }
    names.sheet = argv[optind];
    return names;
}

static void *room_for(void *before, size_t size)
{
    void *room = realloc(before, size);
    if (!room) {
        fprintf(stderr, "there is no memory for so many frames\n");
        exit(REFUSED);
    }
    return room;
}

static void add_frame(struct capture *capture, struct frame frame)
{
    if (capture->n == capture->room) {
        capture->room = 2 * capture->room + 16;
        capture->frames = room_for(capture->frames, capture->room * sizeof *capture->frames);
    }
    capture->frames[capture->n++] = frame;
}

/* The part of a text that is at fault. */
static void tell_fault(const char *where, const char *text, const struct hex_fault *fault)
{
    fprintf(stderr, "%s: ", where);
    show_text(stderr, text + fault->at, fault->n);
    fprintf(stderr, " %s\n", fault->why);
}

/* Adds the frame of a text, if it has any byte. */
static int take_text(struct capture *capture, const char *where, const char *text, size_t n)
{
    struct hex_fault fault;
    uint8_t *bytes = room_for(NULL, HEX_ROOM(n) + 1);
    ptrdiff_t bytes_n = bytes_of_hex(text, n, bytes, &fault);
    if (bytes_n > 0) {
        struct frame frame = { bytes, (size_t)bytes_n };
        add_frame(capture, frame);
        return 0;
    }
    free(bytes);
    if (bytes_n < 0)
        tell_fault(where, text, &fault);
    return bytes_n < 0 ? -1 : 0;
}

/* A line up to its end, or up to a remark. */
static size_t length_of_line(const char *line, size_t n)
{
    const char *remark = memchr(line, '#', n);
    if (remark)
        return (size_t)(remark - line);
    return n > 0 && line[n - 1] == '\n' ? n - 1 : n;
}

static int take_lines(struct capture *capture)
{
    char *line = NULL, where[64];
    size_t room = 0, number = 0;
    ssize_t n = 0;
    int taken = 0;
    if (isatty(STDIN_FILENO))
        fprintf(stderr, "frames in hex, one to a line; Ctrl-D ends them\n");
    while (taken == 0 && (n = getline(&line, &room, stdin)) >= 0) {
        snprintf(where, sizeof where, "standard input, line %zu", ++number);
        taken = take_text(capture, where, line, length_of_line(line, (size_t)n));
    }
    free(line);
    if (taken == 0 && ferror(stdin)) {
        fprintf(stderr, "standard input: %s\n", strerror(errno));
        return -1;
    }
    return taken;
}

static int take_frames(struct capture *capture, const char *frame)
{
    if ((frame ? take_text(capture, "FRAME", frame, strlen(frame)) : take_lines(capture)) != 0)
        return -1;
    if (capture->n > 0)
        return 0;
    fprintf(stderr, "%s: there is no frame\n", frame ? "FRAME" : "standard input");
    return -1;
}

static int tell_all(const struct meter *meter, const struct capture *capture)
{
    struct reason reason;
    for (size_t k = 0; k < capture->n; k++) {
        uint32_t number = ask_reason(&reason, meter, capture->frames[k].bytes, capture->frames[k].n);
        if (number != CEDARSKEIN_DONE) {
            fprintf(stderr, "number %u: the library refuses the sheet, the bank or the ring\n", (unsigned)number);
            return REFUSED;
        }
        print_sentence(&reason);
    }
    if (fflush(stdout) == 0)
        return 0;
    fprintf(stderr, "standard output: %s\n", strerror(errno));
    return REFUSED;
}

int main(int argc, char **argv)
{
    static struct meter meter;
    struct capture capture = { NULL, 0, 0 };
    struct names names = names_given(argc, argv);
    if (load_meter(&meter, names.sheet) != 0 || (names.bank && read_bank(&meter, names.bank) != 0)
        || (names.ring && read_ring(&meter, names.ring) != 0) || take_frames(&capture, names.frame) != 0)
        return REFUSED;
    return tell_all(&meter, &capture);
}
