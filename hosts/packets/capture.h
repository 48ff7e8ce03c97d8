/* The frames of a capture, as they stand in a pcap or pcapng file: their times, lengths, link types and bytes. */
#ifndef CAPTURE_H
#define CAPTURE_H
#include "basics.h"

/* A frame: its time since 1970 if it has one, the length that it had, its link type, and the bytes that were captured, which stay
   until the next frame is asked for. */
struct raw {
    nanoseconds time;
    bool has_time;
    uint32_t length;
    unsigned link;
    struct bytes bytes;
};

/* What is read of a descriptor; below 0 it is none, and there are only the bytes that were read before. */
struct input {
    int descriptor;
    uint8_t *bytes;
    size_t at, end, room;
};

/* An interface of a pcapng file: its link type, the most bytes of a frame, and what its times count. */
struct interface {
    unsigned link;
    uint32_t most;
    nanoseconds ticks; /* in a second */
    int64_t offset;    /* s */
};

struct capture {
    struct input input;
    uint32_t kind; /* of a pcap file; 0 of a pcapng file */
    unsigned link; /* of a pcap file */
    bool is_big, is_cut;
    struct interface *interfaces; /* of this section of a pcapng file */
    size_t count, room;
};

/* Begins to read. A capture that ends in the middle of a frame is cut, and read up to it. */
void begin_capture(struct capture *capture);

/* The next frame, false at the end. */
bool next_frame(struct capture *capture, struct raw *frame);
#endif
