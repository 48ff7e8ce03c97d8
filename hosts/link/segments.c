#include "segments.h"

#include <stdint.h>
#include <string.h>

#include "octets.h"

enum { IPV4_LENGTH = 2, IPV4_NUMBER = 4, IPV4_CHECKSUM = 10, IPV6_HEADER = 40, IPV6_LENGTH = 4 };
enum { TCP_SEQUENCE = 4, TCP_OFFSET = 12, TCP_FLAGS = 13, TCP_CHECKSUM = 16, TCP_SHORTEST = 20 };
enum { FIN = 1, PUSH = 8, WINDOW_REDUCED = 128 };

/* Folds a sum into the 16 bits of a checksum. */
static unsigned fold(unsigned long sum) {
    while (sum >> 16) sum = (sum & 0xffff) + (sum >> 16);
    return (unsigned)sum;
}

static bool is_to_be_cut(const struct virtio_net_hdr *note) {
    int kind = note->gso_type & ~VIRTIO_NET_HDR_GSO_ECN;
    return (kind == VIRTIO_NET_HDR_GSO_TCPV4 || kind == VIRTIO_NET_HDR_GSO_TCPV6) && note->gso_size > 0;
}

/* Returns the bytes before the data of TCP, or the packet's length if the packet isn't to be cut. */
static size_t headers_of(const struct whole *whole) {
    size_t start = whole->note.csum_start;
    if (!is_to_be_cut(&whole->note) || start + TCP_SHORTEST > whole->len) return whole->len;
    size_t before = start + (size_t)(whole->bytes[NOTE + start + TCP_OFFSET] >> 4) * 4;
    return before < whole->len && before <= LONGEST_HEADERS ? before : whole->len;
}

void begin_cutting(struct whole *whole, size_t len) {
    memcpy(&whole->note, whole->bytes, NOTE);
    whole->len = len;
    whole->cut = 0;
    whole->has_another = true;
    whole->before = headers_of(whole);
    if (whole->before < len) memcpy(whole->headers, whole->bytes + NOTE, whole->before);
}

void fit_ip(unsigned char *ip, size_t len, size_t number) {
    unsigned long sum = 0;
    if (ip[0] >> 4 == 6) {
        put_u16(ip + IPV6_LENGTH, (unsigned)(len - IPV6_HEADER));
        return;
    }
    put_u16(ip + IPV4_LENGTH, (unsigned)len);
    put_u16(ip + IPV4_NUMBER, u16_at(ip + IPV4_NUMBER) + (unsigned)number);
    put_u16(ip + IPV4_CHECKSUM, 0);
    for (size_t at = 0; at < (size_t)(ip[0] & 15) * 4; at += 2) sum += u16_at(ip + at);
    put_u16(ip + IPV4_CHECKSUM, ~fold(sum));
}

void fit_checksum(unsigned char *checksum, size_t was, size_t is) { put_u16(checksum, fold(u16_at(checksum) + (0xffff - was % 0x10000) + is)); }

/* Adapts the header of TCP with `length` bytes, whose data are `before` bytes behind the first: its sequence number, its flags and its
   partial sum. */
static void fit_tcp(unsigned char *tcp, size_t before, bool is_last, size_t whole_length, size_t length) {
    unsigned long sequence = u32_at(tcp + TCP_SEQUENCE) + before;
    put_u16(tcp + TCP_SEQUENCE, (unsigned)(sequence >> 16));
    put_u16(tcp + TCP_SEQUENCE + 2, (unsigned)sequence);
    if (!is_last) tcp[TCP_FLAGS] &= (unsigned char)~(FIN | PUSH);
    if (before > 0) tcp[TCP_FLAGS] &= (unsigned char)~WINDOW_REDUCED;
    fit_checksum(tcp + TCP_CHECKSUM, whole_length, length);
}

size_t cut_next(struct whole *whole, unsigned char **packet) {
    size_t left = whole->len - whole->before - whole->cut;
    size_t data = left < whole->note.gso_size ? left : whole->note.gso_size;
    size_t len = whole->before + data;
    size_t start = whole->note.csum_start;
    struct virtio_net_hdr note = {.flags = VIRTIO_NET_HDR_F_NEEDS_CSUM, .csum_start = whole->note.csum_start, .csum_offset = whole->note.csum_offset};
    *packet = whole->bytes + NOTE + whole->cut;
    whole->has_another = data < left;
    if (left == 0) return len; /* the packet isn't to be cut */
    memcpy(*packet - NOTE, &note, NOTE);
    memcpy(*packet, whole->headers, whole->before);
    fit_ip(*packet, len, whole->cut / whole->note.gso_size);
    fit_tcp(*packet + start, whole->cut, data == left, whole->len - start, len - start);
    whole->cut += data;
    return len;
}

void finish_checksum(unsigned char *packet, size_t len) {
    struct virtio_net_hdr note;
    unsigned long sum = 0;
    memcpy(&note, packet - NOTE, NOTE);
    size_t place = (size_t)note.csum_start + note.csum_offset;
    memset(packet - NOTE, 0, NOTE);
    if (!(note.flags & VIRTIO_NET_HDR_F_NEEDS_CSUM) || place + 2 > len) return;
    for (size_t at = note.csum_start; at < len; at += 2) sum += at + 1 < len ? u16_at(packet + at) : (unsigned)packet[at] << 8;
    unsigned checksum = ~fold(sum) & 0xffff;
    put_u16(packet + place, checksum ? checksum : 0xffff); /* in UDP, 0 means that there is no checksum */
}
