/* narc: a proved codec of Ethernet II frames with ARP, IPv4, UDP and TCP.
 *
 * Each call is a function of its arguments alone: it keeps nothing, allocates nothing, and may run in many threads at once.
 * Pointers lead to as many octets or values as is said, and those written through to memory that nothing else uses while
 * the call runs. Octets of length 0 may have a null pointer.
 */
#ifndef NARC_H
#define NARC_H

#include <stdbool.h>
#include <stddef.h>
#include <stdint.h>

#ifdef __cplusplus
extern "C" {
#endif

/* The most octets of a frame. */
#define NARC_MAX_FRAME 262144u

/* Answers: 0, the number of a field (1 to 255, and of a frame's fields 1 to 30), or one of these. */
#define NARC_OK 0u
#define NARC_TOO_LONG 256u        /* the frame has more than NARC_MAX_FRAME octets */
#define NARC_NOT_WELL_FORMED 257u /* no frame has this packet */
#define NARC_NO_ROOM 258u         /* the room has too few octets */
#define NARC_NO_FIELD 259u        /* no field has this number, which is above 255 */
#define NARC_NO_VALUE 260u        /* a value has more bits than its field */

/* What a packet carries: `body`. Any other number counts as NARC_OTHER. */
#define NARC_OTHER 0u /* data of `ether_type`, in `payload` */
#define NARC_ARP 1u   /* `arp` */
#define NARC_RAW 2u   /* `ip`, and data of `ip.protocol`, or of a fragment, in `payload` */
#define NARC_UDP 3u   /* `ip`, `udp`, and its data in `payload` */
#define NARC_TCP 4u   /* `ip`, `tcp`, and its data in `payload` */

/* Octets among those that go with a packet: the first one's place, and how many there are. What would lie past the last
 * octet is not there. */
typedef struct {
  size_t at;
  size_t len;
} narc_span;

/* RFC 826 */
typedef struct {
  uint16_t op; /* 1 for a request, 2 for a reply */
  uint8_t sender_mac[6];
  uint8_t sender_ip[4];
  uint8_t target_mac[6];
  uint8_t target_ip[4];
} narc_arp;

/* RFC 791. `offset` is below 8192, in units of 8 octets; `options` are spelled without an end of the list. `protocol` is
 * looked at for NARC_RAW alone, and told for each body. */
typedef struct {
  uint8_t tos;
  uint8_t ttl;
  uint8_t protocol;
  bool df;
  bool mf;
  uint16_t id;
  uint16_t offset;
  uint8_t src[4];
  uint8_t dst[4];
  narc_span options;
} narc_ipv4;

/* RFC 768 */
typedef struct {
  uint16_t sport;
  uint16_t dport;
} narc_udp;

/* RFC 793. `reserved` and `flags` are below 64: 32 URG, 16 ACK, 8 PSH, 4 RST, 2 SYN, 1 FIN. */
typedef struct {
  uint16_t sport;
  uint16_t dport;
  uint32_t seq;
  uint32_t ack;
  uint16_t window;
  uint16_t urgent;
  uint8_t reserved;
  uint8_t flags;
  narc_span options;
} narc_tcp;

/* A packet. It holds no pointer: its spans are places in the octets that go with it, which are the frame where it was
 * decoded, and any octets of the caller's where it is encoded. */
typedef struct {
  uint32_t body;
  uint8_t dst[6];
  uint8_t src[6];
  uint16_t ether_type;
  narc_arp arp;
  narc_ipv4 ip;
  narc_udp udp;
  narc_tcp tcp;
  narc_span payload;
} narc_packet;

/* The fields that can be assigned: `assigned` is the sum of their bits. */
#define NARC_SET_ETH_DST 0x000001u
#define NARC_SET_ETH_SRC 0x000002u
#define NARC_SET_ARP_OP 0x000004u
#define NARC_SET_ARP_SHA 0x000008u
#define NARC_SET_ARP_SPA 0x000010u
#define NARC_SET_ARP_THA 0x000020u
#define NARC_SET_ARP_TPA 0x000040u
#define NARC_SET_IP_TOS 0x000080u
#define NARC_SET_IP_ID 0x000100u
#define NARC_SET_IP_DF 0x000200u
#define NARC_SET_IP_TTL 0x000400u
#define NARC_SET_IP_SRC 0x000800u
#define NARC_SET_IP_DST 0x001000u
#define NARC_SET_UDP_SPORT 0x002000u
#define NARC_SET_UDP_DPORT 0x004000u
#define NARC_SET_TCP_SPORT 0x008000u
#define NARC_SET_TCP_DPORT 0x010000u
#define NARC_SET_TCP_SEQ 0x020000u
#define NARC_SET_TCP_ACK 0x040000u
#define NARC_SET_TCP_RESERVED 0x080000u
#define NARC_SET_TCP_FLAGS 0x100000u
#define NARC_SET_TCP_WINDOW 0x200000u
#define NARC_SET_TCP_URGENT 0x400000u

/* Edits: a value for each field that is assigned. The other members are not looked at, but that `tcp_reserved` and
 * `tcp_flags` are below 64 always. */
typedef struct {
  uint32_t assigned;
  uint8_t eth_dst[6];
  uint8_t eth_src[6];
  uint16_t arp_op;
  uint8_t arp_sha[6];
  uint8_t arp_spa[4];
  uint8_t arp_tha[6];
  uint8_t arp_tpa[4];
  uint8_t ip_tos;
  uint16_t ip_id;
  bool ip_df;
  uint8_t ip_ttl;
  uint8_t ip_src[4];
  uint8_t ip_dst[4];
  uint16_t udp_sport;
  uint16_t udp_dport;
  uint16_t tcp_sport;
  uint16_t tcp_dport;
  uint32_t tcp_seq;
  uint32_t tcp_ack;
  uint8_t tcp_reserved;
  uint8_t tcp_flags;
  uint16_t tcp_window;
  uint16_t tcp_urgent;
} narc_edits;

/* More octets than the text of any packet. */
#define NARC_LINE_SIZE 524304u

/* Text in the caller's memory, of which `len` octets are written; no octet 0 ends it. Any `len` may stand in it before. */
typedef struct {
  size_t len;
  uint8_t octets[NARC_LINE_SIZE];
} narc_line;

/* Whether the octets are a frame of a packet: NARC_OK where they are, and else the number of the first field, in layout
 * order, that has no admissible reading, and in `at` its place; NARC_TOO_LONG for more than NARC_MAX_FRAME octets.
 * `at` is 0 unless a field is answered. */
uint32_t narc_judge(const uint8_t *frame, size_t frame_len, uint64_t *at);

/* What narc_judge answers, and where that is NARC_OK the packet, whose spans are places in the frame. Else the packet
 * stays as it was. */
uint32_t narc_decode(const uint8_t *frame, size_t frame_len, narc_packet *packet, uint64_t *at);

/* Writes the frame of a packet into the front of the room, and into `written` how many octets it has. Of all frames of the
 * packet it is the one with the shortest options areas, computed checksums and no surplus, filled with octets 0 up to 60
 * for ARP and IPv4. NARC_NOT_WELL_FORMED where no frame has the packet: a number past its range, options that are not
 * spelled or take over 40 octets, a body that is not of its type or protocol, or more octets than a length tells;
 * `written` is 0 then. NARC_NO_ROOM where the frame has more octets than the room: `written` says how many. Unless
 * NARC_OK is answered the room stays as it was, and past `written` it stays so always. */
uint32_t narc_encode(const narc_packet *packet, const uint8_t *octets, size_t octets_len, uint8_t *room, size_t room_len,
                     size_t *written);

/* Assigns in place those fields that the packet of the frame has, and mends the checksums over them (RFC 1624); all other
 * octets stay, and an assignment to a field that the packet lacks changes nothing. The octets are then a frame of the edited
 * packet. What narc_judge answers, with the place in `at`; unless that is NARC_OK the frame stays as it was.
 * NARC_NO_VALUE, whatever the octets, where `tcp_reserved` or `tcp_flags` is above 63. */
uint32_t narc_patch(const narc_edits *edits, uint8_t *frame, size_t frame_len, uint64_t *at);

/* Writes the text of a packet, as the command `narc frame` prints it behind `ok `, without a line end.
 * NARC_NOT_WELL_FORMED where no frame has the packet, which is answered for no packet that was decoded; `len` is 0 then.
 * A line has room for the text of any packet. It takes some 70 KiB of stack. */
uint32_t narc_text(const narc_packet *packet, const uint8_t *octets, size_t octets_len, narc_line *line);

/* Writes the name of a field, as `ipv4.checksum`, of at most 20 octets, into the front of the room, and its length into
 * `written`; the name is `unnamed` for 0 and from 31 on. NARC_NO_FIELD for a number above 255, with 0 in `written`;
 * NARC_NO_ROOM for a name that is longer than the room, whose length is in `written`. The room stays as it was then. */
uint32_t narc_field_name(uint32_t field, uint8_t *room, size_t room_len, size_t *written);

/* The version of these calls: 1. */
uint32_t narc_version(void);

/* These have the sizes that the library gives them, or this does not compile. */
typedef char narc_packet_has_144_octets[sizeof(narc_packet) == 144 ? 1 : -1];
typedef char narc_edits_has_76_octets[sizeof(narc_edits) == 76 ? 1 : -1];

#ifdef __cplusplus
}
#endif

#endif
