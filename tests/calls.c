/* Calls with what no packet and no frame is: each answers a number of its own, and writes nothing. */
#include "narc.h"

#include <stdio.h>
#include <string.h>

static uint8_t octets[NARC_MAX_FRAME + 1];
static uint8_t room[NARC_MAX_FRAME];
static narc_line line;
static unsigned passed, failed;

static void expect(const char *what, int holds) {
  if (holds) {
    passed++;
    return;
  }
  failed++;
  printf("FAILED %s\n", what);
}

/* A UDP datagram of two octets, which lie in `octets` from the first. */
static narc_packet datagram(void) {
  narc_packet packet;
  memset(&packet, 0, sizeof packet);
  packet.body = NARC_UDP;
  packet.ip.ttl = 64;
  packet.udp.sport = 1;
  packet.payload.len = 2;
  return packet;
}

static uint32_t encode(const narc_packet *packet, size_t room_len, size_t *written) {
  memset(room, 7, sizeof room);
  return narc_encode(packet, octets, 2, room, room_len, written);
}

static int is_room_kept(void) {
  size_t i;
  for (i = 0; i < sizeof room; i++) {
    if (room[i] != 7) return 0;
  }
  return 1;
}

static void expect_no_frame(const char *what, const narc_packet *packet) {
  size_t written = 1;
  expect(what, encode(packet, sizeof room, &written) == NARC_NOT_WELL_FORMED && written == 0 && is_room_kept());
  line.len = 1;
  expect(what, narc_text(packet, octets, 2, &line) == NARC_NOT_WELL_FORMED && line.len == 0);
}

static void try_frames(void) {
  narc_packet packet, before;
  uint64_t at = 1;
  memset(&packet, 7, sizeof packet);
  before = packet;
  expect("null frame", narc_judge(NULL, 0, &at) == 1 && at == 0);
  expect("null frame, decoded", narc_decode(NULL, 0, &packet, &at) == 1 && at == 0);
  at = 1;
  expect("long frame", narc_judge(octets, sizeof octets, &at) == NARC_TOO_LONG && at == 0);
  expect("long frame, decoded", narc_decode(octets, sizeof octets, &packet, &at) == NARC_TOO_LONG && at == 0);
  expect("packet kept", memcmp(&packet, &before, sizeof packet) == 0);
  octets[12] = 0x88;
  expect("longest frame", narc_decode(octets, NARC_MAX_FRAME, &packet, &at) == NARC_OK && packet.payload.len == NARC_MAX_FRAME - 14);
  expect("longest line", narc_text(&packet, octets, NARC_MAX_FRAME, &line) == NARC_OK && line.len > 2 * packet.payload.len);
}

static void try_rooms(void) {
  narc_packet packet = datagram();
  size_t written = 0;
  expect("no room", narc_encode(&packet, octets, 2, NULL, 0, &written) == NARC_NO_ROOM && written == 60);
  expect("room of 59", encode(&packet, 59, &written) == NARC_NO_ROOM && written == 60 && is_room_kept());
  expect("room of 60", encode(&packet, 60, &written) == NARC_OK && written == 60 && room[60] == 7);
}

static void try_packets(void) {
  narc_packet packet = datagram();
  size_t written;
  packet.body = NARC_TCP;
  packet.tcp.flags = 64;
  expect_no_frame("flags of 64", &packet);
  packet.tcp.flags = 63;
  packet.tcp.reserved = 64;
  expect_no_frame("reserved bits of 64", &packet);
  packet = datagram();
  packet.ip.offset = 8192;
  expect_no_frame("offset of 8192", &packet);
  packet = datagram();
  packet.ip.mf = 1;
  expect_no_frame("a datagram in a fragment", &packet);
  packet = datagram();
  packet.body = 77;
  packet.ether_type = 0x0800;
  expect_no_frame("an unknown body of type IPv4", &packet);
  packet.ether_type = 0x8899;
  expect("an unknown body", encode(&packet, sizeof room, &written) == NARC_OK && written == 16);
  packet.payload.at = (size_t)-1;
  packet.payload.len = (size_t)-1;
  expect("a place past the octets", encode(&packet, sizeof room, &written) == NARC_OK && written == 14);
  packet.payload.at = 1;
  expect("a length past the octets", encode(&packet, sizeof room, &written) == NARC_OK && written == 15);
}

/* The frame that is patched is the one that is written of the edited packet. */
static void try_patches(void) {
  static uint8_t edited[60];
  narc_packet packet = datagram();
  narc_edits edits;
  size_t written;
  uint64_t at = 1;
  memset(&edits, 0, sizeof edits);
  packet.ip.ttl = 63;
  packet.udp.dport = 53;
  encode(&packet, sizeof edited, &written);
  memcpy(edited, room, sizeof edited);
  packet = datagram();
  encode(&packet, sizeof room, &written);
  expect("nothing assigned", narc_patch(&edits, room, written, &at) == NARC_OK && at == 0);
  edits.assigned = NARC_SET_IP_TTL | NARC_SET_UDP_DPORT | NARC_SET_TCP_SEQ | NARC_SET_ARP_OP | 0x800000u;
  edits.ip_ttl = 63;
  edits.ip_tos = 7;
  edits.udp_dport = 53;
  expect("a patch", narc_patch(&edits, room, written, &at) == NARC_OK && memcmp(room, edited, sizeof edited) == 0);
  edits.tcp_flags = 64;
  edits.ip_ttl = 1;
  expect("flags of 64 assigned to none", narc_patch(&edits, room, written, &at) == NARC_NO_VALUE && at == 0);
  edits.tcp_flags = 63;
  expect("a patch of no frame", narc_patch(&edits, room, 11, &at) == 2 && at == 6 && memcmp(room, edited, sizeof edited) == 0);
  expect("a patch of nothing", narc_patch(&edits, NULL, 0, &at) == 1 && at == 0);
  expect("a patch of too many", narc_patch(&edits, octets, sizeof octets, &at) == NARC_TOO_LONG && at == 0);
}

static void try_names(void) {
  size_t written = 1;
  memset(room, 7, sizeof room);
  expect("number 256", narc_field_name(256, room, sizeof room, &written) == NARC_NO_FIELD && written == 0 && is_room_kept());
  expect("no room for a name", narc_field_name(19, NULL, 0, &written) == NARC_NO_ROOM && written == 13);
  expect("number 255", narc_field_name(255, room, 7, &written) == NARC_OK && memcmp(room, "unnamed\7", 8) == 0);
  expect("version", narc_version() == 1);
}

int main(void) {
  try_frames();
  try_rooms();
  try_packets();
  try_patches();
  try_names();
  printf("%u passed, %u failed\n", passed, failed);
  return failed != 0;
}
