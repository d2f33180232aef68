/* Prints what `narc frame` prints for the frame in a file, and checks that the packet's own frame decodes to it again. */
#include "narc.h"

#include <stdio.h>
#include <string.h>

static uint8_t frame[NARC_MAX_FRAME + 1];
static uint8_t again[NARC_MAX_FRAME];
static narc_line line, second;

static int refuse(uint32_t answer, uint64_t at) {
  uint8_t name[20];
  size_t len;
  if (narc_field_name(answer, name, sizeof name, &len) != NARC_OK) {
    fprintf(stderr, "answer %u\n", (unsigned)answer);
    return 3;
  }
  printf("refused %.*s %llu\n", (int)len, (const char *)name, (unsigned long long)at);
  return 1;
}

/* The frame that is written of the packet has the same text. */
static int is_same_again(const narc_packet *packet, size_t frame_len) {
  narc_packet read;
  uint64_t at;
  size_t len;
  if (narc_encode(packet, frame, frame_len, again, sizeof again, &len) != NARC_OK) return 0;
  if (narc_decode(again, len, &read, &at) != NARC_OK) return 0;
  if (narc_text(&read, again, len, &second) != NARC_OK) return 0;
  return second.len == line.len && memcmp(second.octets, line.octets, line.len) == 0;
}

int main(int argc, char **argv) {
  narc_packet packet;
  uint64_t at, judged_at;
  FILE *file = argc == 2 ? fopen(argv[1], "rb") : NULL;
  if (file == NULL) {
    fprintf(stderr, "usage: example FRAME\n");
    return 2;
  }
  size_t len = fread(frame, 1, sizeof frame, file);
  fclose(file);
  uint32_t answer = narc_decode(frame, len, &packet, &at);
  if (narc_judge(frame, len, &judged_at) != answer || judged_at != at) return 4;
  if (answer != NARC_OK) return refuse(answer, at);
  if (narc_text(&packet, frame, len, &line) != NARC_OK) return 4;
  if (!is_same_again(&packet, len)) return 5;
  printf("ok %.*s\n", (int)line.len, (const char *)line.octets);
  return 0;
}
