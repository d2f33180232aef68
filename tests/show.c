/* Prints what `narc show` prints for the capture in a file: the records are walked here, and their frames are narc's. */
#include "narc.h"

#include <stdio.h>
#include <stdlib.h>

typedef struct {
  const uint8_t *octets;
  size_t len;
  int big;
} capture;

typedef struct {
  unsigned long records, packets, refused, snapped;
} counts;

static narc_line line;

/* The number in `count` octets, in the byte order of the capture. */
static unsigned long number(const capture *of, size_t at, size_t count) {
  unsigned long value = 0;
  size_t i;
  for (i = 0; i < count; i++) value = value << 8 | of->octets[at + (of->big ? i : count - 1 - i)];
  return value;
}

static int end_at(const char *word, size_t at) {
  printf("%s %lu\n", word, (unsigned long)at);
  return 3;
}

static int is_magic(const capture *of) {
  return number(of, 0, 4) == 0xa1b2c3d4ul || number(of, 0, 4) == 0xa1b23c4dul;
}

/* 0 and the line of the header, or the status of a capture without one. */
static int show_header(capture *of) {
  if (of->len < 24) return end_at("torn", 0);
  of->big = 1;
  if (!is_magic(of)) of->big = 0;
  if (!is_magic(of)) return end_at("bad", 0);
  if (number(of, 4, 2) != 2) return end_at("bad", 4);
  if (number(of, 6, 2) != 4) return end_at("bad", 6);
  if (number(of, 20, 4) != 1) return end_at("bad", 20);
  printf("capture %s %lu\n", number(of, 0, 4) == 0xa1b2c3d4ul ? "us" : "ns", number(of, 16, 4));
  return 0;
}

static void show_refusal(uint32_t field, uint64_t at) {
  uint8_t name[20];
  size_t len = 0;
  if (narc_field_name(field, name, sizeof name, &len) != NARC_OK) exit(4);
  printf("refused %.*s %lu\n", (int)len, (const char *)name, (unsigned long)at);
}

static void show_frame(const uint8_t *frame, size_t len, counts *all) {
  narc_packet packet;
  uint64_t at;
  uint32_t answer = narc_decode(frame, len, &packet, &at);
  if (answer != NARC_OK) {
    all->refused++;
    show_refusal(answer, at);
    return;
  }
  all->packets++;
  if (narc_text(&packet, frame, len, &line) != NARC_OK) exit(4);
  printf("ok ");
  fwrite(line.octets, 1, line.len, stdout);
  printf("\n");
}

static void show_record(const capture *of, size_t place, counts *all) {
  unsigned long captured = number(of, place + 8, 4), original = number(of, place + 12, 4);
  all->records++;
  printf("rec %lu %lu ", number(of, place, 4), number(of, place + 4, 4));
  if (captured < original) {
    all->snapped++;
    printf("snapped %lu %lu\n", captured, original);
    return;
  }
  show_frame(of->octets + place + 16, captured, all);
}

static int show(capture *of) {
  counts all = {0, 0, 0, 0};
  size_t place = 24;
  int status = show_header(of);
  if (status != 0) return status;
  while (place < of->len) {
    if (of->len - place < 16) return end_at("torn", place);
    if (number(of, place + 8, 4) > NARC_MAX_FRAME) return end_at("bad", place + 8);
    if (of->len - place - 16 < number(of, place + 8, 4)) return end_at("torn", place);
    show_record(of, place, &all);
    place += 16 + number(of, place + 8, 4);
  }
  printf("end %lu %lu %lu %lu\n", all.records, all.packets, all.refused, all.snapped);
  return 0;
}

int main(int argc, char **argv) {
  static uint8_t octets[1 << 24];
  capture whole = {octets, 0, 0};
  FILE *file = argc == 2 ? fopen(argv[1], "rb") : NULL;
  if (file == NULL) return 2;
  whole.len = fread(octets, 1, sizeof octets, file);
  fclose(file);
  return show(&whole);
}
