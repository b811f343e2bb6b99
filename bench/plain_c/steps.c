// The steps of a log line as a plain C program takes them: a stream is split at its line feeds, each line is encoded as an
// event of MessagePack, the events are read back, and each is written as a line of JSON. It prints nanoseconds a line for
// each step, the least of five rounds, so that the steps of the program can be held against them:
//
//     cc -O3 -o /tmp/steps bench/plain_c/steps.c && /tmp/steps 200000
#include <stdint.h>
#include <stdio.h>
#include <stdlib.h>
#include <string.h>
#include <time.h>

typedef struct { uint8_t *at; size_t length, room; } Buffer;
typedef struct { const uint8_t *at; size_t length; } Slice;
typedef struct { uint32_t sec, nsec; Slice key, text; } Event;

static void append(Buffer *out, const void *from, size_t length) {
  if (out->length + length > out->room) {
    out->room = 2 * out->room + length;
    out->at = realloc(out->at, out->room);
    if (!out->at) exit(1);
  }
  memcpy(out->at + out->length, from, length);
  out->length += length;
}

static void append_byte(Buffer *out, uint8_t byte) { append(out, &byte, 1); }

// Each line is copied into memory of its own.
static size_t split(Slice stream, Slice *lines) {
  size_t count = 0;
  const uint8_t *at = stream.at, *end = at + stream.length, *feed;
  while (at < end && (feed = memchr(at, '\n', end - at))) {
    uint8_t *copy = malloc(feed - at + 1);
    memcpy(copy, at, feed - at);
    lines[count++] = (Slice){copy, feed - at};
    at = feed + 1;
  }
  return count;
}

static void put_big_endian(Buffer *out, uint32_t n) {
  uint8_t bytes[4] = {n >> 24, n >> 16, n >> 8, n};
  append(out, bytes, 4);
}

static void put_text(Buffer *out, Slice text) {
  if (text.length < 32) append_byte(out, 0xa0 + text.length);
  else if (text.length < 256) append_byte(out, 0xd9), append_byte(out, text.length);
  else append_byte(out, 0xda), append_byte(out, text.length >> 8), append_byte(out, text.length);
  append(out, text.at, text.length);
}

static void spell(Buffer *out, Slice line, uint32_t sec, uint32_t nsec) {
  append(out, "\x92\x92\xd7\x00", 4);
  put_big_endian(out, sec);
  put_big_endian(out, nsec);
  append(out, "\x80\x81", 2);
  put_text(out, (Slice){(const uint8_t *)"log", 3});
  put_text(out, line);
}

static uint32_t big_endian(const uint8_t *at) { return (uint32_t)at[0] << 24 | at[1] << 16 | at[2] << 8 | at[3]; }

// Copies a text to a place, and returns the place after it.
static size_t read_text(Slice bytes, size_t at, Slice *text) {
  size_t length = bytes.at[at] & 31;
  if (bytes.at[at] == 0xd9) length = bytes.at[++at];
  else if (bytes.at[at] == 0xda) length = bytes.at[at + 1] << 8 | bytes.at[at + 2], at += 2;
  uint8_t *copy = malloc(length + 1);
  memcpy(copy, bytes.at + at + 1, length);
  *text = (Slice){copy, length};
  return at + 1 + length;
}

static size_t read_back(Slice bytes, Event *events) {
  size_t at = 0, count = 0;
  while (at < bytes.length && bytes.at[at] == 0x92) {
    Event *event = &events[count++];
    event->sec = big_endian(bytes.at + at + 4);
    event->nsec = big_endian(bytes.at + at + 8);
    at = read_text(bytes, at + 14, &event->key);
    at = read_text(bytes, at, &event->text);
  }
  return count;
}

static void put_string(Buffer *out, Slice text) {
  append_byte(out, '"');
  size_t from = 0;
  for (size_t k = 0; k < text.length; k++) {
    uint8_t byte = text.at[k];
    if (byte >= 0x20 && byte != '"' && byte != '\\') continue;
    append(out, text.at + from, k - from);
    char escape[8];
    append(out, escape, snprintf(escape, sizeof escape, byte < 0x20 ? "\\u%04x" : "\\%c", byte));
    from = k + 1;
  }
  append(out, text.at + from, text.length - from);
  append_byte(out, '"');
}

// At least so many decimal digits.
static void put_decimal(Buffer *out, uint32_t n, int least) {
  uint8_t digits[10];
  int at = 10;
  for (; n || least > 0; n /= 10, least--) digits[--at] = '0' + n % 10;
  append(out, digits + at, 10 - at);
}

static void put_json(Buffer *out, const Event *event) {
  append(out, "{\"date\":", 8);
  put_decimal(out, event->sec, 1);
  append_byte(out, '.');
  put_decimal(out, event->nsec, 9);
  append_byte(out, ',');
  put_string(out, event->key);
  append_byte(out, ':');
  put_string(out, event->text);
  append(out, "}\n", 2);
}

static double now(void) {
  struct timespec at;
  clock_gettime(CLOCK_MONOTONIC, &at);
  return at.tv_sec * 1e9 + at.tv_nsec;
}

int main(int words, char **word) {
  size_t count = words > 1 ? strtoul(word[1], NULL, 10) : 200000;
  Buffer stream = {0};
  for (size_t k = 0; k < count; k++) {
    char line[80];
    append(&stream, line, snprintf(line, sizeof line, "request %06zu of the shop was answered in 17 ms\n", k));
  }
  Slice *lines = malloc(count * sizeof *lines);
  Event *events = malloc(count * sizeof *events);
  double best[4] = {1e18, 1e18, 1e18, 1e18};
  for (int round = 0; round < 5; round++) {
    Buffer spelled = {0}, text = {0};
    double from = now();
    size_t found = split((Slice){stream.at, stream.length}, lines);
    double at_split = now();
    for (size_t k = 0; k < found; k++) spell(&spelled, lines[k], 1790000000, 123000000);
    double at_spelled = now();
    size_t back = read_back((Slice){spelled.at, spelled.length}, events);
    double at_back = now();
    for (size_t k = 0; k < back; k++) put_json(&text, &events[k]);
    double at_text = now();
    if (found != count || back != count) return 1;
    double taken[4] = {at_split - from, at_spelled - at_split, at_back - at_spelled, at_text - at_back};
    for (int step = 0; step < 4; step++)
      if (taken[step] < best[step]) best[step] = taken[step];
    for (size_t k = 0; k < count; k++) free((void *)lines[k].at), free((void *)events[k].key.at), free((void *)events[k].text.at);
    free(spelled.at);
    free(text.at);
  }
  const char *steps[4] = {"split at line feeds", "spell as MessagePack", "read back", "write as JSON"};
  for (int step = 0; step < 4; step++) printf("%-20s %6.1f ns a line\n", steps[step], best[step] / count);
  return 0;
}
