// Appends each block of a capture file, from standard input, to a log of gfx_log_c, writes the log's file to standard
// output, and tells on standard error what calls that the log must refuse are answered.
#include <cstdio>
#include <cstring>
#include <iterator>
#include <string>
#include <thread>
#include <vector>

#include "gfx_log.h"

namespace {

using Bytes = std::vector<uint8_t>;

constexpr size_t HEADER = 16, METADATA = 3, CALL = 4;

template <class Number>
Number number_at(const Bytes &bytes, size_t at) {
  Number number;
  memcpy(&number, bytes.data() + at, sizeof number);
  return number;
}

Bytes words(std::initializer_list<uint64_t> values) {
  Bytes bytes;
  for (uint64_t value : values)
    for (int byte = 0; byte < 8; byte++) bytes.push_back(value >> (8 * byte));
  return bytes;
}

uint32_t append(gfx_log_handle *log, uint32_t kind, uint32_t id, const Bytes &fields) {
  return log_append(log, 0, kind, id, fields.data(), fields.size());
}

// Each block is appended by a thread of its own, once the one before has ended.
uint32_t append_file(gfx_log_handle *log, const Bytes &file) {
  uint32_t result = GFX_LOG_OK;
  for (size_t at = HEADER; at < file.size() && result == GFX_LOG_OK;) {
    auto size = number_at<uint64_t>(file, at);
    const uint8_t *fields = file.data() + at + 24;
    std::thread([&] {
      result = log_append(log, number_at<uint64_t>(file, at + 16), number_at<uint32_t>(file, at + 8),
                          number_at<uint32_t>(file, at + 12), fields, size - 12);
    }).join();
    at += 12 + size;
  }
  return result;
}

// In pieces of this size.
void write_file(gfx_log_handle *log, size_t size) {
  Bytes piece(size);
  uint64_t written = 0;
  while (uint64_t count = log_bytes(log, written, piece.data(), piece.size())) {
    fwrite(piece.data(), 1, count, stdout);
    written += count;
  }
}

void tell_refusals() {
  gfx_log_handle log = {};
  uint32_t unknown = gfx_log_open(&log, 3);
  uint32_t opened = gfx_log_open(&log, 1);
  uint64_t empty = log_length(&log);
  uint32_t not_live = append(&log, CALL, 6, words({99}));
  uint32_t too_long = append(&log, CALL, 6, words({99, 0}));
  uint32_t no_call = append(&log, CALL, 49, words({1}));
  uint32_t marker = append(&log, 2, 1, words({1}));
  bool is_kept = log_length(&log) == empty;
  gfx_log_close(log);
  fprintf(stderr, "version 3: %u, version 1: %u, not live: %u, bad fields: %u %u %u, unchanged: %d\n", unknown,
          opened, not_live, too_long, no_call, marker, is_kept);
}

// Memory of 2^28 bytes is filled, by 2^27 bytes less the other fields at a time, until the log is full.
void tell_full() {
  gfx_log_handle log = {};
  gfx_log_open(&log, 1);
  Bytes create = words({1});
  create.insert(create.end(), {0, 0, 64, 0});
  append(&log, CALL, 1, create);
  append(&log, CALL, 5, words({1, 2}));
  append(&log, CALL, 8, words({2, 3, 1u << 28}));
  append(&log, CALL, 10, words({2, 3, 0, ~0ull}));
  constexpr uint64_t FILLED = (1u << 27) - 4096;
  Bytes fill = words({3, 0, FILLED});
  fill.resize(fill.size() + FILLED, 7);
  uint32_t first = append(&log, METADATA, 2, fill), second = append(&log, METADATA, 2, fill);
  uint64_t length = log_length(&log);
  uint32_t third = append(&log, METADATA, 2, fill);
  fprintf(stderr, "fills: %u %u %u, unchanged: %d\n", first, second, third, log_length(&log) == length);
  gfx_log_close(log);
}

}  // namespace

int main() {
  Bytes file;
  uint8_t piece[4096];
  while (size_t count = fread(piece, 1, sizeof piece, stdin)) file.insert(file.end(), piece, piece + count);
  gfx_log_handle log = {};
  if (gfx_log_open(&log, number_at<uint32_t>(file, 8)) != GFX_LOG_OK) return 2;
  uint32_t result = append_file(&log, file);
  write_file(&log, 100);
  gfx_log_close(log);
  tell_refusals();
  tell_full();
  return result == GFX_LOG_OK ? 0 : 1;
}
