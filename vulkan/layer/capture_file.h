// The capture file: each block is judged by the proved log before it is in the file.
#pragma once
#include <cstddef>
#include <cstdint>
#include <string>

#include "gfx_log.h"

enum class BlockKind : uint32_t { Metadata = 3, Call = 4 };

// Called under the mutex of the recording. It has no destructor, since threads may call until the process is gone.
class CaptureFile {
 public:
  bool open(const char *path);
  // 0, or why the log is as before: a fault, or one of the two below.
  uint32_t append(uint32_t thread, BlockKind kind, uint32_t id, const uint8_t *fields, size_t count);
  bool flush();  // whether the file has all of the log
  uint64_t blocks() const { return blocks_; }
  uint64_t frames() const { return frames_; }

 private:
  gfx_log_handle log_ = {};
  int file_ = -1;
  uint64_t written_ = 0, blocks_ = 0, frames_ = 0;

  bool write_all(const uint8_t *bytes, size_t count);
};

std::string reason_of(uint32_t answer);
