#include "capture_file.h"

#include <fcntl.h>
#include <unistd.h>

#include <cerrno>

#include "call_ids.h"

namespace {

constexpr uint32_t VERSION = 2;  // a present may name several swapchains
constexpr uint64_t PIECE = 1 << 16, MOST_UNWRITTEN = 1 << 20;
enum : uint32_t { FIRST_RULE = 10, LAST_RULE = 28, UNWRITTEN = 31 };

}  // namespace

bool CaptureFile::open(const char *path) {
  file_ = ::open(path, O_WRONLY | O_CREAT | O_TRUNC | O_CLOEXEC, 0644);
  return file_ >= 0 && gfx_log_open(&log_, VERSION) == GFX_LOG_OK && flush();
}

uint32_t CaptureFile::append(uint32_t thread, BlockKind kind, uint32_t id, const uint8_t *fields, size_t count) {
  uint32_t answer = log_append(&log_, thread, static_cast<uint32_t>(kind), id, fields, count);
  if (answer) return answer;
  blocks_++;
  bool is_present = kind == BlockKind::Call && static_cast<CallId>(id) == CallId::QueuePresentKHR;
  frames_ += is_present;
  // A process that is killed leaves the frames that it has shown.
  bool is_due = is_present || log_length(&log_) - written_ >= MOST_UNWRITTEN;
  if (is_due && !flush()) return UNWRITTEN;
  return 0;
}

bool CaptureFile::flush() {
  static uint8_t piece[PIECE];
  while (uint64_t count = log_bytes(&log_, written_, piece, sizeof piece)) {
    if (!write_all(piece, count)) return false;
    written_ += count;
  }
  return true;
}

bool CaptureFile::write_all(const uint8_t *bytes, size_t count) {
  while (count) {
    ssize_t taken = write(file_, bytes, count);
    if (taken < 0 && errno == EINTR) continue;
    if (taken <= 0) return false;
    bytes += taken;
    count -= taken;
  }
  return true;
}

std::string reason_of(uint32_t answer) {
  static const char *const rules[] = {"StateOrder",  "NotLive",      "IdTaken",       "WrongParent",   "HasChildren",
                                      "BadValue",    "OutOfRange",   "AlreadyBound",  "NotBound",      "MapState",
                                      "PoolRule",    "CommandState", "UsageMissing",  "LayoutDiffers", "FormatDiffers",
                                      "SignalState", "SwapState",    "ResultDiffers", "LimitReached"};
  switch (answer) {
    case GFX_LOG_BAD_FIELDS:
      return "8 BadParams";
    case GFX_LOG_FULL:
      return "the log is full";
    case GFX_LOG_OUT_OF_MEMORY:
      return "out of memory";
    case UNWRITTEN:
      return "the file can't be written";
  }
  bool is_rule = answer >= FIRST_RULE && answer <= LAST_RULE;
  return std::to_string(answer) + (is_rule ? std::string(" ") + rules[answer - FIRST_RULE] : "");
}
