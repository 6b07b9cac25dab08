#include "recording.h"

#include <algorithm>
#include <cerrno>
#include <cstdio>
#include <cstdlib>
#include <cstring>
#include <filesystem>

namespace {

constexpr uint32_t FILL_MEMORY = 2;

// Threads have the numbers 0, 1, .. in the order in which they are first recorded.
uint32_t this_thread() {
  static uint32_t count = 0;
  constexpr uint32_t NONE = ~0u;
  thread_local uint32_t number = NONE;
  if (number == NONE) number = count++;
  return number;
}

std::string variable(const char *name, const char *otherwise) {
  const char *value = getenv(name);
  return value && *value ? value : otherwise;
}

template <class Number>
void put(std::vector<uint8_t> &fields, Number number) {
  auto *bytes = reinterpret_cast<const uint8_t *>(&number);
  fields.insert(fields.end(), bytes, bytes + sizeof number);
}

__attribute__((destructor)) void at_exit() {
  if (!recording().mutex.try_lock()) return;
  recording().finish();
  recording().mutex.unlock();
}

}  // namespace

Recording &recording() {
  static auto &only = *new Recording;  // never freed: threads may call until the process is gone
  return only;
}

void Recording::start() {
  std::lock_guard<std::mutex> lock(mutex);
  if (was_started_) return;
  was_started_ = true;
  auto frames = frame_range_of(variable("GFXCAP_FRAMES", ""));
  if (!frames) return tell_nothing_recorded("GFXCAP_FRAMES isn't A-B");
  frames_ = *frames;
  path_ = std::filesystem::absolute(variable("GFXCAP_FILE", "recorded.gfxcap"));  // the program may change its folder
  is_on_ = file_.open(path_.c_str());
  if (!is_on_) tell_nothing_recorded(path_ + " can't be written: " + strerror(errno));
}

void Recording::tell_nothing_recorded(const std::string &why) {
  fprintf(stderr, "gfxcap: nothing is recorded, because %s\n", why.c_str());
}

void Recording::end_outside(const char *name) {
  if (!is_on()) return;
  std::lock_guard<std::mutex> lock(mutex);
  end(name, "the profile lacks this call");
}

void Recording::end(const char *name, const std::string &why) {
  if (!is_on()) return;
  unsigned long long blocks = file_.blocks(), frames = file_.frames();
  fprintf(stderr, "gfxcap: the recording ends at %s of thread %u, after %llu blocks and %llu frames: %s\n", name,
          this_thread(), blocks, frames, why.c_str());
  stop();
}

void Recording::stop() {
  is_on_ = false;
  file_.flush();
  ids.clear();
  memory.clear();
  if (!frames_.is_all()) cut();
}

// The file is the whole recording until here, and stays so where it can't be cut.
void Recording::cut() {
  uint64_t last = std::min(frames_.last, file_.frames());
  std::string why = "it has fewer frames";
  if (frames_.first <= last) why = ::cut(path_, {frames_.first, last});
  if (!why.empty()) fprintf(stderr, "gfxcap: %s begins at frame 1, because %s\n", path_.c_str(), why.c_str());
}

void Recording::finish() {
  if (is_on()) stop();
}

void Recording::append(const char *name, CallId id, const std::vector<uint8_t> &fields) {
  take(name, file_.append(this_thread(), BlockKind::Call, static_cast<uint32_t>(id), fields.data(), fields.size()));
  if (file_.frames() == frames_.last) finish();
}

void Recording::append_writes(const char *name, uint64_t memory_id) {
  std::vector<uint8_t> fields;
  uint32_t answer = 0;  // told at the end: an end of the recording frees what is being compared
  memory.take_writes(memory_id, [&](uint64_t id, uint64_t offset, const uint8_t *bytes, uint64_t size) {
    if (answer) return;
    fields.clear();
    put(fields, id);
    put(fields, offset);
    put(fields, size);
    fields.insert(fields.end(), bytes, bytes + size);
    answer = file_.append(this_thread(), BlockKind::Metadata, FILL_MEMORY, fields.data(), fields.size());
  });
  take(name, answer);
}

void Recording::take(const char *name, uint32_t answer) {
  if (answer) end(name, reason_of(answer));
}
