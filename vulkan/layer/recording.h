// The recording of this process: one file, which begins with the first instance.
#pragma once
#include <atomic>
#include <mutex>
#include <string>

#include "call_ids.h"
#include "capture_file.h"
#include "frame_range.h"
#include "ids.h"
#include "mapped_memory.h"

class Recording {
 public:
  void start();  // opens the file, once
  bool is_on() const { return is_on_.load(std::memory_order_relaxed); }
  void end_outside(const char *name);  // at a function that the profile lacks

  // All that follows is called under the mutex.
  std::mutex mutex;
  Ids ids;
  MappedMemory memory;

  void end(const char *name, const std::string &why);
  void append(const char *name, CallId id, const std::vector<uint8_t> &fields);
  // Appends a FillMemory for each run of bytes that the program wrote: to this memory, or for 0 to all that are mapped.
  void append_writes(const char *name, uint64_t memory = 0);
  void finish();  // at the end of the process, or where all frames that are asked for are recorded

 private:
  std::atomic<bool> is_on_{false};
  bool was_started_ = false;
  CaptureFile file_;
  std::string path_;
  FrameRange frames_;

  void tell_nothing_recorded(const std::string &why);
  void stop();
  void cut();
  void take(const char *name, uint32_t answer);
};

Recording &recording();
