// One call that is being recorded: it holds the mutex of the recording from its beginning to its end.
#pragma once
#include <initializer_list>
#include <mutex>
#include <string>
#include <vector>

#include "dispatch.h"
#include "recording.h"

enum class Uses { Objects, Queue };

// Whether a pNext chain has only these structures, which change nothing that a capture holds.
bool is_plain(const void *next, std::initializer_list<VkStructureType> harmless = {});

class Call {
 public:
  // What uses a queue is locked without a recording, too, while swapchains of the layer's own may use it (headless.h).
  explicit Call(CallId id, Uses uses = Uses::Objects) : Call(id, ::name_of(id), uses) {}
  Call(CallId id, const char *name, Uses uses = Uses::Objects);
  ~Call();  // appends the block, or ends the recording
  Call(const Call &) = delete;

  explicit operator bool() const { return is_recorded_; }
  void skip() { is_recorded_ = false; }
  bool succeeded(VkResult result);  // whether it goes on; a call that failed isn't recorded
  bool is_good() const { return is_recorded_ && why_.empty(); }
  // Otherwise the recording ends here, without this block.
  Call &require(bool holds, const std::string &otherwise);

  Call &word(uint32_t number) { return put(&number, sizeof number); }
  Call &size(uint64_t number) { return put(&number, sizeof number); }
  Call &bytes(const void *data, uint64_t count) { return size(count).put(data, count); }
  template <class Handle>
  Call &id(Handle handle) {
    uint64_t id = recording().ids.find(handle);
    return (id ? *this : require_recorded(kind_of(handle))).size(id);
  }
  template <class Handle>
  Call &id_or_none(Handle handle) {
    return handle ? id(handle) : size(0);
  }
  template <class Handle>
  Call &ids(uint32_t count, const Handle *handles) {
    word(count);
    for (uint32_t at = 0; at < count; at++) id(handles[at]);
    return *this;
  }
  template <class Handle>
  Call &ids(const std::vector<Handle> &handles) {
    return ids(handles.size(), handles.data());
  }
  template <class Handle, class Owner>
  Call &created(Handle handle, Owner owner) {
    return size(recording().ids.create(handle, recording().ids.find(owner)));
  }
  template <class Handle>
  Call &created(Handle handle) {
    return size(recording().ids.create(handle, 0));
  }
  template <class Handle>
  Call &ended(Handle handle) {
    recording().ids.end(handle);
    return *this;
  }
  void append_as(CallId id);  // appends a block of the fields so far, and begins another
  void append_writes(uint64_t memory = 0) { recording().append_writes(name_, memory); }

 private:
  CallId id_;
  const char *name_;
  bool is_recorded_ = false;
  std::string why_;
  std::vector<uint8_t> &fields_;
  std::unique_lock<std::mutex> lock_;

  Call &put(const void *data, size_t count);
  Call &require_recorded(Kind kind);
};

// Keeps others from the queues while swapchains of the layer's own may use one.
std::unique_lock<std::mutex> queue_lock();
