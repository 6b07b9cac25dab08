#include "call.h"

#include "headless.h"

namespace {

std::vector<uint8_t> &empty_fields() {
  thread_local std::vector<uint8_t> fields;  // one of a thread's own, since each call would allocate it anew
  fields.clear();
  return fields;
}

}  // namespace

bool is_plain(const void *next, std::initializer_list<VkStructureType> harmless) {
  for (auto *one = static_cast<const VkBaseInStructure *>(next); one; one = one->pNext) {
    bool is_known = false;
    for (auto type : harmless) is_known |= one->sType == type;
    if (!is_known) return false;
  }
  return true;
}

Call::Call(CallId id, const char *name, Uses uses) : id_(id), name_(name), fields_(empty_fields()) {
  if (!recording().is_on() && !(uses == Uses::Queue && headless::is_used())) return;
  lock_ = std::unique_lock<std::mutex>(recording().mutex);
  is_recorded_ = recording().is_on();
}

Call::~Call() {
  if (!is_recorded_ || !recording().is_on()) return;
  if (why_.empty()) recording().append(name_, id_, fields_);
  else recording().end(name_, why_);
}

bool Call::succeeded(VkResult result) {
  if (result < 0) skip();
  return is_good();
}

Call &Call::require(bool holds, const std::string &otherwise) {
  if (!holds && why_.empty()) why_ = otherwise;
  return *this;
}

Call &Call::require_recorded(Kind kind) {
  return require(false, std::string("it names a ") + ::name_of(kind) + " that isn't recorded");
}

Call &Call::put(const void *data, size_t count) {
  auto *bytes = static_cast<const uint8_t *>(data);
  fields_.insert(fields_.end(), bytes, bytes + count);
  return *this;
}

void Call::append_as(CallId id) {
  if (is_good() && recording().is_on()) recording().append(name_, id, fields_);
  fields_.clear();
}

std::unique_lock<std::mutex> queue_lock() {
  return headless::is_used() ? std::unique_lock<std::mutex>(recording().mutex) : std::unique_lock<std::mutex>();
}
