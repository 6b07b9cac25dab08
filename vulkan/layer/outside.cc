// The functions that no capture holds: the first call of one ends the recording, and all are passed down.
#include "call.h"

const char *const outside_names[] = {
#define X(name) #name,
#include "outside.inc"
#undef X
};

namespace {

template <uint32_t NUMBER, class Function>
struct Outside;

template <uint32_t NUMBER, class Result, class Handle, class... Rest>
struct Outside<NUMBER, Result(VKAPI_PTR *)(Handle, Rest...)> {
  static VKAPI_ATTR Result VKAPI_CALL call(Handle object, Rest... rest) {
    recording().end_outside(outside_names[NUMBER]);
    auto lock = std::is_same<Handle, VkQueue>::value ? queue_lock() : std::unique_lock<std::mutex>();
    auto next = reinterpret_cast<Result(VKAPI_PTR *)(Handle, Rest...)>(device_table(object).outside[NUMBER]);
    return next(object, rest...);
  }
};

const PFN_vkVoidFunction functions[] = {
#define X(name) (PFN_vkVoidFunction) Outside<OUTSIDE_##name, PFN_##name>::call,
#include "outside.inc"
#undef X
};

}  // namespace

PFN_vkVoidFunction outside_function(uint32_t number) { return functions[number]; }
