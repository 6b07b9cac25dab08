// The chain of layers: tables of the next layer's functions, found by the key of any dispatchable object.
#pragma once
#include <vulkan/vk_layer.h>

#include <atomic>
#include <string>

#include "functions.h"

enum OutsideFunction : uint32_t {
#define X(name) OUTSIDE_##name,
#include "outside.inc"
#undef X
  OUTSIDE_COUNT
};

// Functions that make surfaces of windows differ in nothing but what their second argument points to.
using CreateWindowSurface = VkResult (*)(VkInstance, const void *, const VkAllocationCallbacks *, VkSurfaceKHR *);
constexpr int WINDOW_KINDS = 6;
extern const char *const window_surfaces[WINDOW_KINDS];

struct InstanceTable {
  void *key;
  VkInstance instance;
  bool has_headless;  // whether the driver itself has VK_EXT_headless_surface
#define X(name) PFN_vk##name name;
  INSTANCE_FUNCTIONS(X)
  INSTANCE_CALLS(X)
#undef X
  CreateWindowSurface create_window_surface[WINDOW_KINDS];
};

struct DeviceTable {
  void *key;
  VkDevice device;
  InstanceTable *instance;
  PFN_vkSetDeviceLoaderData set_loader_data;
  uint32_t family;                          // the first one of which the program asked for queues
  VkQueue headless_queue;                   // for signals of headless.h, once it is needed
  VkPhysicalDeviceMemoryProperties memory;  // of the physical device
#define X(name) PFN_vk##name name;
  DEVICE_FUNCTIONS(X)
  DEVICE_CALLS(X)
#undef X
  PFN_vkVoidFunction outside[OUTSIDE_COUNT];
};

template <class Handle>
void *key_of(Handle object) {
  return *reinterpret_cast<void **>(object);
}

template <class Table>
class Tables {  // read without a lock: a call finds its table by one or two comparisons
 public:
  Table &find(void *key);
  void add(Table *table);
  void remove(Table *table);

 private:
  std::atomic<Table *> tables_[64] = {};
};

extern Tables<InstanceTable> &instance_tables;
extern Tables<DeviceTable> &device_tables;

template <class Handle>
InstanceTable &instance_table(Handle object) {  // of an instance or a physical device
  return instance_tables.find(key_of(object));
}

template <class Handle>
DeviceTable &device_table(Handle object) {  // of a device, a queue or a command buffer
  return device_tables.find(key_of(object));
}

InstanceTable *new_table(VkInstance instance, PFN_vkGetInstanceProcAddr find);
DeviceTable *new_table(VkDevice device, PFN_vkGetDeviceProcAddr find);

// The layer's own function of this name, or none.
PFN_vkVoidFunction instance_function(const std::string &name);
PFN_vkVoidFunction device_function(const std::string &name);
PFN_vkVoidFunction window_function(const std::string &name);  // swapchains.cc: vkCreateXcbSurfaceKHR and its like
PFN_vkVoidFunction outside_function(uint32_t number);         // outside.cc
extern const char *const outside_names[];
