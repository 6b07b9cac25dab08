#include "dispatch.h"

#include <dlfcn.h>

#include <cstdio>
#include <cstdlib>
#include <cstring>
#include <unordered_map>
#include <vector>

template <class Table>
Table &Tables<Table>::find(void *key) {
  for (auto &slot : tables_) {
    Table *table = slot.load(std::memory_order_acquire);
    if (table && table->key == key) return *table;
  }
  fprintf(stderr, "gfxcap: a call names an object that isn't there\n");
  abort();
}

template <class Table>
void Tables<Table>::add(Table *table) {
  for (auto &slot : tables_) {
    Table *none = nullptr;
    if (slot.compare_exchange_strong(none, table)) return;
  }
  fprintf(stderr, "gfxcap: there are more instances or devices than the layer has room for\n");
  abort();
}

template <class Table>
void Tables<Table>::remove(Table *table) {
  for (auto &slot : tables_) {
    Table *same = table;
    if (slot.compare_exchange_strong(same, nullptr)) delete table;
  }
}

template class Tables<InstanceTable>;
template class Tables<DeviceTable>;
Tables<InstanceTable> &instance_tables = *new Tables<InstanceTable>;
Tables<DeviceTable> &device_tables = *new Tables<DeviceTable>;

namespace {

using ListExtensions = PFN_vkEnumerateInstanceExtensionProperties;

// Asks the loader, which doesn't count what layers add.
bool driver_has_headless() {
  void *loader = dlopen("libvulkan.so.1", RTLD_NOLOAD | RTLD_LAZY);
  void *found = loader ? dlsym(loader, "vkEnumerateInstanceExtensionProperties") : nullptr;
  auto list = reinterpret_cast<ListExtensions>(found);
  uint32_t count = 0;
  if (!list || list(nullptr, &count, nullptr) != VK_SUCCESS) return false;
  std::vector<VkExtensionProperties> extensions(count);
  list(nullptr, &count, extensions.data());
  for (auto &extension : extensions)
    if (!strcmp(extension.extensionName, VK_EXT_HEADLESS_SURFACE_EXTENSION_NAME)) return true;
  return false;
}

template <class Map>
PFN_vkVoidFunction found_in(const Map &functions, const std::string &name) {
  auto found = functions.find(name);
  return found == functions.end() ? nullptr : found->second;
}

bool ends_with_khr(const std::string &name) { return name.size() > 3 && !name.compare(name.size() - 3, 3, "KHR"); }

}  // namespace

// All is found now: once the instance is made, the loader's function gives what begins at the top of the chain.
InstanceTable *new_table(VkInstance instance, PFN_vkGetInstanceProcAddr find) {
  auto *table = new InstanceTable{};
  table->key = key_of(instance);
  table->instance = instance;
  table->has_headless = driver_has_headless();
#define X(name) table->name = (PFN_vk##name)find(instance, "vk" #name);
  INSTANCE_FUNCTIONS(X)
  INSTANCE_CALLS(X)
#undef X
  for (int kind = 0; kind < WINDOW_KINDS; kind++)
    table->create_window_surface[kind] = (CreateWindowSurface)find(instance, window_surfaces[kind]);
  table->GetInstanceProcAddr = find;
  return table;
}

DeviceTable *new_table(VkDevice device, PFN_vkGetDeviceProcAddr find) {
  auto *table = new DeviceTable{};
  table->key = key_of(device);
  table->device = device;
#define X(name)                                         \
  table->name = (PFN_vk##name)find(device, "vk" #name); \
  if (!table->name) table->name = (PFN_vk##name)find(device, "vk" #name "KHR");
  DEVICE_FUNCTIONS(X)
  DEVICE_CALLS(X)
#undef X
  table->GetDeviceProcAddr = find;
  for (uint32_t number = 0; number < OUTSIDE_COUNT; number++)
    table->outside[number] = find(device, outside_names[number]);
  return table;
}

PFN_vkVoidFunction instance_function(const std::string &name) {
  static const std::unordered_map<std::string, PFN_vkVoidFunction> functions = {
#define X(name) {"vk" #name, (PFN_vkVoidFunction)intercept::name},
      INSTANCE_FUNCTIONS(X)
#undef X
  };
  PFN_vkVoidFunction found = found_in(functions, name);
  return found ? found : window_function(name);
}

PFN_vkVoidFunction device_function(const std::string &name) {
  static const auto &functions = *[] {
    auto *all = new std::unordered_map<std::string, PFN_vkVoidFunction>{
#define X(name) {"vk" #name, (PFN_vkVoidFunction)intercept::name},
        DEVICE_FUNCTIONS(X)
#undef X
    };
    for (uint32_t number = 0; number < OUTSIDE_COUNT; number++)
      all->emplace(outside_names[number], outside_function(number));
    return all;
  }();
  PFN_vkVoidFunction found = found_in(functions, name);
  if (found || !ends_with_khr(name)) return found;
  return found_in(functions, name.substr(0, name.size() - 3));
}
