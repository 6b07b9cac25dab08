// Instances and devices, and how the loader finds the layer's functions.
#include "call.h"

namespace {

template <class Info>  // the loader's link to the next layer, or another of its structures
Info *loader_info(const void *next, VkStructureType type, VkLayerFunction function) {
  for (auto *info = (Info *)next; info; info = (Info *)info->pNext)
    if (info->sType == type && info->function == function) return info;
  return nullptr;
}

VkLayerDeviceCreateInfo *device_info(const VkDeviceCreateInfo *info, VkLayerFunction function) {
  return loader_info<VkLayerDeviceCreateInfo>(info->pNext, VK_STRUCTURE_TYPE_LOADER_DEVICE_CREATE_INFO, function);
}

void add_table(VkPhysicalDevice physical, const VkDeviceCreateInfo *info, VkDevice device,
               PFN_vkGetDeviceProcAddr find) {
  auto *data = device_info(info, VK_LOADER_DATA_CALLBACK);
  DeviceTable *table = new_table(device, find);
  table->instance = &instance_table(physical);
  table->set_loader_data = data ? data->u.pfnSetDeviceLoaderData : nullptr;
  table->family = info->queueCreateInfoCount ? info->pQueueCreateInfos[0].queueFamilyIndex : 0;
  table->instance->GetPhysicalDeviceMemoryProperties(physical, &table->memory);
  device_tables.add(table);
}

}  // namespace

namespace intercept {

VkResult CreateInstance(const VkInstanceCreateInfo *info, const VkAllocationCallbacks *allocator, VkInstance *out) {
  auto *link = loader_info<VkLayerInstanceCreateInfo>(info->pNext, VK_STRUCTURE_TYPE_LOADER_INSTANCE_CREATE_INFO,
                                                      VK_LAYER_LINK_INFO);
  if (!link) return VK_ERROR_INITIALIZATION_FAILED;
  auto find = link->u.pLayerInfo->pfnNextGetInstanceProcAddr;
  link->u.pLayerInfo = link->u.pLayerInfo->pNext;
  recording().start();
  Call call(CallId::CreateInstance);
  VkResult result = ((PFN_vkCreateInstance)find(nullptr, "vkCreateInstance"))(info, allocator, out);
  if (result == VK_SUCCESS) instance_tables.add(new_table(*out, find));
  if (!call.succeeded(result)) return result;
  auto *application = info->pApplicationInfo;
  bool names_version = application && application->apiVersion;
  call.created(*out).word(names_version ? application->apiVersion : VK_API_VERSION_1_0);
  return result;
}

void DestroyInstance(VkInstance instance, const VkAllocationCallbacks *allocator) {
  if (!instance) return;
  Call call(CallId::DestroyInstance);
  InstanceTable &table = instance_table(instance);
  table.DestroyInstance(instance, allocator);
  instance_tables.remove(&table);
  if (call) call.id(instance).ended(instance);
}

VkResult CreateDevice(VkPhysicalDevice physical, const VkDeviceCreateInfo *info, const VkAllocationCallbacks *allocator,
                      VkDevice *out) {
  auto *link = device_info(info, VK_LAYER_LINK_INFO);
  if (!link) return VK_ERROR_INITIALIZATION_FAILED;
  auto find = link->u.pLayerInfo->pfnNextGetInstanceProcAddr;
  auto find_device = link->u.pLayerInfo->pfnNextGetDeviceProcAddr;
  link->u.pLayerInfo = link->u.pLayerInfo->pNext;
  VkInstance instance = instance_table(physical).instance;
  Call call(CallId::CreateDevice);
  VkResult result = ((PFN_vkCreateDevice)find(instance, "vkCreateDevice"))(physical, info, allocator, out);
  if (result == VK_SUCCESS) add_table(physical, info, *out, find_device);
  if (call.succeeded(result)) call.id(instance).created(*out, instance);
  return result;
}

void DestroyDevice(VkDevice device, const VkAllocationCallbacks *allocator) {
  if (!device) return;
  Call call(CallId::DestroyDevice, Uses::Queue);
  DeviceTable &table = device_table(device);
  table.DestroyDevice(device, allocator);
  device_tables.remove(&table);
  if (call) call.id(device).ended(device);
}

PFN_vkVoidFunction GetDeviceProcAddr(VkDevice device, const char *name) {
  PFN_vkVoidFunction next = device_table(device).GetDeviceProcAddr(device, name);
  PFN_vkVoidFunction own = next ? device_function(name) : nullptr;
  return own ? own : next;
}

PFN_vkVoidFunction GetInstanceProcAddr(VkInstance instance, const char *name) {
  if (PFN_vkVoidFunction own = instance_function(name)) return own;
  if (!instance) return nullptr;
  PFN_vkVoidFunction next = instance_table(instance).GetInstanceProcAddr(instance, name);
  PFN_vkVoidFunction own = next ? device_function(name) : nullptr;
  return own ? own : next;
}

}  // namespace intercept

extern "C" __attribute__((visibility("default"))) VkResult vkNegotiateLoaderLayerInterfaceVersion(
    VkNegotiateLayerInterface *negotiated) {
  if (negotiated->loaderLayerInterfaceVersion < 2) return VK_ERROR_INITIALIZATION_FAILED;
  negotiated->loaderLayerInterfaceVersion = 2;
  negotiated->pfnGetInstanceProcAddr = intercept::GetInstanceProcAddr;
  negotiated->pfnGetDeviceProcAddr = intercept::GetDeviceProcAddr;
  negotiated->pfnGetPhysicalDeviceProcAddr = nullptr;
  return VK_SUCCESS;
}
