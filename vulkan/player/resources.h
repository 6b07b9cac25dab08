// The calls that make and end instances, devices, memory, buffers and images.
#pragma once
#include "objects.h"

// These objects by their ids.
class Resources {
 protected:
  template <class Object>
  using Objects = std::map<Id, std::shared_ptr<Object>>;

  bool in_section = false;  // between the state markers of a cut
  std::map<Id, VkInstance> instances;
  Objects<Device> devices, queues;
  Objects<Memory> memories;
  Objects<Buffer> buffers;
  Objects<Image> images;

  template <class Object>
  static const Object &of(const std::map<Id, Object> &objects, Id id) {
    auto found = objects.find(id);
    if (found == objects.end()) stop("no object " + std::to_string(id));
    return found->second;
  }

  template <class Object>
  static std::vector<Object> all_of(const std::map<Id, Object> &objects, const std::vector<Id> &ids) {
    std::vector<Object> all;
    for (Id id : ids) all.push_back(of(objects, id));
    return all;
  }

  // --- Instances, surfaces, devices, queues

  void create_instance(Reader &fields) {
    Id id = fields.id();
    CHECK(new_instance(&instances[id]));
  }

  void destroy_instance(Reader &fields) {
    Id id = fields.id();
    vkDestroyInstance(of(instances, id), nullptr);
    instances.erase(id);
  }

  void nothing(Reader &) {}

  void create_device(Reader &fields) {
    VkInstance instance = of(instances, fields.id());
    devices[fields.id()] = std::make_shared<Device>(instance);
  }

  void destroy_device(Reader &fields) {
    Id id = fields.id();
    auto device = of(devices, id);
    for (auto queue = queues.begin(); queue != queues.end();)
      queue = queue->second == device ? queues.erase(queue) : std::next(queue);
    device->destroy();
    devices.erase(id);
  }

  void get_queue(Reader &fields) {
    auto device = of(devices, fields.id());
    queues[fields.id()] = device;
  }

  void wait_for_queue(Reader &fields) { CHECK(vkQueueWaitIdle(of(queues, fields.id())->queue)); }
  void wait_for_device(Reader &fields) { CHECK(vkDeviceWaitIdle(of(devices, fields.id())->handle)); }

  // --- Memory, buffers, images

  void allocate_memory(Reader &fields) {
    constexpr uint64_t SLACK = 65536;  // a buffer may want more room than it has bytes
    auto memory = std::make_shared<Memory>();
    memory->device = of(devices, fields.id());
    Id id = fields.id();
    memory->size = fields.size();
    memory->handle = memory->device->memory(memory->size + SLACK, ~0u, Device::MAPPABLE);
    memory->with_bytes([&](uint8_t *bytes) { memset(bytes, 0, memory->size); });
    memory->place = std::make_shared<Place>(memory->size);
    // The bytes that a section leaves out are zeros that stood for something.
    if (in_section) write({memory->place, 0, IN_A_ROW}, 0, memory->size);
    memories[id] = memory;
  }

  void free_memory(Reader &fields) {
    fields.id();
    Id id = fields.id();
    vkFreeMemory(of(memories, id)->device->handle, of(memories, id)->handle, nullptr);
    memories.erase(id);
  }

  void map_memory(Reader &fields) {
    fields.id();
    auto memory = of(memories, fields.id());
    uint64_t offset = fields.size(), size = fields.size();
    void *bytes;
    CHECK(vkMapMemory(memory->device->handle, memory->handle, offset, size, 0, &bytes));
    memory->bytes = static_cast<uint8_t *>(bytes) - offset;
  }

  void unmap_memory(Reader &fields) {
    fields.id();
    auto memory = of(memories, fields.id());
    vkUnmapMemory(memory->device->handle, memory->handle);
    memory->bytes = nullptr;
  }

  void create_buffer(Reader &fields) {
    auto buffer = std::make_shared<Buffer>();
    buffer->device = of(devices, fields.id());
    Id id = fields.id();
    buffer->size = fields.size();
    uint32_t usage = fields.word() & (VK_BUFFER_USAGE_TRANSFER_SRC_BIT | VK_BUFFER_USAGE_TRANSFER_DST_BIT);
    VkBufferCreateInfo info = {VK_STRUCTURE_TYPE_BUFFER_CREATE_INFO};
    info.size = buffer->size;
    info.usage = usage;
    if (!usage) info.usage = VK_BUFFER_USAGE_UNIFORM_BUFFER_BIT;
    CHECK(vkCreateBuffer(buffer->device->handle, &info, nullptr, &buffer->handle));
    buffers[id] = buffer;
  }

  void destroy_buffer(Reader &fields) {
    fields.id();
    Id id = fields.id();
    vkDestroyBuffer(of(buffers, id)->device->handle, of(buffers, id)->handle, nullptr);
    buffers.erase(id);
  }

  void bind_buffer(Reader &fields) {
    fields.id();
    auto buffer = of(buffers, fields.id());
    auto memory = of(memories, fields.id());
    uint64_t offset = fields.size();
    VkMemoryRequirements wanted;
    vkGetBufferMemoryRequirements(buffer->device->handle, buffer->handle, &wanted);
    if (offset % wanted.alignment)
      stop("this driver wants buffers at multiples of " + std::to_string(wanted.alignment));
    CHECK(vkBindBufferMemory(buffer->device->handle, buffer->handle, memory->handle, offset));
    buffer->view = {memory->place, offset, IN_A_ROW};
  }

  void create_image(Reader &fields) {
    auto image = std::make_shared<Image>();
    image->device = of(devices, fields.id());
    Id id = fields.id();
    image->format = fields.word();
    image->width = fields.word();
    image->height = fields.word();
    create(*image);
    images[id] = image;
  }

  void destroy_image(Reader &fields) {
    fields.id();
    Id id = fields.id();
    destroy(*of(images, id));
    images.erase(id);
  }

  void bind_image(Reader &fields) {
    fields.id();
    auto image = of(images, fields.id());
    image->memory = of(memories, fields.id());
    give_memory(*image);
    image->view.place = image->memory->place;
    image->view.offset = fields.size();
  }
};
