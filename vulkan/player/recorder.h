// The calls on command pools and command buffers, and the commands that are recorded.
#pragma once
#include "resources.h"

class Recorder : public Resources {
 protected:
  Objects<Pool> pools;
  Objects<Commands> commands;

  // --- Command pools and buffers

  void create_pool(Reader &fields) {
    auto pool = std::make_shared<Pool>();
    pool->device = of(devices, fields.id());
    Id id = fields.id();
    VkCommandPoolCreateInfo info = {VK_STRUCTURE_TYPE_COMMAND_POOL_CREATE_INFO};
    info.flags = fields.word();
    CHECK(vkCreateCommandPool(pool->device->handle, &info, nullptr, &pool->handle));
    pools[id] = pool;
  }

  void destroy_pool(Reader &fields) {
    fields.id();
    Id id = fields.id();
    vkDestroyCommandPool(of(pools, id)->device->handle, of(pools, id)->handle, nullptr);
    for (auto one = commands.begin(); one != commands.end();)
      one = one->second->pool == id ? commands.erase(one) : std::next(one);
    pools.erase(id);
  }

  void reset_pool(Reader &fields) {
    fields.id();
    auto pool = of(pools, fields.id());
    CHECK(vkResetCommandPool(pool->device->handle, pool->handle, 0));
  }

  void allocate_commands(Reader &fields) {
    fields.id();
    Id pool_id = fields.id();
    auto pool = of(pools, pool_id);
    std::vector<Id> ids = fields.ids();
    std::vector<VkCommandBuffer> handles(ids.size());
    VkCommandBufferAllocateInfo info = {VK_STRUCTURE_TYPE_COMMAND_BUFFER_ALLOCATE_INFO};
    info.commandPool = pool->handle;
    info.commandBufferCount = ids.size();
    CHECK(vkAllocateCommandBuffers(pool->device->handle, &info, handles.data()));
    for (size_t at = 0; at < ids.size(); at++)
      commands[ids[at]] = std::make_shared<Commands>(Commands{pool->device, handles[at], pool_id, {}});
  }

  void free_commands(Reader &fields) {
    fields.id();
    auto pool = of(pools, fields.id());
    for (Id id : fields.ids()) {
      vkFreeCommandBuffers(pool->device->handle, pool->handle, 1, &of(commands, id)->handle);
      commands.erase(id);
    }
  }

  void begin_commands(Reader &fields) {
    auto to = of(commands, fields.id());
    VkCommandBufferBeginInfo info = {VK_STRUCTURE_TYPE_COMMAND_BUFFER_BEGIN_INFO};
    info.flags = fields.word();
    CHECK(vkBeginCommandBuffer(to->handle, &info));
    to->defines.clear();
  }

  void end_commands(Reader &fields) { CHECK(vkEndCommandBuffer(of(commands, fields.id())->handle)); }
  void reset_commands(Reader &fields) { CHECK(vkResetCommandBuffer(of(commands, fields.id())->handle, 0)); }

  // --- Commands

  static void recorded(Commands &to, std::function<void()> defines) {
    full_barrier(to.handle);
    to.defines.push_back(std::move(defines));
  }

  void barriers(Reader &fields) {
    auto to = of(commands, fields.id());
    for (uint32_t left = fields.word(); left; left--) {
      auto image = of(images, fields.id());
      uint32_t before = fields.word(), after = fields.word();
      full_barrier(to->handle, {layout_change(image->handle, before, after)});
      to->defines.push_back([=] {
        if (before == VK_IMAGE_LAYOUT_UNDEFINED || !image->is_usable()) write(image->view, 0, image->size(), false);
      });
    }
  }

  void fill_buffer(Reader &fields) {
    auto to = of(commands, fields.id());
    auto buffer = of(buffers, fields.id());
    uint64_t offset = fields.size(), size = fields.size();
    vkCmdFillBuffer(to->handle, buffer->handle, offset, size, fields.word());
    uint64_t length = size == WHOLE_SIZE ? (buffer->size - offset) / 4 * 4 : size;
    recorded(*to, [=] { write(buffer->view, offset, length); });
  }

  void update_buffer(Reader &fields) {
    auto to = of(commands, fields.id());
    auto buffer = of(buffers, fields.id());
    uint64_t offset = fields.size();
    Bytes bytes = fields.bytes();
    std::vector<uint32_t> aligned(bytes.size / 4);
    memcpy(aligned.data(), bytes.data, bytes.size);
    vkCmdUpdateBuffer(to->handle, buffer->handle, offset, bytes.size, aligned.data());
    recorded(*to, [=] { write(buffer->view, offset, bytes.size); });
  }

  void copy_buffer(Reader &fields) {
    auto to = of(commands, fields.id());
    auto source = of(buffers, fields.id()), target = of(buffers, fields.id());
    std::vector<VkBufferCopy> regions(fields.word());
    std::vector<Rows> rows;
    for (VkBufferCopy &region : regions) {
      region.srcOffset = fields.size();
      region.dstOffset = fields.size();
      region.size = fields.size();
      rows.push_back({region.dstOffset, 0, region.srcOffset, 0, region.size, 1});
    }
    vkCmdCopyBuffer(to->handle, source->handle, target->handle, regions.size(), regions.data());
    recorded(*to, [=] { copy(target->view, source->view, rows, true); });
  }

  void copy_image(Reader &fields) {
    auto to = of(commands, fields.id());
    auto source = of(images, fields.id());
    auto source_layout = static_cast<VkImageLayout>(fields.word());
    auto target = of(images, fields.id());
    auto target_layout = static_cast<VkImageLayout>(fields.word());
    std::vector<VkImageCopy> regions(fields.word());
    std::vector<Rows> rows;
    for (VkImageCopy &region : regions) {
      uint32_t from_x = fields.word(), from_y = fields.word(), to_x = fields.word(), to_y = fields.word();
      uint32_t width = fields.word(), height = fields.word();
      region.srcSubresource = region.dstSubresource = LAYERS;
      region.srcOffset = {static_cast<int32_t>(from_x), static_cast<int32_t>(from_y), 0};
      region.dstOffset = {static_cast<int32_t>(to_x), static_cast<int32_t>(to_y), 0};
      region.extent = {width, height, 1};
      uint64_t from = from_y * source->row() + from_x * source->texel(),
               into = to_y * target->row() + to_x * target->texel();
      rows.push_back({into, target->row(), from, source->row(), width * source->texel(), height});
    }
    vkCmdCopyImage(to->handle, source->handle, source_layout, target->handle, target_layout, regions.size(),
                   regions.data());
    recorded(*to, [=] { copy(target->view, source->view, rows, source->is_usable() && target->is_usable()); });
  }

  // The regions of a copy between a buffer and an image; the rows go from the buffer to the image.
  static std::vector<VkBufferImageCopy> mixed_regions(Reader &fields, const Image &image, std::vector<Rows> &rows) {
    std::vector<VkBufferImageCopy> regions(fields.word());
    for (VkBufferImageCopy &region : regions) {
      region.bufferOffset = fields.size();
      region.bufferRowLength = fields.word();
      region.bufferImageHeight = fields.word();
      uint32_t x = fields.word(), y = fields.word(), width = fields.word(), height = fields.word();
      region.imageSubresource = LAYERS;
      region.imageOffset = {static_cast<int32_t>(x), static_cast<int32_t>(y), 0};
      region.imageExtent = {width, height, 1};
      uint64_t step = (region.bufferRowLength ? region.bufferRowLength : width) * image.texel();
      uint64_t into = y * image.row() + x * image.texel();
      rows.push_back({into, image.row(), region.bufferOffset, step, width * image.texel(), height});
    }
    return regions;
  }

  void copy_buffer_to_image(Reader &fields) {
    auto to = of(commands, fields.id());
    auto source = of(buffers, fields.id());
    auto target = of(images, fields.id());
    auto layout = static_cast<VkImageLayout>(fields.word());
    std::vector<Rows> rows;
    auto regions = mixed_regions(fields, *target, rows);
    vkCmdCopyBufferToImage(to->handle, source->handle, target->handle, layout, regions.size(), regions.data());
    recorded(*to, [=] { copy(target->view, source->view, rows, target->is_usable()); });
  }

  void copy_image_to_buffer(Reader &fields) {
    auto to = of(commands, fields.id());
    auto source = of(images, fields.id());
    auto layout = static_cast<VkImageLayout>(fields.word());
    auto target = of(buffers, fields.id());
    std::vector<Rows> rows;
    auto regions = mixed_regions(fields, *source, rows);
    for (Rows &part : rows) {
      std::swap(part.to, part.from);
      std::swap(part.to_step, part.from_step);
    }
    vkCmdCopyImageToBuffer(to->handle, source->handle, layout, target->handle, regions.size(), regions.data());
    recorded(*to, [=] { copy(target->view, source->view, rows, source->is_usable()); });
  }

  // A value that is too wide for its part of a texel gives bytes that Vulkan doesn't define.
  void clear_image(Reader &fields) {
    auto to = of(commands, fields.id());
    auto image = of(images, fields.id());
    auto layout = static_cast<VkImageLayout>(fields.word());
    VkClearColorValue color;
    for (uint32_t &part : color.uint32) part = fields.word();
    vkCmdClearColorImage(to->handle, image->handle, layout, &color, 1, &ALL_OF_IMAGE);
    recorded(*to, [=] {
      if (!follows_defined) return;
      uint64_t parts = image->format == R8G8B8A8_UINT ? 4 : 1;
      for (uint64_t at = 0; at < image->size(); at++) {
        bool fits = image->format == R32_UINT || color.uint32[at % parts] < 256;
        write(image->view, at, 1, fits && image->is_usable());
      }
    });
  }
};
