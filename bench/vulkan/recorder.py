"""Records random commands that keep to what Vulkan defines, or to what a rule of the profile does."""
from resources import CLEARED, GENERAL, R32_UINT, SHOWN, SOURCE, TARGET, UNDEFINED, WHOLE_SIZE


class Recorder:
    """Records commands, and keeps the layout that each image will have.

    Commands that are submitted once know the layouts and contents that stand before them. Others ask for nothing: they write
    each image whole before they use it, from a barrier that loses what was there.
    """

    def __init__(self, device, buffer, once):
        self.device, self.capture, self.draw = device, device.capture, device.draw
        self.buffer, self.once, self.layouts = buffer, once, {}

    def record(self, shown):
        for image in shown:
            if not self.is_readable(image):
                self.write_whole(image)
        for _ in range(self.draw.randrange(8)):
            self.write_some(shown)
        for image in shown:
            self.change_layout(image, SHOWN)
        return dict(self.layouts)

    def command(self, name, **values):
        self.capture.call(name, cb=self.buffer, **values)

    def is_readable(self, image):
        return image.id in self.layouts or self.once and image.is_written

    def change_layout(self, image, layout, lose=False):
        before = self.layouts.get(image.id, image.layout if self.once else None)
        if before is None or lose or self.capture.leaves_vulkan("kept"):
            before = UNDEFINED
        if before != layout or self.draw.random() < 0.3:
            self.command("CmdPipelineBarrier", barriers=[(image.id, before, layout)])
        self.layouts[image.id] = layout

    def write_whole(self, image):
        sources = [source for source in self.images_like(image) if source.width >= image.width and source.height >= image.height]
        kinds = [self.copy_whole_buffer] * 2
        if sources:
            kinds.append(lambda image, lose: self.copy_whole_image(self.draw.choice(sources), image, lose))
        if image.format in CLEARED:
            kinds.append(self.clear)
        lose = not self.is_readable(image) or self.draw.random() < 0.5
        self.draw.choice(kinds)(image, lose)

    def images_like(self, image):
        """Other images that can be read and whose texels are as long."""
        others = [other for other in self.device.images if other is not image and other.texel == image.texel]
        return [other for other in others if self.is_readable(other)]

    def copy_whole_buffer(self, image, lose):
        source = self.draw.choice([buffer for buffer in self.device.buffers if buffer.size >= image.size])
        layout = self.draw.choice((TARGET, GENERAL))
        self.change_layout(image, layout, lose)
        start = self.draw.randint(0, (source.size - image.size) // image.texel) * image.texel
        cut = self.draw.randint(1, image.height)
        regions = [(start, self.draw.choice((0, image.width)), self.draw.choice((0, image.height)), 0, 0, image.width, cut)]
        if cut < image.height:
            start += cut * image.width * image.texel
            regions.append((start, 0, 0, 0, cut, image.width, image.height - cut))
        self.command("CmdCopyBufferToImage", source=source.id, target=image.id, layout=layout, regions=regions)

    def copy_whole_image(self, source, image, lose):
        x, y = self.draw.randint(0, source.width - image.width), self.draw.randint(0, source.height - image.height)
        self.copy_image(source, image, lambda: [(x, y, 0, 0, image.width, image.height)], lose)

    def copy_image(self, source, target, regions, lose=False):
        source_layout, target_layout = self.draw.choice((SOURCE, GENERAL)), self.draw.choice((TARGET, GENERAL))
        self.change_layout(source, source_layout)
        self.change_layout(target, target_layout, lose)
        self.command(
            "CmdCopyImage",
            source=source.id,
            source_layout=source_layout,
            target=target.id,
            target_layout=target_layout,
            regions=regions(),
        )

    def clear(self, image, lose):
        layout = self.draw.choice((TARGET, GENERAL))
        self.change_layout(image, layout, lose)
        most = 2**32 - 1 if image.format == R32_UINT or self.capture.leaves_vulkan("wide") else 255
        values = {part: self.draw.randint(0, most) for part in ("c0", "c1", "c2", "c3")}
        self.command("CmdClearColorImage", image=image.id, layout=layout, **values)

    def write_some(self, shown):
        """One command on a part of a buffer or of an image."""
        image, kind = self.draw.choice(self.device.images + shown * 2), self.draw.randrange(7)
        if kind == 0:
            self.fill_buffer(self.draw.choice(self.device.buffers))
        elif kind == 1:
            self.update_buffer(self.draw.choice(self.device.buffers))
        elif kind == 2:
            self.copy_buffer(*self.draw.choices(self.device.buffers, k=2))
        elif not self.is_readable(image):
            self.write_whole(image)
        elif kind == 3:
            if sources := self.images_like(image):
                source = self.draw.choice(sources)
                self.copy_image(source, image, lambda: self.image_regions(source, image))
        elif kind in (4, 5):
            self.copy_between(self.draw.choice(self.device.buffers), image, to_image=kind == 4)
        elif image.format in CLEARED:
            self.clear(image, self.draw.random() < 0.5)

    def words_of(self, buffer):
        """The offset and the length of some of the buffer's groups of four bytes."""
        start = self.draw.randrange(buffer.size // 4) * 4
        return start, self.draw.randint(1, (buffer.size - start) // 4) * 4

    def fill_buffer(self, buffer):
        start, size = self.words_of(buffer)
        size = self.draw.choice((WHOLE_SIZE, size))
        self.command("CmdFillBuffer", buffer=buffer.id, offset=start, size=size, word=self.draw.randrange(2**32))

    def update_buffer(self, buffer):
        start, size = self.words_of(buffer)
        self.command("CmdUpdateBuffer", buffer=buffer.id, offset=start, bytes=self.capture.content(size))

    def copy_buffer(self, source, target):
        half, regions, at = min(source.size, target.size) // 2, [], 0
        own = self.capture.leaves_vulkan("overlapping")
        while at < half and len(regions) < 5:
            size = self.draw.randint(1, half - at)
            start = self.draw.randint(0, source.size - size) if own or source is not target else at
            regions.append((start, half + at if source is target else at, size))
            at += 1 if own else size
        self.command("CmdCopyBuffer", source=source.id, target=target.id, regions=regions)

    def image_regions(self, source, target):
        """Bands of the target, each from somewhere in the source."""
        regions, y, height = [], 0, min(source.height, target.height)
        while y < height:
            wide, high = self.draw.randint(1, min(source.width, target.width)), self.draw.randint(1, height - y)
            from_x, from_y = self.draw.randint(0, source.width - wide), self.draw.randint(0, source.height - high)
            regions.append((from_x, from_y, self.draw.randint(0, target.width - wide), y, wide, high))
            y += high
        return regions

    def copy_between(self, buffer, image, to_image):
        wide, high = self.draw.randint(1, image.width), self.draw.randint(1, image.height)
        row, start = self.draw.choice((0, wide + self.draw.randint(0, 5))), self.draw.randint(0, 9) * image.texel
        if start + ((high - 1) * (row or wide) + wide) * image.texel > buffer.size:
            return
        x, y = self.draw.randint(0, image.width - wide), self.draw.randint(0, image.height - high)
        regions = [(start, row, self.draw.choice((0, high + self.draw.randint(0, 3))), x, y, wide, high)]
        layout = self.draw.choice((TARGET if to_image else SOURCE, GENERAL))
        self.change_layout(image, layout)
        if to_image:
            self.command("CmdCopyBufferToImage", source=buffer.id, target=image.id, layout=layout, regions=regions)
        else:
            self.command("CmdCopyImageToBuffer", source=image.id, layout=layout, target=buffer.id, regions=regions)
