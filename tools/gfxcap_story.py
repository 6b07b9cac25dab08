"""What a report shows of a capture, frame by frame: calls, what they write, which objects live at its beginning."""
from gfxcap_listing import lines
from gfxcap_names import FIELDS, changed
from gfxcap_page import Content
from gfxcap_state import KINDS, State, Work


def exact(number):
    """A number as a page can read it: above 2^53 the numbers of JavaScript have gaps, so it is a text there."""
    return number if number < 2**53 else str(number)


class Life:
    """An object, from the first frame at whose beginning it lives to the first at whose beginning it doesn't."""

    def __init__(self, one, first, state):
        self.one, self.first, self.last, self.states = one, first, None, [[first, state]]

    def record(self):
        one = self.one
        given = changed(f"_ {self.maker()} " + " ".join(f"{field}={value}" for field, value in one.fields.items()))
        text = " ".join(given.split(" ")[2:])
        parent = exact(one.parent or 0)
        return [exact(one.id), KINDS.index(one.kind), parent, text, self.first, self.last, self.states]

    def maker(self):
        """The call by whose fields those of an object are named."""
        names = {"Pool": "vkCreateCommandPool", "Swapchain": "vkCreateSwapchainKHR"}
        return names.get(self.one.kind, f"vkCreate{self.one.kind}")


class Story:
    """The frames of a capture as they come, each with a content of its calls, which goes into the page."""

    def __init__(self, page, prefix):
        self.page, self.prefix, self.state = page, prefix, State()
        self.lives, self.ended, self.frames, self.threads = {}, [], [], set()
        self.blocks, self.section, self.calls = 0, 0, 0
        self.open()

    def open(self):
        """Begins the next frame."""
        self.content, self.first_block, self.frame_calls = Content(), self.blocks + 1, 0
        self.state.work = Work()

    def take(self, line):
        self.blocks += 1
        self.state.take(line)
        if line.name in ("begin", "end") or self.state.is_section:
            self.section += 1
            if line.name == "end":
                self.note_changes()
                self.open()
            return
        self.calls += line.is_call
        self.frame_calls += line.is_call
        if line.thread is not None:
            self.threads.add(line.thread)
        self.content.add(page_line(line).encode())
        if line.name == "vkQueuePresentKHR":
            self.close()

    def close(self):
        """Ends a frame: its calls go into the page."""
        work, number = self.state.work, len(self.frames)
        self.page.add(f"{self.prefix}{number}", self.content)
        self.frames.append({
            "number": exact(self.state.first + number),
            "block": self.first_block,
            "lines": self.blocks - self.first_block + 1,
            "calls": self.frame_calls,
            "count": [work.count[way] for way in Work.WAYS],
            "bytes": [work.bytes[way] for way in Work.WAYS],
            "images": [],
        })  # fmt: skip
        self.note_changes()
        self.open()

    def note_changes(self):
        """Looks at what may have changed since the beginning of the frame before."""
        here = len(self.frames)
        for id in self.state.touched:
            one, life = self.state.live.get(id), self.lives.get(id)
            if life and life.one is not one:
                life.last = here
                self.ended.append(self.lives.pop(id))
                life = None
            if one and not life:
                self.lives[id] = Life(one, here, one.describe_state())
            elif one and life.states[-1][1] != one.describe_state():
                life.states.append([here, one.describe_state()])
        self.state.touched.clear()

    def objects(self):
        """Each object that lives at the beginning of a frame, by kind and id."""
        lives = [life for life in [*self.ended, *self.lives.values()] if life.first < len(self.frames)]
        return [life.record() for life in sorted(lives, key=lambda life: (KINDS.index(life.one.kind), life.one.id))]


def page_line(line):
    """A line as the page shows it: with names, and with the length of a content in place of its end."""
    text = line.text
    if line.name in FIELDS:
        text = changed(text)
    return f"{text}{f' ({line.size} bytes)' if text.endswith('..') else ''}\n"


def follow(child, page, prefix):
    """The story of a listing that a child writes."""
    story = Story(page, prefix)
    for line in lines(child.output, child.end):
        story.take(line)
    return story
