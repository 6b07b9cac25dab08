// A list of which just the rows in sight are there, however long it is; rows lie below each other, or side by side.
class List {
  constructor(box, step, row, isAcross = false) {
    Object.assign(this, { box, step, row, isAcross, count: 0, chosen: -1, shown: new Map() });
    this.inner = document.createElement("div");
    box.classList.add("list");
    box.replaceChildren(this.inner);
    box.addEventListener("scroll", () => this.draw(), { passive: true });
    new ResizeObserver(() => this.draw()).observe(box);
  }

  // Browsers lay out no element of more than some 30 million pixels: above 10 million a scroll passes several rows.
  get length() {
    return Math.min(this.count * this.step, 1e7);
  }

  get sight() {
    return this.isAcross ? this.box.clientWidth : this.box.clientHeight;
  }

  get offset() {
    return this.isAcross ? this.box.scrollLeft : this.box.scrollTop;
  }

  set offset(value) {
    if (this.isAcross) this.box.scrollLeft = value;
    else this.box.scrollTop = value;
  }

  // How far the first row of all lies above the sight.
  get hidden() {
    const slack = Math.max(1, this.length - this.sight);
    return this.offset * (Math.max(1, this.count * this.step - this.sight) / slack);
  }

  setCount(count) {
    this.count = count;
    this.inner.style[this.isAcross ? "width" : "height"] = `${this.length}px`;
    this.redraw();
  }

  redraw() {
    this.inner.replaceChildren();
    this.shown.clear();
    this.draw();
  }

  draw() {
    const first = Math.max(0, Math.floor(this.hidden / this.step) - 1);
    const last = Math.min(this.count - 1, Math.ceil((this.hidden + this.sight) / this.step));
    for (const [index, element] of this.shown) {
      if (index < first || index > last) {
        element.remove();
        this.shown.delete(index);
      }
    }
    for (let index = first; index <= last; index += 1) this.place(index);
  }

  place(index) {
    let element = this.shown.get(index);
    if (!element) {
      element = this.row(index);
      element.dataset.index = index;
      this.shown.set(index, element);
      this.inner.append(element);
    }
    const at = index * this.step - this.hidden + this.offset;
    element.style[this.isAcross ? "left" : "top"] = `${at}px`;
    element.classList.toggle("chosen", index === this.chosen);
  }

  // Chooses a row, and brings it into sight.
  choose(index) {
    this.chosen = index;
    const at = index * this.step;
    const margin = this.isAcross ? Math.min(this.step, this.sight / 3) : 0;
    let hidden = Math.min(this.hidden, at - margin);
    hidden = Math.max(hidden, at + this.step + margin - this.sight);
    const whole = Math.max(1, this.count * this.step - this.sight);
    if (index >= 0 && hidden !== this.hidden) this.offset = hidden * (Math.max(1, this.length - this.sight) / whole);
    this.draw();
  }

  // The index of the row at which an event points.
  static indexOf(event) {
    const row = event.target.closest("[data-index]");
    return row ? Number(row.dataset.index) : -1;
  }
}

function element(kind, classes, ...content) {
  const made = document.createElement(kind);
  if (classes) made.className = classes;
  made.append(...content);
  return made;
}
