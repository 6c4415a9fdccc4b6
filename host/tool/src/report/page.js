
(() => {
  "use strict";

  const byId = (id) => document.getElementById(id);
  const counted = (number, thing) => `${number} ${thing}${number === 1 ? "" : "s"}`;
  const range = (what, from, to) => (from === to ? `${what} ${from}` : `${what}s ${from} to ${to}`);
  const isEnter = (event) => event.key === "Enter" || event.key === " ";

  /* Tables: a click or Enter on a heading sorts, a second one turns the order around. */

  const READS = {
    order: (entry) => entry.order,
    number: (entry, column) => Number(entry.row.cells[column].textContent),
    text: (entry, column) => entry.row.cells[column].textContent,
  };

  /* The rows in the order of a column; of equal rows the listing's order stays. */
  function sorted(entries, column, kind, turn) {
    const keys = entries.map((entry) => ({ row: entry.row, order: entry.order, key: READS[kind](entry, column) }));
    keys.sort((one, other) => {
      if (one.key === other.key) return one.order - other.order;
      return one.key < other.key ? -turn : turn;
    });
    return keys.map(({ row }) => row);
  }

  function sortable(table) {
    const body = table.tBodies[0];
    const entries = [...body.rows].map((row, order) => ({ row, order }));
    const heads = [...table.tHead.rows[0].cells];
    heads.forEach((head, column) => head.firstElementChild.addEventListener("click", () => {
      const turn = head.getAttribute("aria-sort") === "ascending" ? -1 : 1;
      body.append(...sorted(entries, column, head.dataset.sort, turn));
      for (const other of heads) other.removeAttribute("aria-sort");
      head.setAttribute("aria-sort", turn === 1 ? "ascending" : "descending");
      body.dispatchEvent(new Event("arranged"));
    }));
  }

  /* Shows the rows that have a text in their name or attributes, the first and the last cell. */
  function filterable(table, input, count) {
    const body = table.tBodies[0];
    const all = count.textContent;
    const entries = [...body.rows].map((row) => {
      const text = `${row.cells[0].textContent}\n${row.cells[row.cells.length - 1].textContent}`;
      return { row, text: text.toLowerCase() };
    });
    input.addEventListener("input", () => {
      const wanted = input.value.trim().toLowerCase();
      for (const { row, text } of entries) row.hidden = !text.includes(wanted);
      const shown = entries.filter(({ row }) => !row.hidden).length;
      count.textContent = shown === entries.length ? all : `${shown} of ${all}`;
      body.dispatchEvent(new Event("arranged"));
    });
  }

  /* One row of a table is reached with Tab, the others from it with the arrow keys. */
  function walkable(table) {
    const body = table.tBodies[0];
    const steps = { ArrowDown: "nextElementSibling", ArrowUp: "previousElementSibling" };
    let current = null;
    const stand = (row) => {
      if (current) current.tabIndex = -1;
      current = row;
      if (current) current.tabIndex = 0;
    };
    const first = () => [...body.rows].find((row) => !row.hidden) ?? null;
    body.addEventListener("arranged", () => stand(first()));
    body.addEventListener("focusin", (event) => stand(event.target.closest("tr")));
    body.addEventListener("keydown", (event) => {
      const step = steps[event.key];
      if (!step) return;
      event.preventDefault();
      let row = current[step];
      while (row && row.hidden) row = row[step];
      if (row) row.focus();
    });
    for (const row of body.rows) row.tabIndex = -1;
    stand(first());
  }

  /* What the page holds: owners (files and free stretches) with their rows, stretches and slices. */

  function owners() {
    const found = new Map();
    for (const row of document.querySelectorAll("tr[data-of]")) {
      const free = row.dataset.of.startsWith("e");
      const name = row.cells[0].textContent;
      const length = Number(row.dataset.length);
      found.set(row.dataset.of, { row, free, length, name: free ? "Free" : name, number: Number(name), slices: 0, stretches: [] });
    }
    return found;
  }

  function read(map) {
    const unit = { owners: owners() };
    for (const key of ["first", "size", "slices", "columns", "height", "gap", "left", "edge"]) {
      unit[key] = Number(map.dataset[key]);
    }
    unit.at = new Array(unit.slices + 1);
    for (const bar of map.querySelectorAll("path[data-of]")) {
      const owner = unit.owners.get(bar.dataset.of);
      const [first, slices] = [Number(bar.dataset.at), Number(bar.dataset.slices)];
      const stretch = { owner, bar, first, slices, before: owner.slices, number: owner.stretches.length + 1 };
      owner.stretches.push(stretch);
      owner.slices += slices;
      unit.at.fill(stretch, first, first + slices);
    }
    unit.free = [...unit.owners.values()].filter((owner) => owner.free).length;
    return unit;
  }

  /* Which blocks a slice has. The first sector of a file is its index block; that of SYS lies elsewhere. */
  function blocks(unit, stretch, slice) {
    const { owner } = stretch;
    const lead = owner.name === "SYS" ? 0 : 1;
    const from = (stretch.before + slice - stretch.first) * unit.size;
    const first = Math.max(from - lead, 0);
    const end = Math.min(from + unit.size - lead, owner.length);
    const index = from < lead ? "index block" : "";
    const some = end > first ? range("block", first, end - 1) : "";
    const text = [index, some].filter(Boolean).join(" and ") || "no block in use";
    return text[0].toUpperCase() + text.slice(1);
  }

  /* What is said of a slice, line by line. */
  function lines(unit, slice) {
    const stretch = unit.at[slice];
    const { owner, slices, number } = stretch;
    const sector = unit.first + (slice - 1) * unit.size;
    const place = [owner.name, `Slice ${slice}`, range("Sector", sector, sector + unit.size - 1)];
    if (owner.free) return [...place, `Free stretch ${owner.number} of ${unit.free}: ${counted(slices, "slice")}`];
    return [...place, blocks(unit, stretch, slice), `Stretch ${number} of ${owner.stretches.length}`];
  }

  /* What is said of an owner. */
  function account(owner) {
    if (!owner.slices) return `${counted(owner.length, "sector")}, no slices`;
    const places = owner.stretches.map(({ first, slices }) => (slices === 1 ? `${first}` : `${first}\u2013${first + slices - 1}`));
    const where = `${counted(owner.slices, "slice")}: ${places.join(", ")}`;
    if (owner.free) return where;
    const broken = owner.stretches.length === 1 ? "one stretch" : `${owner.stretches.length} stretches`;
    return `${counted(owner.length, "sector")} in ${broken}, ${where}`;
  }

  /* The picture, drawn for the width that there is. */

  class Picture {
    constructor(map, unit) {
      this.map = map;
      this.unit = unit;
      /* What changes with the pointer is a picture of its own, so that the map is not painted again. */
      this.over = this.make("svg", { class: "over", "aria-hidden": "true" }, map.parentNode);
      for (const title of map.querySelectorAll("title")) title.remove();
    }

    make(name, attributes, parent) {
      const element = document.createElementNS(this.map.namespaceURI, name);
      for (const [key, value] of Object.entries(attributes)) element.setAttribute(key, value);
      parent.append(element);
      return element;
    }

    part(name) {
      return this.map.querySelector(`.${name}`);
    }

    /* The corner of a slice's cell. */
    corner(slice) {
      const { left, height, gap } = this.unit;
      const [row, column] = [Math.floor((slice - 1) / this.columns), (slice - 1) % this.columns];
      return { x: left + column * this.cell, y: row * (height + gap) };
    }

    /* A stretch cut at the ends of rows. */
    pieces({ first, slices }) {
      const [found, end] = [[], first + slices];
      for (let slice = first; slice < end;) {
        const stop = Math.min(end, slice + this.columns - ((slice - 1) % this.columns));
        const [begins, ends] = [slice === first, stop === end];
        const { x, y } = this.corner(slice);
        const to = x + (stop - slice) * this.cell;
        found.push({ begins, ends, y, from: x + (begins ? this.edge : 0), to: to - (ends ? this.edge : 0) });
        slice = stop;
      }
      return found;
    }

    /* Round where the stretch begins or ends, straight where it goes on. */
    outline({ begins, ends, y, from, to }) {
      const { height } = this.unit;
      const most = Math.min(height / 4, (to - from) / 2);
      const [l, r] = [begins ? most : 0, ends ? most : 0];
      return `M${from + l} ${y}H${to - r}q${r} 0 ${r} ${r}v${height - 2 * r}q0 ${r} ${-r} ${r}`
        + `H${from + l}q${-l} 0 ${-l} ${-l}v${2 * l - height}q0 ${-l} ${l} ${-l}z`;
    }

    path(stretch) {
      return this.pieces(stretch).map((piece) => this.outline(piece)).join("");
    }

    /* The name in the widest bar of a stretch, if there is room. */
    label(stretch) {
      const { owner, bar, number } = stretch;
      const { height } = this.unit;
      const size = Math.min(height * 0.5, 13);
      if (owner.free || size < 9) return;
      const widest = this.pieces(stretch).reduce((one, other) => (other.to - other.from > one.to - one.from ? other : one));
      const full = owner.stretches.length === 1 ? owner.name : `${owner.name} ${number}/${owner.stretches.length}`;
      const text = [full, owner.name].find((some) => some.length * size * 0.7 + 8 < widest.to - widest.from);
      if (!text) return;
      const place = { x: (widest.from + widest.to) / 2, y: widest.y + height / 2, "font-size": size };
      const paint = bar.dataset.ink ? { fill: bar.dataset.ink, stroke: bar.getAttribute("fill") } : { class: "sys" };
      this.make("text", { ...place, ...paint }, this.part("names")).textContent = text;
    }

    measure() {
      const { left, height, gap, edge, slices, columns } = this.unit;
      this.width = this.map.parentNode.clientWidth;
      this.columns = this.width < 640 ? columns / 2 : columns;
      this.rows = Math.ceil(slices / this.columns);
      this.cell = (this.width - left) / this.columns;
      this.edge = Math.min(edge, this.cell / 10);
      this.bottom = this.rows * (height + gap) - gap;
      for (const svg of [this.map, this.over]) svg.setAttribute("viewBox", `0 0 ${this.width} ${this.bottom}`);
    }

    draw() {
      this.measure();
      this.frame();
      this.part("names").replaceChildren();
      for (const owner of this.unit.owners.values()) {
        for (const stretch of owner.stretches) {
          stretch.bar.setAttribute("d", this.path(stretch));
          this.label(stretch);
        }
      }
    }

    /* The numbers of the rows and the lines between cells. */
    frame() {
      const { left, height } = this.unit;
      const numbers = this.part("numbers");
      numbers.replaceChildren();
      for (let row = 0; row < this.rows; row += 1) {
        const first = row * this.columns + 1;
        this.make("text", { x: left - 10, y: this.corner(first).y + height / 2 }, numbers).textContent = first;
      }
      const columns = Array.from({ length: this.columns - 1 }, (_, column) => left + (column + 1) * this.cell);
      this.part("lines").setAttribute("d", columns.map((x) => `M${x} 0V${this.bottom}`).join(""));
    }

    /* Marks an owner, by dimming everything but its bars, and a slice. */
    mark(owner, slice) {
      const { left, height } = this.unit;
      this.over.replaceChildren();
      if (owner && owner.slices) {
        const bars = owner.stretches.map((stretch) => this.path(stretch)).join("");
        const others = `M${left} -2H${this.width}V${this.bottom + 2}H${left}z${bars}`;
        this.make("path", { class: "dim", "fill-rule": "evenodd", d: others }, this.over);
        this.make("path", { class: "lit", d: bars }, this.over);
      }
      if (slice) this.make("rect", { class: "cell", ...this.corner(slice), width: this.cell, height, rx: 2 }, this.over);
    }

    /* The slice at a point of the window, 0 if there is none. */
    sliceAt({ clientX, clientY }) {
      const { left, height, gap, slices } = this.unit;
      const box = this.map.getBoundingClientRect();
      const scale = this.width / box.width;
      const column = Math.floor(((clientX - box.left) * scale - left) / this.cell);
      const row = Math.floor(((clientY - box.top) * scale + gap / 2) / (height + gap));
      if (column < 0 || column >= this.columns || row < 0) return 0;
      const slice = row * this.columns + column + 1;
      return slice <= slices ? slice : 0;
    }

    /* The point of the window below a slice. */
    below(slice) {
      const box = this.map.getBoundingClientRect();
      const { x, y } = this.corner(slice);
      return { x: box.left + x + this.cell / 2, y: box.top + y + this.unit.height };
    }
  }

  class Tip {
    constructor(element) {
      this.element = element;
    }

    hide() {
      this.element.hidden = true;
    }

    show([title, ...rest], { x, y }) {
      const text = (name, content) => Object.assign(document.createElement(name), { textContent: content });
      this.element.replaceChildren(text("b", title), ...rest.map((line) => text("span", line)));
      this.element.hidden = false;
      const { width, height } = this.element.getBoundingClientRect();
      const left = Math.max(8, Math.min(x + 14, innerWidth - width - 8));
      const top = y + 16 + height < innerHeight ? y + 16 : y - 16 - height;
      this.element.style.transform = `translate(${left}px, ${Math.max(8, top)}px)`;
    }
  }

  /* The map and the tables together: what is pointed at is marked in both, a click keeps it. */

  class View {
    constructor(map) {
      this.map = map;
      this.unit = read(map);
      this.picture = new Picture(map, this.unit);
      this.tip = new Tip(byId("tip"));
      Object.assign(this, { kept: null, pointed: null, lit: null, slice: 0, cursor: 1, byKeys: false });
      this.redraw();
      this.keep(null);
    }

    redraw() {
      this.picture.draw();
      this.refresh();
    }

    refresh() {
      const owner = this.pointed ?? this.kept;
      if (this.lit) this.lit.row.classList.remove("lit");
      if (owner) owner.row.classList.add("lit");
      this.lit = owner;
      this.picture.mark(owner, this.slice);
    }

    point(owner, slice) {
      if (owner === this.pointed && slice === this.slice) return;
      this.pointed = owner;
      this.slice = slice;
      this.refresh();
    }

    /* Points at a slice, with its tip. */
    visit(slice, place) {
      this.byKeys = false;
      this.point(this.unit.at[slice].owner, slice);
      this.tip.show(lines(this.unit, slice), place);
    }

    /* What is left marked when the pointer goes: the row that the keyboard stands on. */
    standing() {
      const row = document.activeElement?.closest("tr[data-of]");
      return row && row.matches(":focus-visible") ? this.unit.owners.get(row.dataset.of) : null;
    }

    leave() {
      this.byKeys = false;
      this.tip.hide();
      this.point(this.standing(), 0);
    }

    /* Keeps a choice; the same once more drops it. */
    keep(owner) {
      const kept = owner === this.kept ? null : owner;
      if (this.kept) this.kept.row.classList.remove("kept");
      if (kept) kept.row.classList.add("kept");
      this.kept = kept;
      const name = document.createElement("b");
      name.textContent = kept && kept.free ? "Free stretch" : kept && kept.name;
      byId("choice").replaceChildren(...(kept ? [name, account(kept)] : ["No file is chosen."]));
      this.refresh();
    }

    /* Keeps the owner of a slice, and brings its row into the table's window without moving the page. */
    choose(slice) {
      const { owner } = this.unit.at[slice];
      this.keep(owner);
      if (owner.row.hidden) return;
      const box = owner.row.closest(".scroll");
      const [inner, outer] = [owner.row.getBoundingClientRect(), box.getBoundingClientRect()];
      const head = owner.row.closest("table").tHead.offsetHeight;
      if (inner.top < outer.top + head || inner.bottom > outer.bottom) {
        box.scrollTop += inner.top - outer.top - outer.height / 2;
      }
    }

    /* Shows the slice of the keyboard. */
    showCursor() {
      this.visit(this.cursor, this.picture.below(this.cursor));
      this.byKeys = true;
    }

    /* Goes to a slice by the keyboard. */
    stand(slice) {
      if (slice >= 1 && slice <= this.unit.slices) this.cursor = slice;
      this.showCursor();
      byId("say").textContent = lines(this.unit, this.cursor).join(", ");
    }

    /* The slice that a key leads to from the one that is visited, or nothing. */
    next(key) {
      const { cursor, unit: { at, slices }, picture: { columns } } = this;
      const steps = {
        ArrowRight: cursor + 1,
        ArrowLeft: cursor - 1,
        ArrowDown: cursor + columns,
        ArrowUp: cursor - columns,
        PageDown: at[cursor].first + at[cursor].slices,
        PageUp: at[cursor].first - 1,
        Home: 1,
        End: slices,
      };
      return steps[key];
    }
  }

  function followPointer(view) {
    view.map.addEventListener("pointermove", (event) => {
      const slice = view.picture.sliceAt(event);
      if (slice) view.visit(slice, { x: event.clientX, y: event.clientY });
      else view.leave();
    });
    view.map.addEventListener("pointerleave", (event) => {
      if (event.pointerType === "mouse") view.leave();
    });
    view.map.addEventListener("click", (event) => {
      const slice = view.picture.sliceAt(event);
      if (!slice) return;
      view.cursor = slice;
      /* A tap has no pointermove. */
      view.visit(slice, { x: event.clientX, y: event.clientY });
      view.choose(slice);
    });
  }

  /* The page moves below a tip: that of the keyboard follows its slice, any other goes. */
  function followScroll(view) {
    addEventListener("scroll", () => {
      const { y } = view.picture.below(view.cursor);
      if (view.byKeys && y > 0 && y < innerHeight) view.showCursor();
      else if (!view.tip.element.hidden) view.leave();
    }, { passive: true });
  }

  function followKeys(view) {
    view.map.tabIndex = 0;
    view.map.addEventListener("focus", () => {
      if (view.map.matches(":focus-visible")) view.stand(view.cursor);
    });
    view.map.addEventListener("blur", () => view.leave());
    view.map.addEventListener("keydown", (event) => {
      const slice = view.next(event.key);
      if (slice === undefined && !isEnter(event)) return;
      event.preventDefault();
      if (isEnter(event)) view.choose(view.cursor);
      else view.stand(slice);
    });
    document.addEventListener("keydown", (event) => {
      if (event.key !== "Escape") return;
      view.keep(null);
      view.leave();
      view.point(null, 0);
    });
  }

  function followRows(view, body) {
    const owner = (event) => view.unit.owners.get(event.target.closest("tr").dataset.of);
    for (const kind of ["pointerover", "focusin"]) body.addEventListener(kind, (event) => view.point(owner(event), 0));
    body.addEventListener("pointerleave", () => view.leave());
    body.addEventListener("focusout", () => view.point(null, 0));
    body.addEventListener("click", (event) => view.keep(owner(event)));
    body.addEventListener("keydown", (event) => {
      if (!isEnter(event)) return;
      event.preventDefault();
      view.keep(owner(event));
    });
  }

  function followWidth(view) {
    new ResizeObserver(() => {
      if (view.map.parentNode.clientWidth !== view.picture.width) view.redraw();
    }).observe(view.map.parentNode);
  }

  document.documentElement.classList.add("scripted");
  const tables = document.querySelectorAll("table");
  for (const table of tables) {
    sortable(table);
    walkable(table);
  }
  if (!byId("map")) return;
  filterable(byId("files"), byId("filter"), byId("count"));
  const view = new View(byId("map"));
  followPointer(view);
  followScroll(view);
  followKeys(view);
  followWidth(view);
  for (const table of tables) followRows(view, table.tBodies[0]);
})();
