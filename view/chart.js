// The counts of species over time, with a mark at the moment that is shown. A click or a drag in it chooses a moment.
class Chart {
  constructor(canvas, places, species, choose) {
    this.canvas = canvas;
    this.counts = places.counts;
    this.times = places.times.map(Number);
    this.species = species;
    this.hidden = new Set();
    this.moment = 0;
    const pick = (event) => {
      const { left, right } = this.frame();
      const share = (event.offsetX - left) / Math.max(1, right - left);
      const time = this.times[0] + share * (this.times[this.times.length - 1] - this.times[0]);
      let nearest = 0;
      this.times.forEach((at, moment) => { if (Math.abs(at - time) < Math.abs(this.times[nearest] - time)) nearest = moment; });
      choose(nearest);
    };
    canvas.addEventListener("pointerdown", (event) => { canvas.setPointerCapture(event.pointerId); pick(event); });
    canvas.addEventListener("pointermove", (event) => { if (event.buttons) pick(event); });
    new ResizeObserver(() => this.draw()).observe(canvas);
  }

  frame() {
    return { left: 46, right: this.canvas.clientWidth - 10, top: 10, bottom: this.canvas.clientHeight - 24 };
  }

  // The place of a time.
  x(time) {
    const { left, right } = this.frame();
    const [first, last] = [this.times[0] ?? 0, this.times[this.times.length - 1] ?? 1];
    return left + ((time - first) / (last - first || 1)) * (right - left);
  }

  // Draws all but the mark, which is drawn over a copy of it.
  draw() {
    const { canvas, times } = this;
    const ratio = window.devicePixelRatio;
    this.lines = Object.assign(document.createElement("canvas"), { width: canvas.clientWidth * ratio, height: canvas.clientHeight * ratio });
    const context = this.lines.getContext("2d");
    context.scale(ratio, ratio);
    const { left, right, top, bottom } = this.frame();
    const seen = this.species.map((_, number) => number).filter((number) => !this.hidden.has(number));
    const most = Math.max(1, largest(this.counts.flatMap((counts) => seen.map((number) => counts[number]))));
    const [first, last] = [times[0] ?? 0, times[times.length - 1] ?? 1];
    const y = (count) => bottom - (count / most) * (bottom - top);

    Object.assign(context, { font: "11px system-ui, 'DejaVu Sans', sans-serif", fillStyle: "#566273", strokeStyle: "#e3e7ec", lineWidth: 1, textBaseline: "middle" });
    context.textAlign = "right";
    for (const count of ticks(0, most, 4).filter(Number.isInteger)) {
      line(context, [[left, y(count)], [right, y(count)]]);
      context.fillText(count.toLocaleString("en"), left - 6, y(count));
    }
    context.textAlign = "center";
    for (const time of ticks(first, last, 4)) context.fillText(String(time), Math.min(right - 8, this.x(time)), bottom + 12);
    for (const number of seen) {
      Object.assign(context, { strokeStyle: speciesInk(number), lineWidth: 1.6, lineJoin: "round" });
      line(context, this.counts.map((counts, moment) => [this.x(times[moment]), y(counts[number])]));
    }
    canvas.setAttribute("aria-label", `Counts over time, from ${first} to ${last}; at most ${most}`);
    this.mark(this.moment);
  }

  // Sets the mark at a moment.
  mark(moment) {
    this.moment = moment;
    if (!this.lines?.width || !this.lines.height) return;
    [this.canvas.width, this.canvas.height] = [this.lines.width, this.lines.height];
    const context = this.canvas.getContext("2d");
    context.drawImage(this.lines, 0, 0);
    context.scale(window.devicePixelRatio, window.devicePixelRatio);
    const { top, bottom } = this.frame(), x = this.x(this.times[moment] ?? 0);
    Object.assign(context, { strokeStyle: MARK, lineWidth: 1.5 });
    line(context, [[x, top - 4], [x, bottom]]);
  }
}

function line(context, points) {
  context.beginPath();
  points.forEach(([x, y], at) => (at ? context.lineTo(x, y) : context.moveTo(x, y)));
  context.stroke();
}

// Round numbers from one to another, about so many.
function ticks(from, to, about) {
  const rough = (to - from) / about || 1;
  const power = 10 ** Math.floor(Math.log10(rough));
  const step = power * [1, 2, 5, 10].find((times) => times * power >= rough * 0.999);
  const all = [];
  for (let at = Math.ceil(from / step - 1e-9); at * step <= to + step * 1e-9; at++) all.push(Number((at * step).toPrecision(12)));
  return all;
}
