// The page: what was run, the drawing, the counts, and what the reader chooses of them.
const byId = (name) => document.getElementById(name);
const make = (tag, className = "", text = "") => Object.assign(document.createElement(tag), { className, textContent: text });
const counted = (count, one, many = `${one}s`) => `${count.toLocaleString("en")} ${count === 1 ? one : many}`;
const data = JSON.parse(byId("data").textContent);
const { model, places } = data;

byId("name").textContent = data.name;
for (const notice of data.notices) byId("notices").append(make("p", "", notice));
if (data.refusal) showRefusal(data.refusal);
else start().catch((fault) => fail(`The page can't be drawn: ${fault.message}`, fault));

// Tells what went wrong on the page, and on the console.
function fail(text, fault) {
  byId("notices").append(make("p", "", text));
  console.error(fault ?? text);
}

function showRefusal({ fault, line, lines }) {
  for (const part of ["stage", "side", "player"]) byId(part).hidden = true;
  byId("refusal").hidden = false;
  byId("about").textContent = "refused";
  byId("fault").textContent = fault;
  for (const [number, text] of lines) {
    const row = make("div", number === line ? "wrong" : "");
    row.append(make("span", "number", number), make("span", "", text));
    byId("lines").append(row);
  }
  byId("lines").hidden = lines.length === 0;
  document.documentElement.dataset.drawn = "refusal";
}

// The coordinates of all molecules as whole numbers of 16 bits, and where those of each moment and species start.
async function unpack() {
  const text = atob(places.places);
  const bytes = new Uint8Array(text.length);
  for (let at = 0; at < text.length; at++) bytes[at] = text.charCodeAt(at);
  const stream = new Blob([bytes]).stream().pipeThrough(new DecompressionStream("deflate"));
  places.whole = new Uint16Array(await new Response(stream).arrayBuffer());
  let start = 0;
  places.starts = places.shown.map((counts) => counts.map((count) => { start += count; return start - count; }));
  places.places = null;
}

async function start() {
  const bySoftware = isDrawnByProcessor();
  if (bySoftware === null) throw new Error("this browser has no WebGL");
  await unpack();
  const scene = new Scene(byId("drawing"), model, places, bySoftware);
  const chart = new Chart(byId("chart"), places, model.species, (moment) => show(moment));
  const last = places.times.length - 1;
  let shown = 0, playing = false, due = 0;

  // What is shown of time

  function show(moment) {
    shown = Math.min(last, Math.max(0, moment));
    scene.show(shown);
    chart.mark(shown);
    byId("moment").value = shown;
    const clock = `step ${data.steps[shown]} of ${data.steps[last]}, time ${places.times[shown]}`;
    byId("clock").textContent = clock;
    byId("moment").setAttribute("aria-valuetext", clock);
    places.counts[shown].forEach((count, species) => { byId(`count-${species}`).textContent = count.toLocaleString("en"); });
  }

  function play(on) {
    playing = on && last > 0;
    if (playing && shown === last) show(0);
    byId("triangle").toggleAttribute("hidden", playing);
    byId("bars").toggleAttribute("hidden", !playing);
    byId("play").setAttribute("aria-label", playing ? "Pause" : "Play");
    due = performance.now();
  }

  for (const speed of [2, 5, 10, 20, 60]) byId("speed").append(new Option(`${speed} a second`, speed, speed === 10, speed === 10));
  byId("moment").max = last;
  byId("moment").addEventListener("input", (event) => { play(false); show(Number(event.target.value)); });
  byId("play").addEventListener("click", () => play(!playing));

  // What is shown of space

  function choices(list, names, hidden, ink, change) {
    names.forEach((name, number) => {
      const item = make("li"), label = make("label"), box = make("input");
      Object.assign(box, { type: "checkbox", checked: true });
      box.addEventListener("change", () => {
        if (box.checked) hidden.delete(number);
        else hidden.add(number);
        change();
      });
      label.append(box);
      if (ink) {
        const dot = make("span", "dot");
        dot.style.background = ink(number);
        label.append(dot);
      }
      label.append(make("span", "name", name));
      item.append(label);
      list.append(item);
    });
  }

  choices(byId("species"), model.species, scene.hidden.species, speciesInk, () => {
    chart.hidden = scene.hidden.species;
    chart.draw();
    scene.isDirty = true;
  });
  [...byId("species").children].forEach((item, number) => {
    item.append(Object.assign(make("span", "count"), { id: `count-${number}` }));
  });
  choices(byId("surfaces"), model.surfaces.map((surface) => surface.name), scene.hidden.surfaces, null, () => {
    scene.act();
    choose(null);
  });

  model.species.forEach((name, number) => byId("who").append(new Option(name, number)));
  byId("who").addEventListener("change", (event) => { scene.act(Number(event.target.value)); describe(); });
  const occurs = (action) => model.panels.some((panel) => FACES.some((face) =>
    model.species.some((_, species) => actionOf(model, panel, face, species) === action)));
  for (const action of ["r", "a", "t", "j"]) if (occurs(action)) byId("actions").append(legend(ACTIONS[action].ink, actionText(action)));
  const letters = [...new Set(model.walls.map((wall) => wall.letter))];
  for (const letter of letters) byId("letters").append(legend(ACTIONS[letter].ink, `${letter}: ${ACTIONS[letter].wall}`));
  byId("faces").hidden = byId("surfaces-section").hidden = model.panels.length === 0;

  for (const part of ["arrows", "labels", "points"]) {
    byId(`show-${part}`).addEventListener("change", (event) => { scene.sight[part] = event.target.checked; scene.isDirty = true; });
  }
  byId("show-arrows").closest("li").hidden = model.panels.length === 0;
  byId("show-points").closest("li").hidden = model.compartments.length === 0;
  byId("size").addEventListener("input", (event) => scene.setSize(Number(event.target.value)));

  const views = scene.flat ? { start: "Reset" } : { start: "Reset", x: "x", y: "y", z: "z" };
  for (const [view, name] of Object.entries(views)) {
    const button = Object.assign(make("button", "", name), { type: "button", title: view === "start" ? "As at the beginning (0)" : `Look along ${view}` });
    button.addEventListener("click", () => scene.lookFrom(view));
    byId("views").append(button);
  }

  function legend(ink, text) {
    const item = make("li"), swatch = make("span", "swatch");
    swatch.style.borderColor = ink;
    swatch.style.background = `${ink}55`;
    item.append(swatch, make("span", "", text));
    return item;
  }

  function actionText(action) {
    return { r: "reflect", a: "absorb", t: "let through", j: "jump, to where the arrow leads" }[action];
  }

  // What is said of a panel

  let chosen = null;

  function choose(number) {
    chosen = number;
    scene.choose(number);
    describe();
  }

  function describe() {
    byId("selected").hidden = chosen === null;
    if (chosen === null) return;
    const panel = model.panels[chosen];
    byId("selected-name").textContent = `${model.surfaces[panel.surface].name} / ${panel.name}`;
    const axes = [0, 1, 2].slice(0, model.dims);
    const spans = axes.filter((axis) => axis !== panel.axis).map((axis) => `${"xyz"[axis]} from ${short(panel.low[axis])} to ${short(panel.high[axis])}`);
    byId("selected-where").textContent =
      `${"xyz"[panel.axis]} = ${short(panel.low[panel.axis])}${spans.map((span) => `, ${span}`).join("")}. The front is the side of ${panel.greater ? "greater" : "smaller"} ${"xyz"[panel.axis]}.`;
    const table = byId("selected-actions");
    table.replaceChildren();
    const row = (tag, cells) => {
      const line = make("tr");
      cells.forEach((cell, at) => line.append(make(at ? tag : "th", "", cell)));
      table.append(line);
    };
    row("th", ["", "front", "back"]);
    model.species.forEach((name, species) => row("td", [name, ...FACES.map((face) => deed(panel, face, species))]));
    byId("selected-line").textContent = `line ${panel.line}: ${panel.text}`;
  }

  function deed(panel, face, species) {
    const action = actionOf(model, panel, face, species), made = madeOf(model, panel, face, species);
    const as = made === species ? "" : `, as ${model.species[made]}`;
    if (action !== "j") return ACTIONS[action].name + as;
    const [number, toFace] = panel.to[face];
    return `jump to ${model.panels[number].name}, ${toFace}${as}`;
  }

  function short(number) {
    return String(Number(number.toFixed(6)));
  }

  // Mouse and keys

  const drawing = byId("drawing");
  let pressed = null;
  drawing.addEventListener("pointerdown", (event) => {
    pressed = [event.clientX, event.clientY];
    drawing.focus({ preventScroll: true });
  });
  drawing.addEventListener("click", (event) => {
    if (!pressed || Math.hypot(event.clientX - pressed[0], event.clientY - pressed[1]) > 4) return;
    const box = drawing.getBoundingClientRect();
    const under = scene.panelsUnder(event.clientX - box.left, event.clientY - box.top);
    choose(under[(under.indexOf(chosen) + 1) % Math.max(1, under.length)] ?? null);
  });

  const keys = {
    ArrowLeft: [-1, 0], ArrowRight: [1, 0], ArrowUp: [0, 1], ArrowDown: [0, -1],
  };
  drawing.addEventListener("keydown", (event) => {
    const way = keys[event.key];
    if (way && (event.shiftKey || scene.flat)) scene.pan(way[0] * 0.05, way[1] * 0.05);
    else if (way) scene.turn(way[0] * 0.1, way[1] * 0.1);
    else if (event.key === "+" || event.key === "=") scene.zoom(1.15);
    else if (event.key === "-") scene.zoom(1 / 1.15);
    else if (event.key === "0") scene.lookFrom("start");
    else return;
    event.preventDefault();
  });
  document.addEventListener("keydown", (event) => {
    if (event.ctrlKey || event.metaKey || event.altKey || event.target.closest("select, input:not([type=range]), button, summary")) return;
    if (event.key === " ") play(!playing);
    else if (event.key === ".") { play(false); show(shown + 1); }
    else if (event.key === ",") { play(false); show(shown - 1); }
    else if (event.key === "Escape") choose(null);
    else return;
    event.preventDefault();
  });
  const help = scene.flat
    ? [["drag", "move"], ["wheel, + and -", "zoom"], ["arrows", "move (the drawing has the focus)"], ["0", "look as at the beginning"]]
    : [["drag", "turn"], ["right button, Shift + drag", "move"], ["wheel, + and -", "zoom"], ["arrows", "turn; with Shift, move (the drawing has the focus)"], ["0", "look as at the beginning"]];
  if (model.panels.length) help.push(["click", "choose a panel; again for the one behind it"], ["Escape", "choose none"]);
  for (const [key, text] of [...help, ["Space", "play or pause"], [", and .", "a moment back or on"]]) byId("help").append(make("dt", "", key), make("dd", "", text));

  // What the page says of itself

  byId("about").textContent = last < 0 ? "" : `${counted(data.steps[last], "step")} shown at ${counted(last + 1, "moment")}, seed ${data.seed}`;
  byId("caption").textContent = scene.model.dims === 1 ? "Heights have no meaning: they tell molecules and species apart." : "";
  drawing.setAttribute("aria-label", `${counted(model.panels.length, "panel")} in ${counted(model.dims, "axis", "axes")}`);
  play(false);
  byId("player").hidden = last < 0;
  if (last >= 0) show(0);

  scene.renderer.setAnimationLoop(() => {
    const now = performance.now(), pause = 1000 / Number(byId("speed").value);
    if (playing && now - due >= pause) {
      due = Math.max(due + pause, now - pause);
      if (shown === last) play(false);
      else show(shown + 1);
    }
    if (scene.draw(now)) Object.assign(document.documentElement.dataset, { drawn: scene.renderer.info.render.frame, moment: shown, coarse: Boolean(scene.isCoarse) });
  });
}
