// The drawing of space: walls, panels, points of compartments and molecules, in three axes, or flat in one and two.
// Lengths of the drawing are those of the model, moved so that the middle of the walls and panels is at 0 and divided so that the
// longest edge around them is 1. In one axis the second coordinate is made up, so that molecules and panels can be seen.

const ACTIONS = {
  r: { name: "reflect", ink: "#4a6390", opacity: 0.2, wall: "reflects" },
  a: { name: "absorb", ink: "#141414", opacity: 0.34, wall: "absorbs" },
  j: { name: "jump", ink: "#7a3fe0", opacity: 0.28 },
  t: { name: "pass", ink: "#8fa396", opacity: 0.07, wall: "lets molecules through" },
  p: { name: "periodic", ink: "#7a3fe0", wall: "periodic: leads to the opposite wall" },
};
const FACES = ["front", "back"];
const MARK = "#c2185b";
const LANES = 0.3; // the height of the drawing in one axis

const speciesInk = (number) => {
  const inks = ["#0072b2", "#d55e00", "#00855f", "#b0479a", "#9a7400", "#2b8cc4", "#7a4a20", "#5a6470"];
  return inks[number] ?? `hsl(${(number * 137.5) % 360}, 60%, 38%)`;
};

// What a face of a panel does to a species: the letter of an action. A jump that leads nowhere lets molecules pass.
const actionOf = (model, panel, face, species) => {
  const action = model.surfaces[panel.surface][face][species] ?? "t";
  return action === "j" && !panel.to[face] ? "t" : action;
};

// The species that a face of a panel makes of a species on which it acts, by its number: that species itself where none is named, and
// where a jump leads nowhere.
const madeOf = (model, panel, face, species) => {
  const { [face]: actions, [`${face}_new`]: made = {} } = model.surfaces[panel.surface];
  return actions[species] === "j" && !panel.to[face] ? species : made[species] ?? species;
};

// Whether WebGL is drawn by a processor, for want of a graphics card; null where there is no WebGL at all.
function isDrawnByProcessor() {
  const context = document.createElement("canvas").getContext("webgl2");
  if (!context) return null;
  const names = context.getExtension("WEBGL_debug_renderer_info");
  const renderer = names ? context.getParameter(names.UNMASKED_RENDERER_WEBGL) : "";
  context.getExtension("WEBGL_lose_context")?.loseContext();
  return /swiftshader|llvmpipe|software|basic render/i.test(renderer);
}

class Scene {
  constructor(element, model, places, bySoftware) {
    this.model = model;
    this.places = places;
    this.flat = model.dims < 3;
    this.element = element;
    this.isDirty = true;
    this.who = 0;
    this.hidden = { surfaces: new Set(), species: new Set() };
    this.sight = { arrows: true, labels: true, points: true };
    this.measure();

    this.renderer = new THREE.WebGLRenderer({ antialias: !bySoftware });
    this.fine = bySoftware ? 1 : Math.min(window.devicePixelRatio, 2);
    this.renderer.setPixelRatio(this.fine);
    this.renderer.setClearColor("#ffffff");
    this.labels = new THREE.CSS2DRenderer();
    this.labels.domElement.id = "labels";
    element.append(this.renderer.domElement, this.labels.domElement);

    this.space = new THREE.Scene();
    this.camera = this.flat ? new THREE.OrthographicCamera(-1, 1, 1, -1, 0.1, 10) : new THREE.PerspectiveCamera(32, 1, 0.002, 100);
    if (!this.flat) this.camera.up.set(0, 0, 1);
    this.controls = new THREE.OrbitControls(this.camera, this.renderer.domElement);
    Object.assign(this.controls, { enableKeys: false, screenSpacePanning: true, enableDamping: !bySoftware, dampingFactor: 0.15 });
    if (this.flat) {
      this.controls.enableRotate = false;
      this.controls.mouseButtons.LEFT = THREE.MOUSE.PAN;
      this.controls.touches.ONE = THREE.TOUCH.PAN;
    } else {
      Object.assign(this.controls, { minDistance: 0.02, maxDistance: 40 });
    }
    this.controls.addEventListener("change", () => { this.isDirty = true; });

    this.makeWalls();
    this.makePanels();
    this.makePoints();
    this.makeMolecules();
    this.act(0);
    new ResizeObserver(() => this.resize()).observe(element);
    this.resize();
    this.lookFrom("start");
  }

  // The box of the walls, that around walls and panels, and the change to lengths of the drawing.
  measure() {
    const { walls, panels } = this.model;
    const low = walls.filter((wall) => !wall.upper).map((wall) => wall.at), high = walls.filter((wall) => wall.upper).map((wall) => wall.at);
    const lowest = [...low], highest = [...high];
    for (const panel of panels) {
      panel.low.forEach((at, axis) => { lowest[axis] = Math.min(lowest[axis], at); });
      panel.high.forEach((at, axis) => { highest[axis] = Math.max(highest[axis], at); });
    }
    this.middle = lowest.map((at, axis) => (at + highest[axis]) / 2);
    this.longest = Math.max(...lowest.map((at, axis) => highest[axis] - at));
    this.low = this.at(lowest);
    this.high = this.at(highest);
    this.box = { low: this.at(low), high: this.at(high) };
    if (this.model.dims === 1) for (const { low: lower, high: upper } of [this, this.box]) [lower.y, upper.y] = [-LANES / 2, LANES / 2];
  }

  // A place of the model in the drawing.
  at(place) {
    const moved = place.map((at, axis) => (at - this.middle[axis]) / this.longest);
    return new THREE.Vector3(moved[0], moved[1] ?? 0, moved[2] ?? 0);
  }

  // Walls

  makeWalls() {
    const { dims } = this.model;
    const ends = [this.box.low, this.box.high];
    const corner = (x, y, z) => new THREE.Vector3(ends[x].x, ends[y].y, ends[z].z);
    const lines = [];
    for (const a of [0, 1]) {
      for (const b of this.flat ? [0] : [0, 1]) {
        lines.push(corner(a, 0, b), corner(a, 1, b));
        if (dims > 1) lines.push(corner(0, a, b), corner(1, a, b));
        if (dims > 2) lines.push(corner(a, b, 0), corner(a, b, 1));
      }
    }
    const box = new THREE.LineSegments(new THREE.BufferGeometry().setFromPoints(lines), new THREE.LineBasicMaterial({ color: "#9aa5b3" }));
    this.wallLabels = new THREE.Group();
    for (const wall of this.model.walls) {
      const axis = "xyz"[wall.axis];
      const label = this.label(`${axis} = ${wall.at}`, "label");
      const letter = document.createElement("span");
      letter.className = "letter";
      letter.textContent = wall.letter;
      letter.style.color = letter.style.borderColor = ACTIONS[wall.letter].ink;
      label.element.append(letter);
      label.position.addVectors(this.box.low, this.box.high).multiplyScalar(0.5);
      label.position[axis] = (wall.upper ? this.box.high : this.box.low)[axis] + (wall.upper ? 0.05 : -0.05);
      this.wallLabels.add(label);
    }
    this.space.add(box, this.wallLabels);
  }

  label(text, className) {
    const element = document.createElement("div");
    element.className = className;
    element.textContent = text;
    return new THREE.CSS2DObject(element);
  }

  // Panels

  makePanels() {
    this.rectangles = this.model.panels.map((panel) => {
      const low = this.at(panel.low), high = this.at(panel.high);
      if (this.model.dims === 1) [low.y, high.y] = [this.low.y, this.high.y];
      const normal = new THREE.Vector3().setComponent(panel.axis, panel.greater ? 1 : -1);
      const edges = high.clone().sub(low).toArray().filter((edge) => edge > 0);
      return { low, high, normal, center: low.clone().add(high).multiplyScalar(0.5), shortest: Math.min(...edges) };
    });
    this.faces = {};
    for (const action of ["t", "r", "j", "a"]) {
      const material = new THREE.MeshBasicMaterial({
        color: ACTIONS[action].ink, transparent: true, depthWrite: false,
        opacity: this.flat ? (action === "t" ? 0.45 : 1) : ACTIONS[action].opacity, side: this.flat ? THREE.DoubleSide : THREE.FrontSide,
      });
      this.faces[action] = new THREE.Mesh(new THREE.BufferGeometry(), material);
      this.faces[action].renderOrder = 1;
    }
    this.outlines = new THREE.LineSegments(new THREE.BufferGeometry(), new THREE.LineBasicMaterial({ color: "#3b4a63", transparent: true, opacity: 0.55 }));
    this.outlines.renderOrder = 2;
    this.fronts = arrows("#3b4a63");
    this.jumps = arrows(ACTIONS.j.ink);
    this.targets = new THREE.Mesh(new THREE.BufferGeometry(), new THREE.MeshBasicMaterial({ side: THREE.DoubleSide }));
    this.chosen = new THREE.Mesh(new THREE.BufferGeometry(), new THREE.MeshBasicMaterial({
      color: MARK, transparent: true, opacity: 0.55, depthTest: false, side: THREE.DoubleSide }));
    this.chosen.renderOrder = 3;
    this.chosenLabel = this.label("", "label chosen");
    this.chosen.visible = this.chosenLabel.visible = false;
    this.space.add(...Object.values(this.faces), this.outlines, this.fronts, this.jumps, this.chosen, this.chosenLabel);
  }

  // The corners of a panel, seen from the side of greater coordinates one after the other against the clock. A flat drawing has a
  // strip on each side of the panel, so wide.
  corners(rectangle, axis, face, wide) {
    const { low, high } = rectangle;
    if (this.flat) {
      const side = rectangle.normal.clone().multiplyScalar(face === "front" ? wide : -wide);
      return [low, high, high.clone().add(side), low.clone().add(side)];
    }
    const [b, c] = [(axis + 1) % 3, (axis + 2) % 3];
    return [[low, low], [high, low], [high, high], [low, high]].map(([first, second]) =>
      low.clone().setComponent(b, first.getComponent(b)).setComponent(c, second.getComponent(c)));
  }

  visiblePanels() {
    return this.model.panels.flatMap((panel, number) => (this.hidden.surfaces.has(panel.surface) ? [] : [number]));
  }

  // Draws faces by what they do to the chosen species, and with them all else that belongs to panels.
  act(who = this.who) {
    this.who = who;
    const { panels } = this.model;
    const wide = this.flat ? 3.5 * this.pixel() : 0;
    const quads = Object.fromEntries(Object.keys(this.faces).map((action) => [action, []]));
    const outlines = [], targets = [];
    const fronts = { lines: [], heads: [] }, jumps = { lines: [], heads: [] };
    this.shown = this.visiblePanels();
    for (const number of this.shown) {
      const panel = panels[number], rectangle = this.rectangles[number];
      for (const face of FACES) {
        const action = actionOf(this.model, panel, face, who);
        const corners = this.corners(rectangle, panel.axis, face, wide);
        quads[action].push((face === "front") === panel.greater || this.flat ? corners : [...corners].reverse());
        if (action === "j") this.jumpArrow(jumps, rectangle, face, panel.to[face]);
      }
      const corners = this.corners(rectangle, panel.axis, "front", 0);
      corners.forEach((corner, at) => outlines.push(corner, corners[(at + 1) % 4]));
      targets.push(corners);
      this.frontArrow(fronts, rectangle);
    }
    for (const [action, mesh] of Object.entries(this.faces)) replace(mesh, quadGeometry(quads[action]));
    replace(this.outlines, new THREE.BufferGeometry().setFromPoints(this.flat ? [] : outlines));
    for (const [part, { lines, heads }] of [[this.fronts, fronts], [this.jumps, jumps]]) {
      replace(part.children[0], new THREE.BufferGeometry().setFromPoints(lines));
      replace(part.children[1], new THREE.BufferGeometry().setFromPoints(heads));
    }
    replace(this.targets, quadGeometry(targets));
    this.isDirty = true;
  }

  // An arrow along the normal of a panel's front.
  frontArrow(arrow, { center, normal, shortest }) {
    const length = this.flat ? 20 * this.pixel() : Math.min(0.06, Math.max(0.008, 0.3 * shortest));
    const tip = center.clone().addScaledVector(normal, length);
    arrow.lines.push(center, tip);
    addHead(arrow, tip, normal, length * 0.4, this.flat);
  }

  // A curve from a face to the face to which a jump leads, with a head.
  jumpArrow(arrow, from, face, [number, toFace]) {
    const to = this.rectangles[number];
    const out = from.normal.clone().multiplyScalar(face === "front" ? 1 : -1);
    const away = to.normal.clone().multiplyScalar(toFace === "front" ? 1 : -1);
    const way = to.center.clone().sub(from.center);
    const side = way.clone().cross(new THREE.Vector3(0, this.flat ? 0 : 0.3, 1)).normalize();
    const bow = Math.max(0.06, 0.25 * way.length()), beside = 0.25 * from.shortest;
    const [start, end] = [from, to].map(({ center }) => center.clone().addScaledVector(side, beside));
    const curve = new THREE.CubicBezierCurve3(start, start.clone().addScaledVector(out, bow).addScaledVector(side, bow),
      end.clone().addScaledVector(away, bow).addScaledVector(side, bow), end);
    const points = curve.getPoints(32);
    for (let at = 1; at < points.length; at++) arrow.lines.push(points[at - 1], points[at]);
    addHead(arrow, end, curve.getTangent(1), this.flat ? 13 * this.pixel() : 0.03, this.flat);
  }

  // Marks a panel, or none.
  choose(number) {
    this.chosen.visible = this.chosenLabel.visible = number !== null;
    this.chosenNumber = number;
    if (number !== null) {
      const panel = this.model.panels[number], rectangle = this.rectangles[number];
      const wide = 5 * this.pixel();
      const strips = this.flat ? FACES.map((face) => this.corners(rectangle, panel.axis, face, wide)) : [this.corners(rectangle, panel.axis)];
      replace(this.chosen, quadGeometry(strips));
      this.chosenLabel.element.textContent = panel.name;
      this.chosenLabel.position.copy(rectangle.center);
    }
    this.isDirty = true;
  }

  // The panels under a point of the element, the nearest first.
  panelsUnder(x, y) {
    const { clientWidth: width, clientHeight: height } = this.element;
    const seen = new THREE.Vector2((x / width) * 2 - 1, 1 - (y / height) * 2);
    if (this.flat) {
      const point = new THREE.Vector3(seen.x, seen.y, 0).unproject(this.camera).setZ(0);
      return this.shown.map((number) => [number, distanceToBox(point, this.rectangles[number])])
        .filter(([, distance]) => distance < 8 * this.pixel()).sort((one, other) => one[1] - other[1]).map(([number]) => number);
    }
    const caster = new THREE.Raycaster();
    caster.setFromCamera(seen, this.camera);
    return [...new Set(caster.intersectObject(this.targets).map((hit) => this.shown[Math.floor(hit.faceIndex / 2)]))];
  }

  // Points of compartments

  makePoints() {
    const lines = [], names = new Map();
    for (const compartment of this.model.compartments) {
      for (const point of compartment.points) {
        const key = point.join(" ");
        names.set(key, { point, names: [...(names.get(key)?.names ?? []), compartment.name] });
      }
    }
    this.pointLabels = new THREE.Group();
    for (const { point, names: all } of names.values()) {
      const place = this.at(point);
      for (const axis of this.flat ? ["x", "y"] : ["x", "y", "z"]) {
        const [from, to] = [place.clone(), place.clone()];
        from[axis] -= 0.012;
        to[axis] += 0.012;
        lines.push(from, to);
      }
      const label = this.label(all.join(", "), "label point");
      label.element.style.marginTop = "-0.9em";
      label.position.copy(place);
      this.pointLabels.add(label);
    }
    this.points = new THREE.LineSegments(new THREE.BufferGeometry().setFromPoints(lines), new THREE.LineBasicMaterial({ color: "#7a4a00" }));
    this.points.frustumCulled = false;
    this.space.add(this.points, this.pointLabels);
  }

  // Molecules

  makeMolecules() {
    const { shown, low, high } = this.places;
    const most = this.model.species.map((_, species) => largest(shown.map((moment) => moment[species])));
    const total = Math.max(1, largest(shown.map((moment) => moment.reduce((sum, count) => sum + count, 0))));
    this.plainSize = this.flat ? Math.min(9, Math.max(3.5, 60 / Math.sqrt(total) + 3)) : Math.min(0.06, Math.max(0.014, 0.9 / Math.sqrt(total)));
    const ball = ballTexture();
    this.clouds = this.model.species.map((_, species) => {
      const axes = this.flat ? 2 : 3;
      const geometry = new THREE.BufferGeometry();
      geometry.setAttribute("position", new THREE.BufferAttribute(new Uint16Array(most[species] * axes), axes, true).setUsage(THREE.DynamicDrawUsage));
      const material = new THREE.PointsMaterial({
        color: speciesInk(species), map: ball, alphaTest: 0.5, size: this.plainSize, sizeAttenuation: !this.flat });
      const cloud = new THREE.Points(geometry, material);
      cloud.frustumCulled = false;
      const from = this.at(low), to = this.at(high);
      if (this.model.dims === 1) {
        const lane = LANES / this.model.species.length;
        from.y = this.high.y - lane * (species + 0.95);
        to.y = from.y + 0.9 * lane;
      }
      cloud.position.copy(from);
      cloud.scale.copy(to.sub(from));
      if (this.flat) [cloud.position.z, cloud.scale.z] = [0.01, 1];
      return cloud;
    });
    if (this.clouds.length) this.space.add(...this.clouds);
  }

  // Shows the molecules of a moment.
  show(moment) {
    const { shown, starts, whole } = this.places;
    const axes = this.flat ? 2 : 3;
    this.clouds.forEach((cloud, species) => {
      const count = shown[moment][species];
      const attribute = cloud.geometry.attributes.position;
      attribute.array.set(whole.subarray(starts[moment][species] * axes, (starts[moment][species] + count) * axes));
      attribute.needsUpdate = true;
      cloud.geometry.setDrawRange(0, count);
    });
    this.moment = moment;
    this.isDirty = true;
  }

  setSize(factor) {
    for (const cloud of this.clouds) cloud.material.size = this.plainSize * factor;
    this.isDirty = true;
  }

  // Looking

  // How long a pixel of the screen is in a flat drawing.
  pixel() {
    return (this.camera.top - this.camera.bottom) / this.camera.zoom / Math.max(1, this.element.clientHeight);
  }

  resize() {
    const width = Math.max(1, this.element.clientWidth), height = Math.max(1, this.element.clientHeight);
    this.renderer.setSize(width, height);
    this.labels.setSize(width, height);
    if (this.flat) {
      const size = this.high.clone().sub(this.low); // with room for labels around it
      const half = 0.5 * height * Math.max(size.y / Math.max(50, height - 100), size.x / Math.max(50, width - 180));
      Object.assign(this.camera, { left: (-half * width) / height, right: (half * width) / height, top: half, bottom: -half });
    } else {
      this.camera.aspect = width / height;
    }
    this.camera.updateProjectionMatrix();
    this.rescale();
    this.isDirty = true;
  }

  // Draws anew what has a width in pixels, where the length of a pixel has changed.
  rescale() {
    if (!this.flat || this.pixelDrawn === this.pixel()) return;
    this.pixelDrawn = this.pixel();
    this.act();
    if (this.chosen.visible) this.choose(this.chosenNumber);
  }

  lookFrom(where) {
    const directions = { x: [1, 0, 0.0001], y: [0, -1, 0.0001], z: [0, -0.0001, 1], start: [0.55, -1, 0.5] };
    this.controls.target.set(0, 0, 0);
    if (this.flat) {
      this.camera.position.set(0, 0, 5);
      this.camera.zoom = 1;
      this.camera.updateProjectionMatrix();
    } else {
      const radius = this.high.clone().sub(this.low).length() / 2;
      const angle = (this.camera.fov * Math.PI) / 360;
      const distance = (radius / Math.sin(Math.min(angle, Math.atan(Math.tan(angle) * this.camera.aspect)))) * 1.03;
      this.camera.position.set(...directions[where]).setLength(distance);
    }
    this.controls.update();
    this.isDirty = true;
  }

  // Turns by angles to the right and upwards.
  turn(right, up) {
    if (this.flat) return;
    const around = new THREE.Spherical().setFromVector3(this.fromTarget());
    around.theta += right;
    around.phi = Math.min(Math.PI - 0.001, Math.max(0.001, around.phi - up));
    const [y, z, x] = new THREE.Vector3().setFromSpherical(around).toArray(); // the library's poles are those of y, and these of z
    this.camera.position.copy(this.controls.target).add(new THREE.Vector3(x, y, z));
    this.controls.update();
    this.isDirty = true;
  }

  fromTarget() {
    const { x, y, z } = this.camera.position.clone().sub(this.controls.target);
    return new THREE.Vector3(y, z, x);
  }

  // Moves what is seen by shares of the height.
  pan(right, up) {
    const height = this.flat ? (this.camera.top - this.camera.bottom) / this.camera.zoom
      : 2 * this.fromTarget().length() * Math.tan((this.camera.fov * Math.PI) / 360);
    const move = new THREE.Vector3(-right * height, -up * height, 0).applyQuaternion(this.camera.quaternion);
    this.camera.position.add(move);
    this.controls.target.add(move);
    this.controls.update();
    this.isDirty = true;
  }

  zoom(factor) {
    if (this.flat) {
      this.camera.zoom *= factor;
      this.camera.updateProjectionMatrix();
    } else {
      this.camera.position.sub(this.controls.target).divideScalar(factor).add(this.controls.target);
    }
    this.controls.update();
    this.isDirty = true;
  }

  // Draws coarsely while frames follow one another slowly, and finely again when nothing changes any more.
  pace(now) {
    const pause = now - (this.drawnAt ?? 0);
    if (this.isDirty) {
      this.pause = pause < 1000 ? 0.7 * (this.pause ?? 0) + 0.3 * pause : 0;
      this.drawnAt = now;
      if (this.pause > 200 && !this.isCoarse) this.setCoarse(true);
    } else if (this.isCoarse && pause > 400) {
      this.setCoarse(false);
    }
  }

  setCoarse(isCoarse) {
    this.isCoarse = isCoarse;
    this.renderer.setPixelRatio(isCoarse ? this.fine / 2 : this.fine);
    this.isDirty = true;
  }

  // Draws, where something has changed since it was drawn last. Says whether it did.
  draw(now) {
    this.controls.update();
    this.pace(now);
    if (!this.isDirty) return false;
    this.rescale();
    this.isDirty = false;
    this.fronts.visible = this.sight.arrows;
    this.points.visible = this.sight.points;
    for (const label of this.pointLabels.children) label.visible = this.sight.points && this.sight.labels;
    for (const label of this.wallLabels.children) label.visible = this.sight.labels;
    this.clouds.forEach((cloud, species) => {
      cloud.visible = this.places.shown[this.moment ?? 0]?.[species] > 0 && !this.hidden.species.has(species);
    });
    this.renderer.render(this.space, this.camera);
    this.labels.render(this.space, this.camera);
    return true;
  }
}

const largest = (numbers) => numbers.reduce((most, number) => Math.max(most, number), 0);

function replace(part, geometry) {
  part.geometry.dispose();
  part.geometry = geometry;
}

// Two triangles for each four corners.
function quadGeometry(quads) {
  const geometry = new THREE.BufferGeometry().setFromPoints(quads.flat());
  geometry.setIndex(quads.flatMap((_, at) => [0, 1, 2, 0, 2, 3].map((corner) => 4 * at + corner)));
  return geometry;
}

// Arrows: their lines, and their heads.
function arrows(color) {
  const lines = new THREE.LineSegments(new THREE.BufferGeometry(), new THREE.LineBasicMaterial({ color }));
  const heads = new THREE.Mesh(new THREE.BufferGeometry(), new THREE.MeshBasicMaterial({ color, side: THREE.DoubleSide }));
  return new THREE.Group().add(lines, heads);
}

// Adds the head of an arrow at its tip: a triangle, or in space two across each other.
function addHead(arrow, tip, direction, length, flat) {
  const along = direction.clone().normalize();
  const back = tip.clone().addScaledVector(along, -length);
  const across = flat ? new THREE.Vector3(0, 0, 1).cross(along) : new THREE.Vector3(along.y, along.z, along.x).cross(along).normalize();
  for (const side of flat ? [across] : [across, across.clone().cross(along)]) {
    arrow.heads.push(tip, back.clone().addScaledVector(side, 0.4 * length), back.clone().addScaledVector(side, -0.4 * length));
  }
}

function distanceToBox(point, { low, high }) {
  return new THREE.Box3(low, high).distanceToPoint(point);
}

// A ball in white and grey, which a colour is multiplied into.
function ballTexture() {
  const canvas = Object.assign(document.createElement("canvas"), { width: 64, height: 64 });
  const context = canvas.getContext("2d");
  const shade = context.createRadialGradient(25, 23, 3, 32, 32, 31);
  shade.addColorStop(0, "#ffffff");
  shade.addColorStop(0.7, "#e2e2e2");
  shade.addColorStop(1, "#8d8d8d");
  context.fillStyle = shade;
  context.beginPath();
  context.arc(32, 32, 31, 0, 2 * Math.PI);
  context.fill();
  return new THREE.CanvasTexture(canvas);
}
