// The map: roads, vehicles as they move, plans, and requests that wait.

const MARGIN = 30;

export class CityMap {
  constructor(canvas) {
    this.canvas = canvas;
    this.brush = canvas.getContext("2d");
    this.ground = document.createElement("canvas");
    this.places = [];
    this.roads = [];
    this.vehicles = new Map();
    this.waiting = [];
    this.zoom = 1;
    this.middle = [0.5, 0.5];
    this.picked = null;
    this.way = [];
    this.follows = false;
    this.showsPlans = true;
    this.onPick = () => {};
    this.stale = true;
    this.listen();
    new ResizeObserver(() => { this.stale = true; }).observe(canvas);
    matchMedia("(prefers-color-scheme: dark)").addEventListener("change", () => { this.stale = true; });
  }

  // Places are scaled into a square of side 1, keeping their proportions.
  setRoads(nodes, roads) {
    const xs = nodes.map(place => place[0]), ys = nodes.map(place => place[1]);
    const least = list => list.reduce((a, b) => Math.min(a, b), Infinity), most = list => list.reduce((a, b) => Math.max(a, b), -Infinity);
    const left = least(xs), top = least(ys), width = most(xs) - left, height = most(ys) - top, side = Math.max(width, height, 1e-9);
    this.shape = [width / side, height / side];
    this.middle = [this.shape[0] / 2, this.shape[1] / 2];
    this.places = nodes.map(place => [(place[0] - left) / side, (place[1] - top) / side]);
    this.roads = roads;
    this.stale = true;
  }

  scale() {
    const [wide, high] = this.shape ?? [1, 1];
    const fit = Math.min((this.width - 2 * MARGIN) / Math.max(wide, 1e-3), (this.height - 2 * MARGIN) / Math.max(high, 1e-3));
    return fit * this.zoom;
  }

  point(place) {
    const scale = this.scale();
    return [(place[0] - this.middle[0]) * scale + this.width / 2, (place[1] - this.middle[1]) * scale + this.height / 2];
  }

  node(number) { return this.point(this.places[number - 1] ?? [0, 0]); }

  // Where a vehicle is at a second of the day: between the crossing that it left and the one that it reported.
  where(vehicle, second) {
    const [, at, ready, before, left] = vehicle;
    const to = this.places[at - 1] ?? [0, 0], from = this.places[before - 1] ?? to;
    if (second >= ready || ready <= left) return to;
    const part = Math.max(0, (second - left) / (ready - left));
    return [from[0] + (to[0] - from[0]) * part, from[1] + (to[1] - from[1]) * part];
  }

  colours() {
    const style = getComputedStyle(document.documentElement), colour = name => style.getPropertyValue("--" + name).trim();
    this.paint = Object.fromEntries(["paper", "ink", "soft", "road", "idle", "driving", "off", "wait", "bad", "pick"].map(name => [name, colour(name)]));
  }

  measure() {
    const box = this.canvas.getBoundingClientRect(), ratio = devicePixelRatio || 1;
    this.width = box.width;
    this.height = box.height;
    for (const canvas of [this.canvas, this.ground]) {
      canvas.width = Math.round(box.width * ratio);
      canvas.height = Math.round(box.height * ratio);
      canvas.getContext("2d").setTransform(ratio, 0, 0, ratio, 0, 0);
    }
  }

  drawGround() {
    this.measure();
    this.colours();
    const brush = this.ground.getContext("2d");
    brush.clearRect(0, 0, this.width, this.height);
    brush.strokeStyle = this.paint.road;
    brush.lineWidth = Math.max(0.5, Math.min(4, this.scale() / 400));
    brush.beginPath();
    for (const [tail, head] of this.roads) {
      const [x, y] = this.node(tail), [u, v] = this.node(head);
      if (Math.max(x, u) < 0 || Math.max(y, v) < 0 || Math.min(x, u) > this.width || Math.min(y, v) > this.height) continue;
      brush.moveTo(x, y);
      brush.lineTo(u, v);
    }
    brush.stroke();
    this.stale = false;
  }

  draw(second) {
    const picked = this.vehicles.get(this.picked);
    if (this.follows && picked) {
      this.middle = this.where(picked, second);
      this.stale = true;
    }
    if (this.stale) this.drawGround();
    const brush = this.brush;
    brush.clearRect(0, 0, this.width, this.height);
    brush.drawImage(this.ground, 0, 0, this.width, this.height);
    if (this.showsPlans) for (const vehicle of this.vehicles.values()) if (vehicle !== picked) this.drawPlan(vehicle, second, false);
    for (const request of this.waiting) this.drawRequest(request, second);
    for (const vehicle of this.vehicles.values()) this.drawVehicle(vehicle, second);
    if (picked) {
      this.drawPlan(picked, second, true);
      this.drawVehicle(picked, second);
    }
  }

  drawPlan(vehicle, second, isPicked) {
    const stops = vehicle[7];
    if (!stops.length) return;
    const brush = this.brush;
    brush.strokeStyle = isPicked ? this.paint.pick : this.paint.driving;
    brush.globalAlpha = isPicked ? 0.9 : Math.max(0.07, 0.35 - this.vehicles.size / 1500);
    brush.lineWidth = isPicked ? 2.5 : 1;
    brush.beginPath();
    brush.moveTo(...this.point(this.where(vehicle, second)));
    // The picked vehicle's way to its first stop goes along the roads, where it is known.
    const isOnWay = isPicked && this.way.length > 1 && this.way[this.way.length - 1] === stops[0][2];
    if (isOnWay) for (const node of this.way.slice(Math.max(0, this.way.indexOf(vehicle[1])))) brush.lineTo(...this.node(node));
    for (const [, , node] of stops) brush.lineTo(...this.node(node));
    brush.stroke();
    brush.globalAlpha = 1;
    if (isPicked) stops.forEach(([, isPickup, node], place) => this.drawStop(node, isPickup, place + 1));
  }

  drawStop(node, isPickup, place) {
    const [x, y] = this.node(node), brush = this.brush;
    brush.fillStyle = isPickup ? this.paint.wait : this.paint.pick;
    brush.fillRect(x - 8, y - 8, 16, 16);
    brush.fillStyle = this.paint.paper;
    brush.font = "11px system-ui";
    brush.textAlign = "center";
    brush.fillText(String(place), x, y + 4);
  }

  // A rider who waits: a pin that grows redder until the latest pickup.
  drawRequest([, from, , , asked, latest], second) {
    const [x, y] = this.node(from), brush = this.brush, part = Math.min(1, Math.max(0, (second - asked) / Math.max(1, latest - asked)));
    brush.fillStyle = part > 0.5 ? this.paint.bad : this.paint.wait;
    brush.beginPath();
    brush.moveTo(x, y);
    brush.lineTo(x - 5, y - 11);
    brush.lineTo(x + 5, y - 11);
    brush.closePath();
    brush.fill();
  }

  drawVehicle(vehicle, second) {
    const [x, y] = this.point(this.where(vehicle, second));
    if (x < -20 || y < -20 || x > this.width + 20 || y > this.height + 20) return;
    const [number, , , , , onDuty, , stops] = vehicle, brush = this.brush, isPicked = number === this.picked;
    const many = this.vehicles.size > 150 && this.zoom < 3, radius = isPicked ? 9 : many ? 3.2 : 6.5;
    brush.fillStyle = isPicked ? this.paint.pick : !onDuty ? this.paint.off : stops.length ? this.paint.driving : this.paint.idle;
    brush.beginPath();
    brush.arc(x, y, radius, 0, 7);
    brush.fill();
    if (many && !isPicked) return;
    brush.strokeStyle = this.paint.paper;
    brush.lineWidth = 1.5;
    brush.stroke();
    brush.fillStyle = this.paint.ink;
    brush.font = isPicked ? "bold 13px system-ui" : "10px system-ui";
    brush.textAlign = "left";
    brush.fillText(String(number), x + radius + 2, y + 4);
  }

  // Moving about, by keys, mouse and fingers.

  move(right, down) {
    const scale = this.scale();
    this.middle = [this.middle[0] + right / scale, this.middle[1] + down / scale];
    this.follows = false;
    this.stale = true;
  }

  zoomBy(factor) {
    this.zoom = Math.min(60, Math.max(0.5, this.zoom * factor));
    this.stale = true;
  }

  showWhole() {
    this.zoom = 1;
    this.middle = [(this.shape ?? [1, 1])[0] / 2, (this.shape ?? [1, 1])[1] / 2];
    this.follows = false;
    this.stale = true;
  }

  goTo(node) {
    this.middle = [...(this.places[node - 1] ?? this.middle)];
    this.zoom = Math.max(this.zoom, 2);
    this.follows = false;
    this.stale = true;
  }

  pick(number) {
    this.picked = this.vehicles.has(number) ? number : null;
    this.way = [];
    if (this.picked === null) this.follows = false;
    this.onPick(this.picked);
  }

  pickNext(step) {
    const numbers = [...this.vehicles.keys()], place = numbers.indexOf(this.picked);
    this.pick(numbers[(place + step + numbers.length) % numbers.length] ?? null);
  }

  key(event) {
    const acts = {
      ArrowLeft: () => this.move(-60, 0), ArrowRight: () => this.move(60, 0), ArrowUp: () => this.move(0, -60), ArrowDown: () => this.move(0, 60),
      "+": () => this.zoomBy(1.4), "=": () => this.zoomBy(1.4), "-": () => this.zoomBy(1 / 1.4), "0": () => this.showWhole(),
      n: () => this.pickNext(1), p: () => this.pickNext(-1), f: () => { this.follows = this.picked !== null && !this.follows; },
      Escape: () => this.pick(null),
    };
    const act = acts[event.key] ?? acts[event.key.toLowerCase()];
    if (!act || event.ctrlKey || event.metaKey || event.altKey) return;
    event.preventDefault();
    act();
  }

  listen() {
    const fingers = new Map();
    let moved = 0;
    this.canvas.addEventListener("keydown", event => this.key(event));
    this.canvas.addEventListener("wheel", event => { event.preventDefault(); this.zoomBy(event.deltaY < 0 ? 1.2 : 1 / 1.2); }, { passive: false });
    this.canvas.addEventListener("pointerdown", event => { fingers.set(event.pointerId, event); moved = 0; this.canvas.setPointerCapture(event.pointerId); });
    this.canvas.addEventListener("pointermove", event => {
      const before = fingers.get(event.pointerId);
      if (!before) return;
      const others = [...fingers.values()].filter(one => one.pointerId !== event.pointerId);
      const right = event.clientX - before.clientX, down = event.clientY - before.clientY;
      moved += Math.abs(right) + Math.abs(down);
      if (others.length) {
        const far = one => Math.hypot(one.clientX - others[0].clientX, one.clientY - others[0].clientY);
        this.zoomBy(far(event) / Math.max(1, far(before)));
      } else this.move(-right, -down);
      fingers.set(event.pointerId, event);
    });
    const ends = event => {
      if (fingers.delete(event.pointerId) && event.type === "pointerup" && moved < 5) this.pickAt(event.offsetX, event.offsetY);
    };
    for (const type of ["pointerup", "pointercancel"]) this.canvas.addEventListener(type, ends);
  }

  pickAt(x, y) {
    let nearest = null, least = 18;
    for (const vehicle of this.vehicles.values()) {
      const [u, v] = this.point(this.where(vehicle, this.second ?? 0)), far = Math.hypot(u - x, v - y);
      if (far < least) [nearest, least] = [vehicle[0], far];
    }
    this.pick(nearest);
  }
}
