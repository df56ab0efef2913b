// The lists beside the map. Text is set as text, never as markup.

const byId = id => document.getElementById(id);

export function timeOf(second) {
  const whole = Math.floor(second), two = number => String(number).padStart(2, "0");
  return `${two(Math.floor(whole / 3600))}:${two(Math.floor(whole / 60) % 60)}:${two(whole % 60)}`;
}

export function lasting(seconds) {
  if (seconds === null || seconds === undefined) return "—";
  if (seconds < 100) return `${Math.round(seconds)} s`;
  if (seconds < 6000) return `${Math.round(seconds / 60)} min`;
  return seconds < 360000 ? `${Math.round(seconds / 3600)} h` : `${Math.round(seconds / 86400)} days`;
}

function row(cells, className = "") {
  const line = document.createElement("tr");
  line.className = className;
  for (const cell of cells) {
    const box = document.createElement("td");
    box.append(cell);
    line.append(box);
  }
  return line;
}

function fill(id, rows) { byId(id).replaceChildren(...rows); }

export function showWaiting(waiting, inAll, second, onGo) {
  byId("waiting-count").textContent = inAll ? `(${inAll})` : "(nobody)";
  const focused = document.activeElement?.dataset?.request;
  fill("waiting", waiting.slice(0, 60).map(([id, from, to, , asked, latest, inBatch]) => {
    const go = document.createElement("button");
    go.textContent = "show";
    go.dataset.request = id;
    go.setAttribute("aria-label", `show request ${id} on the map`);
    go.addEventListener("click", () => onGo(from));
    return row([`${id}${inBatch ? " (in a batch)" : ""}`, String(from), String(to), lasting(Math.max(0, second - asked)), timeOf(latest), go],
      second - asked > (latest - asked) / 2 ? "old" : "");
  }));
  if (focused) document.querySelector(`[data-request="${CSS.escape(focused)}"]`)?.focus();
}

function prices(batch) {
  const all = Object.values(batch.prices);
  if (!all.length) return "";
  const pays = Object.values(batch.pays).reduce((a, b) => a + b, 0);
  const range = all.length === 1 ? String(all[0]) : `${Math.min(...all)} to ${Math.max(...all)}`;
  return pays ? `${range}, pays ${pays}` : range;
}

export function showBatches(batches) {
  fill("batches", batches.map(batch => row([
    String(batch.number), timeOf(batch.time), String(batch.requests), batch.cost === null ? "open" : String(batch.cost),
    batch.took === null ? "—" : `${batch.took} ms`,
    Object.entries(batch.outcomes).map(([word, count]) => `${count} ${word}`).join(", "), prices(batch)])));
}

export function showLate(late) {
  fill("late", late.length ? late.map(one => row([timeOf(one.clock), String(one.vehicle), `${one.seconds} s`,
    one.broken.length ? `promises of ${one.broken.join(", ")}` : "none"], one.broken.length ? "old" : "")) : [row(["Nobody was late."])]);
}

export function showSilent(silent) {
  byId("silent-count").textContent = `(${silent.count})`;
  fill("silent", silent.vehicles.map(one => row([String(one.vehicle), lasting(one.seconds)])));
}

export function showRooms(rooms) {
  fill("rooms", rooms.map(room => row([room.name, room.used.toLocaleString("en"), room.most.toLocaleString("en"), lasting(room.seconds_left)],
    room.seconds_left !== null && room.seconds_left < 1800 ? "old" : "")));
}

const COUNTS = [["requests", "asked"], ["confirmed", "seats"], ["picked", "picked up"], ["dropped", "dropped"], ["away", "away", true], ["moved", "moved"],
  ["behind", "behind"], ["broken", "broken", true], ["late", "late"], ["refused", "refused"], ["driving", "driving"], ["idle", "idle"], ["off_duty", "off duty"]];

export function showCounts(counters) {
  byId("counts").replaceChildren(...COUNTS.map(([name, label, isBad]) => {
    const box = document.createElement("div"), title = document.createElement("dt"), number = document.createElement("dd");
    title.textContent = label;
    number.textContent = counters[name].toLocaleString("en");
    number.dataset.count = name;
    if (isBad && counters[name]) number.className = "bad";
    box.append(title, number);
    return box;
  }));
}

export function showAudit(audit) {
  const chip = byId("audit");
  if (!audit) return;
  const isGood = audit.status === 0 && audit.said.startsWith("yes");
  chip.className = `chip ${isGood ? "good" : "bad"}`;
  chip.textContent = `audit: ${audit.said || "status " + audit.status}`;
  chip.title = `of ${audit.size} bytes in ${audit.seconds} s, at ${new Date(audit.moment).toLocaleTimeString()}`;
}

export function showAlarms(alarms) {
  const box = byId("alarms"), now = alarms.join("\n");
  if (box.dataset.now === now) return;
  box.dataset.now = now;
  box.replaceChildren(...alarms.map(text => {
    const line = document.createElement("p");
    line.textContent = text;
    return line;
  }));
}

export function showLines(lines) { byId("lines").textContent = lines.join("\n"); }

export function showVehicle(vehicle, second, plan) {
  const box = byId("vehicle");
  box.hidden = !vehicle;
  if (!vehicle) return;
  const [number, at, ready, , , onDuty, version, stops] = vehicle;
  // When each stop is due is the server's word for these stops; that for others is not shown.
  const isOfIt = plan?.vehicle === number && plan.stops.length === stops.length && plan.stops.every((stop, place) => stop.request === stops[place][0]);
  const due = isOfIt ? plan.stops.map(stop => stop.due && ` ${timeOf(stop.due.second)}`) : [];
  const said = stops.map(([request, isPickup, node], place) => `${isPickup ? "+" : "−"}${request}@${node}${due[place] ?? ""}`).join(", ");
  const where = second < ready ? `comes to ${at} at ${timeOf(ready)}` : `is at ${at} since ${timeOf(ready)}`;
  const text = `Vehicle ${number}${onDuty ? "" : ", off duty"}: ${where}. Version ${version}. ${said ? "Plan: " + said : "Idle."}`;
  if (box.textContent !== text) box.textContent = text;
}
