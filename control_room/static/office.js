// The office's page: one WebSocket, a map that is drawn ten times a second, and lists.
import { CityMap } from "/static/map.js";
import * as panels from "/static/panels.js";

const byId = id => document.getElementById(id);
const PICTURE = 100;
const WAY = 1500;
const state = { plan: null, day: null, ahead: 0, zone: "", token: "", pictures: 0, lists: 0, waits: 500 };
const map = new CityMap(byId("map"));

// The day's second now, by the server's clock.
function second() {
  if (!state.day) return 0;
  return state.day.begin + (Date.now() + state.ahead - state.day.began) * state.day.speed / 1000;
}

function words() {
  const said = new URLSearchParams(location.hash.slice(1));
  for (const name of ["zone", "token"]) {
    if (said.get(name)) sessionStorage.setItem(name, said.get(name));
    state[name] = sessionStorage.getItem(name) ?? "";
  }
  // The token does not stay in the address, which others may see.
  if (said.get("token")) history.replaceState(null, "", location.pathname + "#zone=" + encodeURIComponent(state.zone));
  byId("zone").textContent = state.zone;
  return state.zone && state.token;
}

function askForToken(why) {
  byId("room").hidden = true;
  byId("enter").hidden = false;
  byId("enter-zone").value = state.zone;
  byId("enter-why").textContent = why;
  byId("enter-token").focus();
}

function setDay(said) {
  if (!said.day) return;
  state.day = said.day;
  state.ahead = said.day.server - Date.now();
}

function ask(page) {
  return fetch(`/zones/${encodeURIComponent(state.zone)}/${page}`, { headers: { Authorization: `Bearer ${state.token}` } });
}

// The picked vehicle's way and when its stops are due.
async function loadPlan() {
  const number = map.picked;
  if (number === null || document.hidden) return;
  const answer = await ask(`vehicles/${number}`).catch(() => null);
  if (!answer?.ok) return;
  const plan = await answer.json();
  if (map.picked === number) [state.plan, map.way] = [plan, plan.way];
}

async function loadMap() {
  const answer = await ask("map");
  const said = await answer.json();
  if (!answer.ok) throw Object.assign(new Error(said.detail || said.title), { status: answer.status });
  setDay(said);
  map.setRoads(said.nodes, said.roads);
}

function take(said) {
  if (said.problem) return askForToken(`${said.problem.title}. ${said.problem.detail ?? ""}`);
  setDay(said);
  if (said.whole) map.vehicles.clear();
  for (const vehicle of said.vehicles ?? []) map.vehicles.set(vehicle[0], vehicle);
  if (said.vehicles?.some(vehicle => vehicle[0] === map.picked)) loadPlan();
  if (said.waiting) {
    map.waiting = said.waiting;
    state.waitingInAll = said.waiting_in_all;
  }
  if (said.counters) {
    panels.showCounts(said.counters);
    panels.showBatches(said.batches);
    panels.showLate(said.late);
    panels.showSilent(said.silent);
    panels.showRooms(said.rooms);
    panels.showAudit(said.audit);
    panels.showAlarms(said.alarms);
    panels.showLines(said.lines);
    chip(said.news_age < 15 ? "good" : "bad", `last line ${said.news_age.toFixed(1)} s ago`);
    state.lists += 1;
  }
}

function chip(kind, text) {
  byId("link").className = `chip ${kind}`;
  byId("link").textContent = text;
}

function listen() {
  const socket = new WebSocket(`${location.protocol === "https:" ? "wss" : "ws"}://${location.host}/zones/${encodeURIComponent(state.zone)}/live`);
  socket.onopen = () => { state.waits = 500; socket.send(JSON.stringify({ token: state.token })); };
  socket.onmessage = message => take(JSON.parse(message.data));
  socket.onclose = event => {
    if (event.code >= 4400 && event.code < 4429) return;
    chip("bad", "the link is lost; it is made anew");
    setTimeout(listen, state.waits);
    state.waits = Math.min(8000, state.waits * 2);
  };
}

// One picture: vehicles where they are at this moment, and twice a second the lists whose ages grow.
function picture() {
  if (!state.day || document.hidden) return;
  const began = performance.now(), now = second();
  map.second = now;
  map.draw(now);
  byId("clock").textContent = panels.timeOf(now);
  if (state.pictures % 5 === 0) {
    panels.showWaiting(map.waiting, state.waitingInAll ?? 0, now, node => { map.goTo(node); byId("map").focus(); });
    panels.showVehicle(map.vehicles.get(map.picked), now, state.plan);
  }
  state.pictures += 1;
  document.body.dataset.pictures = state.pictures;
  document.body.dataset.milliseconds = (performance.now() - began).toFixed(1);
}

async function begin() {
  if (!words()) return askForToken("");
  byId("room").hidden = false;
  byId("enter").hidden = true;
  try {
    await loadMap();
  } catch (fault) {
    if (fault.status && fault.status !== 503) return askForToken(fault.message);
    chip("bad", "no server");
    return setTimeout(begin, 1000);
  }
  listen();
}

byId("enter").addEventListener("submit", event => {
  event.preventDefault();
  sessionStorage.setItem("zone", byId("enter-zone").value.trim());
  sessionStorage.setItem("token", byId("enter-token").value.trim());
  begin();
});
byId("nearer").addEventListener("click", () => map.zoomBy(1.4));
byId("farther").addEventListener("click", () => map.zoomBy(1 / 1.4));
byId("whole").addEventListener("click", () => map.showWhole());
byId("plans").addEventListener("change", event => { map.showsPlans = event.target.checked; });
byId("pick").addEventListener("input", event => map.pick(Number(event.target.value)));
map.onPick = number => {
  if (document.activeElement !== byId("pick")) byId("pick").value = number ?? "";
  panels.showVehicle(map.vehicles.get(number), second(), state.plan);
  loadPlan();
};
setInterval(picture, PICTURE);
setInterval(loadPlan, WAY);
begin();
