// A rider's or a driver's page: who it is for is said by the token.
import { timeOf, lasting } from "/static/panels.js";

const byId = id => document.getElementById(id);
const token = new URLSearchParams(location.hash.slice(1)).get("token") ?? sessionStorage.getItem("telephone") ?? "";
const [role, zone, name] = token.split(".");
const rides = new Map();
let plan = null;

sessionStorage.setItem("telephone", token);
history.replaceState(null, "", location.pathname);

function element(kind, text, ...children) {
  const made = document.createElement(kind);
  if (text) made.textContent = text;
  made.append(...children);
  return made;
}

// Says something, and hears what became of it; called again with the same key while it is not answered.
async function say(method, page, body, key = crypto.randomUUID?.() ?? String(Math.random())) {
  const headers = { Authorization: `Bearer ${token}`, "Idempotency-Key": key };
  for (let tries = 0; tries < 30; tries += 1) {
    const answer = await fetch(`/zones/${zone}/${page}`, { method, headers, body: body && JSON.stringify(body) }).catch(() => null);
    const said = answer && await answer.json().catch(() => null);
    const isLost = !said || answer.status === 202 || (answer.status === 503 && said.code === undefined);
    if (!isLost) {
      byId("said").textContent = answer.ok ? "" : `${said.title}. ${said.detail ?? ""}`;
      return answer.ok ? said : null;
    }
    byId("said").textContent = "not answered yet ..";
    await new Promise(done => setTimeout(done, 700));
  }
  return null;
}

// Riders.

const STATES = {
  waiting: () => "Waiting. Nothing is promised yet.",
  confirmed: one => `Confirmed: vehicle ${one.vehicle}, at the latest ${timeOf(one.latest_pickup.second)}.`
    + (one.estimated_pickup ? ` It should come at ${timeOf(one.estimated_pickup.second)}, and be there at ${timeOf(one.estimated_arrival.second)}.` : "")
    + (one.promise_broken ? " It is late: this promise is broken." : ""),
  aboard: one => `Aboard vehicle ${one.vehicle}.` + (one.estimated_arrival ? ` It should be there at ${timeOf(one.estimated_arrival.second)}.` : ""),
  dropped: one => `You arrived at ${timeOf(one.dropped_off.second)}.`,
  away: one => `No seat. ${one.reason}`,
  cancelled: () => "Cancelled.",
};

function showRides() {
  byId("rides").replaceChildren(...[...rides.values()].reverse().map(one => {
    const box = element("section", "", element("h3", `Ride ${one.request}: ${one.from} to ${one.to}`), element("p", STATES[one.state](one)));
    box.dataset.state = one.state;
    if (["waiting", "confirmed"].includes(one.state)) {
      const cancel = element("button", "Cancel");
      cancel.addEventListener("click", async () => takeRide(await say("DELETE", `requests/${one.request}`)));
      box.append(cancel);
    }
    return box;
  }));
}

function takeRide(one) {
  if (!one) return;
  rides.set(one.request, one);
  showRides();
}

byId("ask").addEventListener("submit", async event => {
  event.preventDefault();
  const form = Object.fromEntries([...new FormData(event.target)].map(([field, value]) => [field, Number(value)]));
  takeRide(await say("POST", "requests",
    { from: form.from, to: form.to, seats: form.seats, wait_at_most: form.wait * 60, ride_at_most: form.ride * 60 }));
});

// Drivers.

function showPlan(said) {
  if (!said || (plan && said.version < plan.version)) return;
  plan = said;
  const isThere = plan.stops.length > 0 && plan.at === plan.stops[0].node;
  byId("place").textContent = `Next or now at crossing ${plan.at}, from ${timeOf(plan.ready.second)}.`
    + (plan.way.length > 1 ? ` Then ${plan.way.slice(1, 6).join(", ")}${plan.way.length > 6 ? " .." : ""}.` : "");
  byId("stops").replaceChildren(...plan.stops.map(stop => element("li", `${stop.what} of ride ${stop.request} at crossing ${stop.node}`
    + (stop.due ? `, due ${timeOf(stop.due.second)}` : "") + (stop.latest ? `, at the latest ${timeOf(stop.latest.second)}` : ""))));
  if (!plan.stops.length) byId("stops").replaceChildren(element("p", "No stops: you are idle."));
  byId("next").disabled = plan.way.length < 2;
  byId("done").disabled = !isThere;
  byId("duty").textContent = plan.on_duty ? "Go off duty" : "Come on duty";
}

async function report(body) {
  const said = await say("POST", `vehicles/${name}/reports`, body);
  showPlan(said?.plan);
  if (said?.reply === "late") byId("said").textContent = `${lasting(said.said[0])} late`;
}

byId("next").addEventListener("click", () => report({ report: "at", node: plan.way[1], in: 0 }));
byId("done").addEventListener("click", () => report({ report: "done" }));
byId("duty").addEventListener("click", () => report({ report: plan.on_duty ? "off" : "on" }));

// What changes.

function listen(waits = 500) {
  const socket = new WebSocket(`${location.protocol === "https:" ? "wss" : "ws"}://${location.host}/zones/${zone}/live`);
  socket.onopen = () => { waits = 500; socket.send(JSON.stringify({ token })); };
  socket.onmessage = message => {
    const said = JSON.parse(message.data);
    if (said.problem) byId("said").textContent = `${said.problem.title}. ${said.problem.detail ?? ""}`;
    else byId("link").textContent = "in touch";
    (said.requests ?? []).forEach(takeRide);
    showPlan(said.plan);
  };
  socket.onclose = event => {
    byId("link").textContent = "out of touch";
    if (event.code < 4400 || event.code >= 4429) setTimeout(() => listen(Math.min(8000, waits * 2)), waits);
  };
}

byId("who").textContent = role === "driver" ? `Vehicle ${name}` : `Rides of ${name ?? "?"}`;
byId("rider").hidden = role !== "rider";
byId("driver").hidden = role !== "driver";
if (role === "rider" || role === "driver") listen();
else byId("said").textContent = "This page needs a rider's or a driver's token: /telephone#token=..";
