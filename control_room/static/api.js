// Shows openapi.json as a plain page.

function element(name, text, ...children) {
  const made = document.createElement(name);
  if (text) made.textContent = text;
  made.append(...children);
  return made;
}

const last = reference => reference.split("/").pop();

function kind(schema) {
  if (schema.$ref) return last(schema.$ref);
  if (schema.type === "array") return `list of ${kind(schema.items)}`;
  return [schema.type, schema.format && `(${schema.format})`, schema.enum && schema.enum.join(" | ")].filter(Boolean).join(" ");
}

function answers(responses) {
  const list = element("ul");
  for (const [status, response] of Object.entries(responses)) {
    if (response.$ref) continue;
    const schema = response.content?.["application/json"]?.schema;
    list.append(element("li", `${status}: ${response.description}${schema?.$ref ? ` (${last(schema.$ref)})` : ""}`));
  }
  const refusals = Object.keys(responses).filter(status => responses[status].$ref);
  if (refusals.length) list.append(element("li", `${refusals.join(", ")}: a problem document`));
  return list;
}

function call(path, method, said) {
  const box = element("section", "", element("h2", `${method.toUpperCase()} ${path}`), element("p", said.summary));
  if (said.description) box.append(element("p", said.description));
  const body = said.requestBody?.content["application/json"].schema;
  if (body) box.append(element("p", `Body: ${last(body.$ref)}`));
  if (said.parameters?.some(one => one.$ref?.endsWith("/key"))) box.append(element("p", "Takes an Idempotency-Key."));
  box.append(answers(said.responses));
  return box;
}

function schema(name, said) {
  const rows = Object.entries(said.properties ?? {}).map(([member, one]) => element("tr", "", element("th", member), element("td", kind(one)),
    element("td", one.description ?? ""), element("td", said.required?.includes(member) ? "needed" : "")));
  return element("section", "", element("h3", name), element("p", said.description ?? ""), element("table", "", ...rows));
}

const said = await (await fetch("/openapi.json")).json();
document.getElementById("about").textContent = said.info.description;
for (const [path, methods] of Object.entries(said.paths)) {
  for (const method of ["get", "post", "delete"]) if (methods[method]) document.getElementById("paths").append(call(path, method, methods[method]));
}
for (const [name, one] of Object.entries(said.components.schemas)) document.getElementById("schemas").append(schema(name, one));
