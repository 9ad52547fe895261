// Questions to the page's server, and the stream of its events. Each has the token, which is in no address and in no cookie.

const KEPT = "actorimage-token";

// The token stands behind # once, is taken out of the address, and is kept for this tab, so that it can be loaded anew.
function taken() {
  const given = location.hash.slice(1);
  if (/^[A-Za-z0-9_-]{30,}$/.test(given)) {
    sessionStorage.setItem(KEPT, given);
    history.replaceState(null, "", location.pathname);
  }
  return sessionStorage.getItem(KEPT) || "";
}

const token = taken();
export const hasToken = token !== "";

function request(path, body, signal) {
  const headers = { "Content-Type": "application/json", "X-Actorimage": token };
  return fetch(path, { method: "POST", headers, body: JSON.stringify(body), signal, credentials: "omit", cache: "no-store" });
}

async function answer(path, body) {
  try {
    const reply = await request(path, body);
    if (!reply.ok) return { error: "Refused", said: (await reply.text()).trim() };
    return await reply.json();
  } catch {
    return { error: "Lost", said: "the page's server does not answer; start bin/page again" };
  }
}

export const look = (what, more = {}) => answer("/look", { what, ...more });

// The versions of the edits that this window made, so that their echo is not told as somebody else's.
export const mine = new Set();

export async function change(what, more = {}) {
  const reply = await answer("/do", { what, ...more });
  if (reply.ok?.version) mine.add(reply.ok.version);
  return reply;
}

export const type = body => answer("/type", body);

// The events of the watch, each given to `told`, until `signal` ends it or the server does.
export async function watch(view, told, signal) {
  const reply = await request("/watch", view, signal);
  if (!reply.ok) throw new Error((await reply.text()).trim());
  const reader = reply.body.pipeThrough(new TextDecoderStream()).getReader();
  let rest = "";
  for (;;) {
    const { value, done } = await reader.read();
    if (done) return;
    const parts = (rest + value).split("\n\n");
    rest = parts.pop();
    for (const part of parts) if (part.startsWith("data: ")) told(JSON.parse(part.slice(6)));
  }
}
