// One way in which a script of the page could reach another computer, by its name: what came of it.
const [name, to, done] = arguments;
const wait = (it) => Promise.race([it, new Promise((end) => setTimeout(end, 1500, "silence"))]);
const made = (kind, values) => Object.assign(document.createElement(kind), values);
const added = (kind, values) => wait(new Promise((end) => {
  document.body.append(made(kind, { ...values, onload: () => end("LOADED"), onerror: () => end("blocked") }));
}));
const linked = (rel, more = {}) => added("link", { rel, href: to, ...more });
const opened = (it) => wait(new Promise((end) => {
  it.onopen = () => end("LOADED");
  it.onerror = () => end("blocked");
}));
// (what leaves the page comes after the answer)
const later = (act) => {
  setTimeout(act, 100);
  return "tried";
};
const clicked = (values) => {
  const link = made("a", { href: to, ...values });
  document.body.append(link);
  return later(() => link.click());
};
// (files may be handed over as blobs, so a frame may show one: it has the same policy)
const paged = (inside) => URL.createObjectURL(new Blob([`<!doctype html>${inside}`], { type: "text/html" }));
const framed = (inside) => added("iframe", { src: paged(inside) }).then((it) => (it === "LOADED" ? "silence" : it));
const asking = `<img src="${to}"><link rel="stylesheet" href="${to}"><video src="${to}"></video><iframe src="${to}"></iframe>
<script src="${to}"></script><script>fetch("${to}"); new Image().src = "${to}"; new Worker("${to}");</script>`;
const talking = `<script>const it = new RTCPeerConnection({ iceServers: [{ urls: "turn:${new URL(to).host}?transport=tcp", username: "a",
credential: "b" }] }); it.createDataChannel("pixels"); it.createOffer().then((offer) => it.setLocalDescription(offer));</script>`;
const leaving = `<script>location = "${to}"; top.location = "${to}"; open("${to}");</script>`;
const spoken = (maker) => {
  if (!maker) {
    return "blocked";
  }
  const { host } = new URL(to);
  const peer = new maker({ iceServers: [{ urls: `turn:${host}?transport=tcp`, username: "a", credential: "b" }] });
  peer.createDataChannel("pixels");
  return wait(peer.createOffer().then((it) => peer.setLocalDescription(it)).then(() => "silence"));
};
const tries = {
  fetch: () => wait(fetch(to).then(() => "LOADED", () => "blocked")),
  "fetch from its own server": () => wait(fetch("index.html").then(() => "LOADED", () => "blocked")),
  request: () => wait(new Promise((end) => {
    const it = Object.assign(new XMLHttpRequest(), { onload: () => end("LOADED"), onerror: () => end("blocked") });
    it.open("POST", to);
    it.send("pixels");
  })),
  beacon: () => (navigator.sendBeacon(to, "pixels"), "tried"),
  image: () => added("img", { src: to }),
  script: () => added("script", { src: to }),
  style: () => linked("stylesheet"),
  video: () => added("video", { src: to }),
  object: () => added("object", { data: to }),
  preload: () => linked("preload", { as: "image" }),
  prefetch: () => linked("prefetch"),
  socket: () => opened(new WebSocket(to.replace("http", "ws"))),
  events: () => opened(new EventSource(to)),
  worker: () => opened(new Worker(URL.createObjectURL(new Blob([`fetch("${to}")`])))),
  ping: () => clicked({ href: "#here", ping: to }),
  form: () => {
    const it = made("form", { action: to, method: "post" });
    document.body.append(it);
    return later(() => it.submit());
  },
  RTCPeerConnection: () => spoken(globalThis.RTCPeerConnection),
  "RTCPeerConnection of a frame": () => {
    const it = made("iframe", {});
    document.body.append(it);
    try {
      return spoken(it.contentWindow.RTCPeerConnection);
    } catch {
      return "blocked";
    }
  },
  "window.open": () => (window.open(to) ? "LOADED" : "blocked"),
  "a link to a new window": () => clicked({ target: "_blank" }),
  "a link to the whole window": () => clicked({ target: "_top" }),
  "location of the whole window": () => {
    try {
      top.location = to;
      return "tried";
    } catch {
      return "blocked";
    }
  },
  "a frame": () => added("iframe", { src: to }).then((it) => (it === "LOADED" ? "silence" : it)),
  "a link": () => clicked({}),
  "a link with download": () => clicked({ download: "it" }),
  "a frame with a blob that asks": () => framed(asking),
  "a frame with a blob that talks": () => framed(talking),
  "a frame with a blob that leaves": () => framed(leaving),
  "a frame with a blob that is refreshed": () => framed(`<meta http-equiv="refresh" content="0;url=${to}">`),
  "RTCPeerConnection of a frame with a blob": () => {
    const it = made("iframe", { src: paged("") });
    document.body.append(it);
    return wait(new Promise((end) => { it.onload = end; })).then(() => {
      try {
        return spoken(it.contentWindow.RTCPeerConnection);
      } catch {
        return "blocked";
      }
    });
  },
  "a blob in the place of the page": () => later(() => { location = paged(asking + talking + leaving); }),
  "a blob in the place of the page that is refreshed": () => later(() => {
    location = paged(`<meta http-equiv="refresh" content="0;url=${to}">`);
  }),
  location: () => later(() => { location = to; }),
  "a refresh": () => later(() => document.head.append(made("meta", { httpEquiv: "refresh", content: `0;url=${to}` }))),
  preconnect: () => linked("preconnect"),
};
if (name === undefined || name === null) {
  done(Object.keys(tries));
} else {
  Promise.resolve().then(tries[name]).catch((why) => `blocked: ${why.message}`).then((it) => setTimeout(done, 100, it));
}
