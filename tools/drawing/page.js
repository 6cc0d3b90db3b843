"use strict";
// Shows the replay that tools/draw wrote into the page, step by step, and moves the picture. It decides nothing: which
// choice comes next and what each process waits for stands in the data.
(() => {
const data = JSON.parse(document.getElementById("data").textContent);
const find = id => document.getElementById(id);
const [stage, picture, tip, slider] = ["stage", "picture", "tip", "slider"].map(find);
const svgElement = (name, attributes) => {
    const made = document.createElementNS("http://www.w3.org/2000/svg", name);
    for (const key in attributes) made.setAttribute(key, attributes[key]);
    return made;
};
const byNumber = name => new Map([...picture.querySelectorAll(`[data-${name}]`)].map(e => [e.dataset[name], e]));
const eventMarks = byNumber("e"), messageMarks = byNumber("m"), bandMarks = byNumber("b");
const messages = data.messages.map(([sender, receiver, no, value, sent, received, kind, phase]) =>
    ({sender, receiver, no, value, sent, received, kind, phase, state: ""}));
const steps = data.steps.map(([choice, process, event, did, message]) => ({choice, process, event, did, message}));
const eventX = event => data.x[event - 1];
const counted = (count, one, many) => `${count} ${count === 1 ? one : many}`;
const nameOf = message => `message ${message.no} from ${message.sender} to ${message.receiver}`;
const withValue = message => `${nameOf(message)} (value ${message.value})`;

// ---- The part of the picture that is shown: its upper left corner, and pixels for each unit

const shown = {x: 0, y: 0, scale: 1};
const size = () => ({width: stage.clientWidth || 1, height: stage.clientHeight || 1});
const LEAST = 0.02, MOST = 8;

/* The picture is moved as a whole: another viewBox would lay out each of its thousands of marks anew. */
function show() {
    const {width, height} = size(), {x, y, scale} = shown;
    picture.style.transform = `translate(${-x * scale}px, ${-y * scale}px) scale(${scale})`;
    stage.dataset.shown = [x, y, width / scale, height / scale].join(" ");
    showNames(height);
    showNumbers(width);
}

function showAll() {
    const {width, height} = size(), at = data.at;
    shown.scale = Math.min(width / at.width, (height - 24) / (at.bottom - at.top), 2);
    shown.x = (at.width - width / shown.scale) / 2;
    shown.y = (at.top + at.bottom - (height + 22) / shown.scale) / 2;
    show();
}

function showCut() {
    const {width, height} = size(), at = data.at;
    // Small rows must stay readable; the rest is for moving.
    shown.scale = Math.max(0.7, Math.min(1.5, (height - 24) / (at.bottom - at.top)));
    shown.x = at.cut - width * 0.6 / shown.scale;
    shown.y = at.top - 22 / shown.scale;
    show();
}

function zoom(factor, left, top) {
    const scale = Math.min(MOST, Math.max(LEAST, shown.scale * factor));
    shown.x += left / shown.scale - left / scale;
    shown.y += top / shown.scale - top / scale;
    shown.scale = scale;
    show();
}

function zoomMiddle(factor) {
    const {width, height} = size();
    zoom(factor, width / 2, height / 2);
}

/* Moves the picture so that a point comes into sight, and no further than that. */
function reveal(x, y) {
    const {width, height} = size(), left = (x - shown.x) * shown.scale, top = (y - shown.y) * shown.scale;
    const aside = left < 110 || left > width - 60, beyond = top < 40 || top > height - 50;
    if (aside) shown.x = x - width / 2 / shown.scale;
    if (beyond) shown.y = y - height / 2 / shown.scale;
    if (aside || beyond) show();
}

const rows = data.processes.map((row, process) => ({...row, process})).filter(row => row.y !== null);

/* Names stand at the left once the picture's own are out of sight: as many as have room. */
function showNames(height) {
    const own = (data.at.start - 14 - shown.x) * shown.scale;
    const names = find("names");
    names.hidden = own > 60 && shown.scale > 0.6;
    names.replaceChildren();
    if (names.hidden) return;
    const every = Math.max(1, Math.ceil(14 / (data.at.dy * shown.scale)));
    rows.forEach((row, place) => {
        const top = (row.y - shown.y) * shown.scale;
        if (place % every !== 0 || top < 24 || top > height) return;
        const name = document.createElement("span");
        name.textContent = `process ${row.process}`;
        name.className = row.failed ? "failed" : row.stays ? "" : "back";
        name.style.top = `${top}px`;
        names.append(name);
    });
}

const drawnEvents = data.x.map((x, place) => ({x, event: place + 1})).filter(({x}) => x !== null);

function showNumbers(width) {
    const numbers = find("numbers");
    numbers.replaceChildren();
    const put = (words, left, cls) => {
        const made = document.createElement("span");
        made.textContent = words;
        made.className = cls;
        made.style.left = `${left}px`;
        numbers.append(made);
    };
    const cut = (data.at.cut - shown.x) * shown.scale;
    if (data.at.hasCut) put("cut", cut, "at-cut");
    let free = find("names").hidden ? 0 : 100;
    for (const {x, event} of drawnEvents) {
        const left = (x - shown.x) * shown.scale;
        if (left < free || left > width || Math.abs(left - cut) < 26) continue;
        put(String(event), left, "");
        free = left + 42;
    }
}

// ---- Pointer and wheel

stage.addEventListener("wheel", event => {
    event.preventDefault();
    const box = stage.getBoundingClientRect();
    if (event.shiftKey) {
        shown.x += (event.deltaX || event.deltaY) / shown.scale;
        show();
    } else zoom(Math.exp(-event.deltaY * 0.0015), event.clientX - box.left, event.clientY - box.top);
}, {passive: false});

const pointers = new Map();
stage.addEventListener("pointerdown", event => {
    if (event.target.closest("button")) return;
    point(event);       // a finger points by touching
    pointers.set(event.pointerId, event);
    stage.setPointerCapture(event.pointerId);
    stage.classList.add("moving");
});
stage.addEventListener("pointermove", event => {
    const before = pointers.get(event.pointerId);
    if (!before) return point(event);
    hint(null);
    const box = stage.getBoundingClientRect();
    const other = [...pointers.values()].find(one => one.pointerId !== event.pointerId);
    if (other) {        // two fingers
        const apart = one => Math.hypot(one.clientX - other.clientX, one.clientY - other.clientY);
        zoom(apart(event) / (apart(before) || 1), (event.clientX + other.clientX) / 2 - box.left,
             (event.clientY + other.clientY) / 2 - box.top);
    } else {
        shown.x -= (event.clientX - before.clientX) / shown.scale;
        shown.y -= (event.clientY - before.clientY) / shown.scale;
        show();
    }
    pointers.set(event.pointerId, event);
});
for (const name of ["pointerup", "pointercancel"]) stage.addEventListener(name, event => {
    pointers.delete(event.pointerId);
    stage.classList.toggle("moving", pointers.size > 0);
});
stage.addEventListener("pointerleave", () => hint(null));

// ---- What is under the pointer

const KINDS = {
    orphan: "orphan: its receiver has it, its sender sends it again, and it is dropped",
    kept: "kept: to be handed over from what its sender saved",
    again: "still to be sent: its sender went back behind the send",
    later: "still to be sent: after the cut",
    over: "over and done with: both ends keep it"};
const STATES = {put: "in the channel", received: "received", dropped: "sent again and dropped"};

function messageWords(message) {
    const words = [`${nameOf(message)}`, `value ${message.value}`];
    if (message.phase) words.push(`phase ${message.phase}`);
    words.push(KINDS[message.kind]);
    words.push(`sent at event ${message.sent}, ` +
               (message.received ? `received at event ${message.received}` : "never received"));
    if (message.state) words.push(`in the replay: ${STATES[message.state]}`);
    return words.join("\n");
}

function eventWords(event) {
    const [kind, at, message, epoch] = data.events[event - 1];
    const first = `event ${event}: ${kind} at process ${at}` + (kind === "save" ? `, which begins epoch ${epoch}` : "");
    return message < 0 ? first : `${first}\n${messageWords(messages[message])}`;
}

function bandWords(channel) {
    const inside = bandMessages(channel), left = inside.filter(message => !message.state).length;
    const phases = inside.map(message => message.phase);
    const [least, most] = [Math.min(...phases), Math.max(...phases)];
    return [`${inside.length} kept messages from ${inside[0].sender} to ${inside[0].receiver}: ` +
            `${inside[0].no} to ${inside.at(-1).no}`,
            least === most ? `phase ${least}` : `phases ${least} to ${most}`,
            `${left} still to be handed over`].join("\n");
}

function bandMessages(channel) {
    const [sender, receiver] = channel.split("-").map(Number);
    return messages.filter(one => one.kind === "kept" && one.sender === sender && one.receiver === receiver);
}

/* The marks of a message and of the events at its ends, as far as they are drawn. */
const marksOf = message => [messageMarks.get(String(messages.indexOf(message))), eventMarks.get(String(message.sent)),
                            eventMarks.get(String(message.received))].filter(Boolean);

let hot = [];
function hint(target, left, top) {
    hot.forEach(mark => mark.classList.remove("hot"));
    hot = [];
    tip.hidden = !target;
    if (!target) return;
    const {e, m, b} = target.dataset, own = e ? messages[data.events[e - 1][2]] : messages[m];
    const about = b ? bandMessages(b) : own ? [own] : [];
    hot = [target, ...about.flatMap(marksOf)];
    hot.forEach(mark => mark.classList.add("hot"));
    tip.textContent = b ? bandWords(b) : m ? messageWords(messages[m]) : eventWords(Number(e));
    tip.style.left = `${Math.max(4, Math.min(left + 14, innerWidth - tip.offsetWidth - 8))}px`;
    tip.style.top = `${top + 18 + tip.offsetHeight > innerHeight ? top - tip.offsetHeight - 10 : top + 18}px`;
}

function point(event) {
    hint(event.target.closest?.("[data-e], [data-m], [data-b]"), event.clientX, event.clientY);
}

// ---- The replay

const processes = data.processes.map(() => ({done: []}));     // the events that each has done in the replay
const orphans = messages.filter(one => one.kind === "orphan"), kept = messages.filter(one => one.kind === "kept");
const keptChannels = new Map();
for (const message of kept) {
    const channel = `${message.sender}-${message.receiver}`;
    keptChannels.set(channel, [...(keptChannels.get(channel) || []), message]);
}
const channelsInOrder = [...keptChannels.keys()].sort((one, other) =>
    keptChannels.get(one)[0].sender - keptChannels.get(other)[0].sender ||
    keptChannels.get(one)[0].receiver - keptChannels.get(other)[0].receiver);
let reached = 0;

/* What a step leaves of its message; before it, a received one was in the channel and any other nowhere. */
const AFTER = {put: "put", handed: "put", received: "received", dropped: "dropped"};

/* What stands behind the cut is pale until the replay comes to it. */
function setClass(mark, name, on) {
    if (!mark || !name) return;
    mark.classList.toggle(name, on);
    if (mark.parentNode.classList.contains("pale")) mark.parentNode.classList.toggle("bright", on);
}

function setState(place, state) {
    const message = messages[place], mark = messageMarks.get(String(place));
    setClass(mark, message.state, false);
    setClass(mark, state, true);
    message.state = state;
}

const setDone = (event, on) => setClass(eventMarks.get(String(event)), "again-done", on);

function carryOut(step) {
    if (step.event) {
        setDone(step.event, true);
        processes[step.process].done.push(step.event);
    }
    if (step.message >= 0) setState(step.message, AFTER[step.did]);
}

function takeBack(step) {
    if (step.event) {
        setDone(step.event, false);
        processes[step.process].done.pop();
    }
    if (step.message >= 0) setState(step.message, step.did === "received" ? "put" : "");
}

function stepWords(step) {
    const who = `Process ${step.process}, event ${step.event}:`, message = messages[step.message];
    switch (step.did) {
    case "put": return `${who} sends ${withValue(message)}${message.kind === "again" ? " again" : ""}; ` +
                       "it is put into the channel.";
    case "dropped": return `${who} sends ${withValue(message)} again; it is dropped, since process ` +
                           `${message.receiver} has it.`;
    case "received": return `${who} receives ${withValue(message)}.`;
    case "handed": return `Kept ${withValue(message)} is handed over: put into the channel from what process ` +
                          `${message.sender} saved.`;
    case "save": return `${who} saves its state.`;
    default: return `${who} a save of it is on disk.`;
    }
}

function waitOf(process) {
    const waits = data.waits[process];
    let low = 0, high = waits.length - 1;
    while (low < high) {
        const middle = (low + high + 1) >> 1;
        if (waits[middle][0] <= reached) low = middle; else high = middle - 1;
    }
    const [, why, about, event] = waits[low];
    return {why, about, event};
}

function waitWords({why, about, event}) {
    const message = event ? messages[data.events[event - 1][2]] : null;
    switch (why) {
    case "may": return "nothing: it may go on";
    case "end": return "all done";
    case "phase": return `phase ${about}: ${counted(orphansUpTo(about), "orphan", "orphans")} to be sent again`;
    case "message": return `message ${message.no} from ${about}: ` +
        (message.kind === "kept" ? "to be handed over" : `to be sent at event ${message.sent}`);
    default: return `kept messages to ${about}: ${keptChannels.get(`${data.events[event - 1][1]}-${about}`)
        .filter(one => !one.state).length} to be handed over`;
    }
}

const orphansUpTo = phase => orphans.filter(one => !one.state && one.phase <= phase).length;

const tableRows = data.processes.map((row, process) => {
    const made = document.createElement("tr");
    for (let cell = 0; cell < 3; cell++) made.append(document.createElement("td"));
    made.children[0].textContent = process;
    made.children[0].title = row.status;
    made.children[0].addEventListener("click", () => { if (row.y !== null) reveal(position(process), row.y); });
    find("waits").append(made);
    return made;
});

/* Tokens stand where each process is: behind its last event, at its restart before the first. */
const tokens = data.processes.map(row => {
    if (row.y === null) return null;
    const half = Math.max(5, data.at.mark + 2.5);
    const token = svgElement("path", {d: `M0,${-half}L${1.6 * half},0L0,${half}Z`, class: "token"});
    find("tokens").append(token);
    return token;
});
const halo = svgElement("circle", {r: Math.max(8, data.at.mark * 2.4), class: "halo", visibility: "hidden"});
find("tokens").append(halo);

function position(process) {
    const done = processes[process].done, event = done.at(-1);
    if (!event) return data.processes[process].x;
    return eventX(event) === null ? data.at[event < data.first ? "start" : "end"] : eventX(event) + data.at.mark + 1;
}

/* Only what changes is written: with 64 processes most of a step is the same as before. */
function setAttribute(mark, name, value) {
    if (mark.getAttribute(name) !== value) mark.setAttribute(name, value);
}

function setText(cell, words) {
    if (cell.textContent !== words) cell.textContent = words;
}

function showWaits(step) {
    data.processes.forEach((row, process) => {
        const wait = waitOf(process), made = tableRows[process];
        const kind = wait.why + (step && step.process === process ? " now" : "");
        const next = wait.event ? `${wait.event}: ${data.events[wait.event - 1][0]}` : "";
        setAttribute(made, "class", kind);
        setText(made.children[1], next);
        setText(made.children[2], waitWords(wait));
        if (!tokens[process]) return;
        setAttribute(tokens[process], "transform", `translate(${position(process)},${row.y})`);
        setAttribute(tokens[process], "class", `token ${{may: "", end: "end"}[wait.why] ?? "waits"}`);
    });
}

const MOST_LISTED = 12;

function showKept(unready) {
    const items = [];
    for (const channel of channelsInOrder) {
        const waiting = keptChannels.get(channel).filter(one => !one.state);
        const band = bandMarks.get(channel);
        if (band) {
            setText(band.querySelector("text"), waiting.length ? String(waiting.length) : "");
            band.classList.toggle("spent", waiting.length === 0);
        }
        if (waiting.length) items.push({message: waiting[0], more: waiting.length - 1});
    }
    const words = items.slice(0, MOST_LISTED).map(({message, more}) =>
        `${message.no} from ${message.sender} to ${message.receiver}${more ? ` and ${more} more` : ""}: ` +
        (message.phase < unready ? `may be handed over (choice ${64 + 64 * message.sender + message.receiver})`
                                 : `waits for phase ${message.phase}`));
    if (items.length > MOST_LISTED) words.push(`and those of ${items.length - MOST_LISTED} more channels`);
    find("kept").replaceChildren(...(words.length ? words : ["none"]).map(text => {
        const item = document.createElement("li");
        item.textContent = text;
        return item;
    }));
}

function showSums() {
    const unsent = orphans.filter(one => !one.state), unready = Math.min(Infinity, ...unsent.map(one => one.phase));
    const waiting = kept.filter(one => !one.state).length, inside = messages.filter(one => one.state === "put").length;
    find("sums").textContent = [
        unready === Infinity ? "Every phase is ready" : `Phases below ${unready} are ready`,
        `${counted(unsent.length, "orphan", "orphans")} to be sent again`,
        `${waiting} kept to be handed over`, `${counted(inside, "message", "messages")} in channels`].join("; ") + ".";
    showKept(unready);
}

/* A handing over has no event of its own: it is shown at the band of its channel, the message's send, or the cut. */
function handingX(message) {
    const band = bandMarks.get(`${message.sender}-${message.receiver}`);
    if (band) return Number(band.querySelector("circle").getAttribute("cx"));
    return eventX(message.sent) ?? data.at.cut;
}

function showHalo(step) {
    halo.setAttribute("visibility", "hidden");
    if (!step) return;
    const row = data.processes[step.process], x = step.event ? eventX(step.event) : handingX(messages[step.message]);
    if (x === null || row.y === null) return;
    halo.setAttribute("cx", x);
    halo.setAttribute("cy", row.y);
    halo.setAttribute("visibility", "visible");
    if (find("follow").checked) reveal(x, row.y);
}

function beginning() {
    return `Every process stands at its restart, or at the cut if it stays. All channels are empty. The order is ` +
        (data.lowest ? "the lowest." : "the one that was given.");
}

function ending() {
    if (reached < steps.length) return "";
    return data.complete ? " The replay is complete: nothing is left to do."
                         : " The order ends here, and is not complete.";
}

function go(target) {
    target = Math.max(0, Math.min(steps.length, target));
    while (reached < target) carryOut(steps[reached++]);
    while (reached > target) takeBack(steps[--reached]);
    const step = reached ? steps[reached - 1] : null;
    slider.value = reached;
    find("place").value = `${reached} of ${steps.length}`;
    find("count").textContent = step ? `Step ${reached} of ${steps.length}, choice ${step.choice}`
                                     : "Before the first step";
    find("did").textContent = (step ? stepWords(step) : beginning()) + ending();
    showSums();
    showWaits(step);
    showHalo(step);
}

// ---- Buttons and keys

let playing = null;
function play(on) {
    clearInterval(playing);
    playing = on ? setInterval(() => { go(reached + 1); if (reached === steps.length) play(false); }, 500) : null;
    find("play").textContent = on ? "stop" : "play";
}
const toggle = () => {
    if (!playing && reached === steps.length) go(0);
    play(!playing);
};
const actions = {
    first: () => go(0), back: () => go(reached - 1), on: () => go(reached + 1), last: () => go(steps.length),
    play: toggle, closer: () => zoomMiddle(1.3), farther: () => zoomMiddle(1 / 1.3), all: showAll, "to-cut": showCut};
for (const id in actions) find(id).addEventListener("click", actions[id]);
slider.addEventListener("input", () => go(Number(slider.value)));
const keys = {ArrowRight: "on", ArrowLeft: "back", Home: "first", End: "last", " ": "play", "+": "closer",
              "-": "farther", "0": "all", c: "to-cut"};
document.addEventListener("keydown", event => {
    if (event.ctrlKey || event.metaKey || event.altKey || !keys[event.key]) return;
    // A button takes its own blank, and the slider its own arrows.
    if (event.target.closest("input, summary") || (event.key === " " && event.target.closest("button"))) return;
    event.preventDefault();
    actions[keys[event.key]]();
});

function fit() {
    const {width, height} = size(), at = data.at;
    if (Math.min(width / at.width, (height - 24) / (at.bottom - at.top)) > 0.55) showAll(); else showCut();
}
addEventListener("resize", show);
fit();
const wanted = /step=(\d+)/.exec(location.hash);        // page.html#step=6 opens at a step
go(wanted ? Number(wanted[1]) : 0);
})();
