// The page: lines in, answers out, as they are found.
const $ = (id) => document.getElementById(id);
const form = $("asked");
const fields = ["command", "scoring", "last", "lines"];
const WAITING = 4;

let ending;

/** What is asked, as the link behind # carries it. */
function toLink() {
  const words = new URLSearchParams(fields.map((id) => [id, $(id).value]));
  return `${location.href.split("#")[0]}#${words}`;
}

function fromLink() {
  const words = new URLSearchParams(location.hash.slice(1));
  for (const id of fields) {
    const value = words.get(id);
    if (value !== null && (!$(id).options || [...$(id).options].some((option) => option.value === value))) {
      $(id).value = value;
    }
  }
  showLast();
}

/** The number of empty squares is asked for an analysis alone; where it is hidden, what it holds doesn't count. */
function showLast() {
  const isAsked = $("command").value === "analyse";
  $("last-row").hidden = !isAsked;
  $("last").disabled = !isAsked;
}

function say(text) {
  $("status").textContent = text;
}

function show(reply) {
  const item = document.createElement("li");
  item.textContent = reply;
  item.className = /^(\d+ )?error /m.test(reply) ? "fault" : "";
  $("answers").append(item);
}

/** The lines of the field. What no newline ends counts as a line unless it is empty, as in the program. */
function linesAsked() {
  const lines = $("lines").value.split("\n");
  if (lines.at(-1) === "") {
    lines.pop();
  }
  return lines;
}

/** Asks for some lines ahead, and shows the replies in their order. */
async function answer(reply, lines, signal) {
  const options = { scoring: $("scoring").value, signal };
  const command = $("command").value;
  if (command === "analyse") {
    options.last = Number($("last").value);
  }
  const ahead = WAITING * (navigator.hardwareConcurrency ?? 4);
  const asked = [];
  for (const [at, line] of lines.entries()) {
    for (let next = at + asked.length; next < lines.length && asked.length < ahead; next += 1) {
      const told = reply(command, lines[next], { ...options, number: next + 1 });
      // Heard again when its turn comes.
      told.catch(() => {});
      asked.push(told);
    }
    show(await asked.shift());
    say(`${at + 1} of ${lines.length} answered.`);
  }
}

async function run(reply) {
  const lines = linesAsked();
  ending = new AbortController();
  $("answers").replaceChildren();
  setBusy(true);
  say(`0 of ${lines.length} answered.`);
  try {
    await answer(reply, lines, ending.signal);
  } catch (error) {
    const done = $("answers").children.length;
    say(ending.signal.aborted ? `Stopped: ${done} of ${lines.length} answered.` : String(error));
  } finally {
    // Whatever was asked ahead ends too.
    ending.abort();
    setBusy(false);
  }
}

/** One of the two buttons is there. Whoever is at the one that goes comes to the other. */
function setBusy(isBusy) {
  const [goes, comes] = isBusy ? [$("go"), $("stop")] : [$("stop"), $("go")];
  const isThere = document.activeElement === goes;
  comes.disabled = false;
  if (isThere) {
    comes.focus();
  }
  goes.disabled = true;
  $("copy").disabled = isBusy || $("answers").children.length === 0;
}

async function copy(text, done) {
  try {
    await navigator.clipboard.writeText(text);
    say(done);
  } catch {
    say("The browser doesn't allow to copy: mark the text instead.");
  }
}

function listen(reply) {
  form.addEventListener("submit", (event) => {
    event.preventDefault();
    run(reply);
  });
  $("stop").addEventListener("click", () => ending.abort());
  $("copy").addEventListener("click", () => {
    const replies = [...$("answers").children].map((item) => `${item.textContent}\n`);
    copy(replies.join(""), "The answers are copied.");
  });
  $("link").addEventListener("click", () => {
    const link = toLink();
    history.replaceState(null, "", link);
    copy(link, "The link is in the address, and copied.");
  });
}

async function begin() {
  $("command").addEventListener("change", showLast);
  addEventListener("hashchange", fromLink);
  fromLink();
  try {
    const { reply } = await import("./othsolve.js");
    listen(reply);
    $("go").disabled = false;
    say("Ready.");
  } catch (error) {
    say(String(error.message ?? error));
  }
}

begin();
