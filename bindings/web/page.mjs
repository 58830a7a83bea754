// The page: what its elements do.
import { AnswerParts } from "./answer.mjs";
import { COMMANDS, EXAMPLES, FAULTS, LIMITS, REASONS, SHEETS, VERSION } from "./data.mjs";
import { frameKind } from "./frame_kind.mjs";
import { keep, kept } from "./kept.mjs";
import { fragmentOf, MOST_DESCRIPTION, problemOf } from "./link.mjs";
import { networkKind } from "./network_kind.mjs";
import { postsKind, rosterKind } from "./roster_kind.mjs";
import { moduleOfProgram, Run } from "./run.mjs";
import { Sheet } from "./sheet.mjs";
import { Tabs } from "./tabs.mjs";
import { TextBox } from "./textbox.mjs";

const MOST_CERTIFICATE = 67_108_864;
/** How long a problem stays as it is before the page solves it by itself, in milliseconds. */
const PAUSE = 600;

/** What the exit statuses mean whose notes say no more. */
const STATUSES = {
  2: "K is out of its range.",
  5: "A file is missing.",
  6: "The answer is longer than the page has room for.",
  7: "There is not enough memory.",
  8: "The text is too long: a description has at most 4,194,304 bytes, a certificate 67,108,864.",
  9: "The form of the problem, which stands on line 2, is not that of the command or of the answer.",
  13: "A cost is below 0 or has a tie.",
};

const at = (id) => document.getElementById(id);
const partsOfBox = (id) => ({ area: at(id), fault: at(`${id}-fault`), part: at(`${id}-part`), back: at(`${id}-back`) });
const description = new TextBox(partsOfBox("description"), MOST_DESCRIPTION, 1_000_000);
const answer = new TextBox(partsOfBox("answer"), MOST_CERTIFICATE, 200_000);
const parts = new AnswerParts({ nothing: at("nothing"), words: at("words"), picture: at("picture"), names: at("names") });
/** The runs that show a right answer: the first word of each, what is said of it, and what is done with what it writes. */
const SHOWN = [
  ["--tell", "Telling it", (text) => parts.tell(text)],
  ["--picture", "Drawing it", (svg) => parts.draw(svg)],
];
/** The kinds of sheets, by the names of their tabs. */
const KINDS = {
  roster: rosterKind(SHEETS.roster), posts: postsKind(SHEETS.posts), network: networkKind(SHEETS.network), frame: frameKind(SHEETS.frame),
};
const sheets = Object.fromEntries(Object.entries(KINDS).map(([name, kind]) => [name, new Sheet(kind, at(name), { save, showText, copyLink: copyLinkOf })]));
const tabs = new Tabs([...Object.keys(KINDS), "text"], at);
let running = null;
/** The button that began the last run. */
let begunBy = at("solve");
/** The command that answered what stands in the box, or null where it came from elsewhere. */
let answered = null;
/** The timer of the pause behind the last change of the problem. */
let pause = null;

// --- What can be chosen ---

function option(value, text) {
  const made = new Option(text, value);
  made.title = text;
  return made;
}

function fillExamples() {
  const groups = new Map();
  EXAMPLES.forEach((example, place) => {
    const group = groups.get(example.form) ?? Object.assign(document.createElement("optgroup"), { label: example.form });
    groups.set(example.form, group);
    group.append(option(place, `${example.file}: ${example.title}`));
  });
  at("example").replaceChildren(option("", "choose one"), ...groups.values());
}

function fillLimits() {
  const body = at("limits").tBodies[0];
  for (const { lines, allowed } of LIMITS) {
    const row = body.insertRow();
    row.insertCell().append(...inWords(lines));
    row.insertCell().append(...inWords(allowed));
  }
}

/** Offers the commands that take the form on the second line, or all where it is none. */
function fillCommands() {
  const [, line = ""] = description.text.split("\n", 2);
  const [form, , count] = line.split(" ");
  const fitting = COMMANDS.filter((it) => it.forms.includes(form) && (!it.single || count === "1"));
  const offered = fitting.length > 0 ? fitting : COMMANDS;
  const chosen = at("command").value;
  at("command").replaceChildren(...offered.map((it) => option(it.name, it.name)));
  at("command").value = offered.some((it) => it.name === chosen) ? chosen : offered[0].name;
  showCommand();
}

function showCommand() {
  const { about, counted } = COMMANDS.find((it) => it.name === at("command").value);
  at("about").replaceChildren(...inWords(about));
  at("count").hidden = at("count-label").hidden = !counted;
  at("count").disabled = !counted;
}

function setProblem(problem) {
  description.text = problem.text;
  setCommand(problem);
}

/** Puts a problem here that nobody chose in the page, as that of a link. Such a one is not solved unasked. */
function setGivenProblem(problem) {
  setProblem(problem);
  clearTimeout(pause);
}

function setCommand({ command, count }) {
  if ([...at("command").options].some((it) => it.value === command)) at("command").value = command;
  at("count").value = count || 2;
  showCommand();
}

// --- What is said ---

/** The text of a document's line as elements: what stands between ` is code. */
function inWords(text) {
  return text.split("`").map((part, place) => {
    if (place % 2 === 0) return part;
    return Object.assign(document.createElement("code"), { textContent: part });
  });
}

function say(text) {
  at("state").textContent = text;
}

/** A time as it is told: milliseconds below a second, else seconds. */
function timeOf(milliseconds) {
  return milliseconds < 1000 ? `${Math.round(milliseconds)} ms` : `${(milliseconds / 1000).toFixed(1)} s`;
}

/** Tells a refusal at the text that it is about. */
function showRefusal({ status, note }) {
  const [, what, , name, , line] = note.split(" ");
  const box = what === "certificate" ? answer : description;
  if (status === 3 || status === 4) {
    const meaning = FAULTS[what].find((it) => it.name === name)?.meaning ?? "";
    box.showFault(Number(line), `Line ${line}, ${name}: `, ...inWords(meaning));
  } else if (status === 1) {
    answer.showFault(null, ...inWords(`\`${note}\`${meaningOf(note)}`));
  } else {
    description.showFault(null, STATUSES[status] ?? note);
  }
  say(status === 1 ? "The answer is not right." : `Refused: ${note.replace("refused: ", "")}.`);
}

function scrollToFault() {
  for (const box of [description, answer]) box.scrollToFault();
}

/** Whether a row of the reasons is that of a note with these numbers, for an answer with this header. */
function isReason({ answers, places }, numbers, header) {
  const isOfAnswer = answers.length === 0 || answers.some((word) => header.includes(word));
  return isOfAnswer && places.every((place, at) => /[A-Z]/.test(place) || place === numbers[at]);
}

/**
 * What the first failed clause of an answer means, behind a colon, with the numbers of its note in it. The meaning of a variant is that of the
 * answers with its word in the header.
 */
function meaningOf(note) {
  const header = answer.text.split("\n", 2)[1]?.split(" ") ?? [];
  const [, reason, ...numbers] = note.split(" ");
  const fitting = REASONS.filter((it) => it.reason === reason && isReason(it, numbers, header));
  const found = fitting.find((it) => header.includes(it.variant)) ?? fitting.find((it) => it.variant === null);
  return found ? `: ${found.meaning.replace(/\b[A-Z]\b/g, (letter) => numbers[found.places.indexOf(letter)])}.` : "";
}

// --- What can be done ---

/** Another text ends the run of the one before, and nothing that was said of that stays. */
function forget() {
  running?.stop();
  parts.clear();
  say("");
}

/** Nothing stays that the page answered to the problem before, and after a pause it solves this one. */
function onProblem() {
  forget();
  if (answered) answer.text = "";
  solveSoon();
}

/** The example that is chosen is the one that has the text of the description. */
function onDescription() {
  onProblem();
  const place = EXAMPLES.findIndex((it) => it.text === description.text);
  at("example").value = place < 0 ? "" : place;
  fillCommands();
}

function onCommand() {
  showCommand();
  onProblem();
}

/** Whether a text is no certificate but a description, as those are that show and convert write. */
function isDescription(text) {
  return text.startsWith("matroids ");
}

function onAnswer() {
  forget();
  answered = null;
  at("answer-label").textContent = isDescription(answer.text) ? "Text" : "Certificate";
}

/**
 * Runs the program over texts of the boxes, and answers how it ended, or null where it was stopped or could not run. While it runs the page says
 * what it does, behind what was said of the run before.
 */
async function run(words, files, doing = "Running", before = "") {
  [description, answer].forEach((it) => it.clearFault());
  const mine = (running = new Run(words, files));
  setRunning(true);
  say(before + doing);
  const clock = setInterval(() => (at("time").textContent = timeOf(mine.milliseconds)), 100);
  try {
    const ended = await mine.ended;
    if (ended && isInBoxes(files)) return ended;
    say(isInBoxes(files) ? `${before}Stopped after ${timeOf(mine.milliseconds)}.` : "Stopped, since the text is another one now.");
    return null;
  } catch (error) {
    say(before + (error.message === "memory" ? STATUSES[7] : error.message));
    return null;
  } finally {
    clearInterval(clock);
    at("time").textContent = "";
    if (running === mine) setRunning(false);
  }
}

/** While a program runs its buttons keep the focus, and do nothing. That of Stop, which is hidden then, goes back to the one that began the run. */
function setRunning(isRunning) {
  for (const id of ["solve", "check"]) at(id).setAttribute("aria-disabled", isRunning);
  if (!isRunning && document.activeElement === at("stop")) begunBy.focus();
  at("stop").disabled = !isRunning;
  if (!isRunning) running = null;
}

/** Does what a button is for, unless something runs. */
function begin(button, action) {
  if (running) return;
  clearTimeout(pause);
  begunBy = at(button);
  action();
}

/** Solves after a pause in which the problem stays as it is, where that is wanted. */
function solveSoon() {
  clearTimeout(pause);
  if (at("live").checked) pause = setTimeout(solveUnasked, PAUSE);
}

/** Solves if there is something to solve. No answer takes the place of a certificate that came from elsewhere, unless it is asked for. */
function solveUnasked() {
  const canSolve = !at("solve").disabled && at("problem").checkValidity() && description.text.trim();
  if (!canSolve) return;
  if (answered || !answer.text.trim()) begin("description", solve);
  else say("Solve puts the answer in the place of the certificate that was written or opened here.");
}

async function solve() {
  const [command, text] = [at("command").value, description.text];
  const { counted } = COMMANDS.find((it) => it.name === command);
  const words = counted ? [command, at("count").value, "description"] : [command, "description"];
  parts.clear();
  const ended = await run(words, { description: text });
  if (!ended) return;
  if (ended.status !== 0) {
    showRefusal(ended);
    // Who types may look at another line.
    if (begunBy !== description.area) scrollToFault();
    return;
  }
  answer.text = ended.output;
  answered = command;
  const said = `Done in ${timeOf(ended.milliseconds)}.`;
  say(said);
  const files = { description: text, answer: ended.output };
  if (command === "cuts") parts.name(text, ended.output);
  else if (!isDescription(ended.output)) await showAnswer(said, files);
}

async function check() {
  const files = { description: description.text, answer: answer.text };
  const ended = await run(["check", "description", "answer"], files);
  if (!ended) return;
  if (ended.status !== 0) {
    showRefusal(ended);
    scrollToFault();
    return;
  }
  await showAnswer(`${ended.output.trim()}: the answer is right. Judged in ${timeOf(ended.milliseconds)}.`, files);
}

/** Tells and draws a right answer, and says last what was said of it at first. */
async function showAnswer(said, files) {
  for (const [word, doing, show] of SHOWN) {
    const ended = await run([word, "description", "answer"], files, doing, `${said} `);
    if (!ended) return;
    if (ended.status !== 0) {
      say(`${said} ${STATUSES[ended.status] ?? ended.note}`);
      return;
    }
    show(ended.output);
  }
  say(said);
}

/** Whether these texts stand in the boxes: others may have been put there meanwhile. */
function isInBoxes(files) {
  const inBoxes = { description: description.text, answer: answer.text };
  return Object.keys(files).every((name) => files[name] === inBoxes[name]);
}

function save(text, name, type = "text/plain") {
  const link = document.createElement("a");
  link.href = URL.createObjectURL(new Blob([text], { type }));
  link.download = name;
  link.click();
  setTimeout(() => URL.revokeObjectURL(link.href), 60_000);
}

/** What is asked: the command, its number, and the text of the description. */
function problemOfPage() {
  return { command: at("command").value, count: at("count").value, text: description.text };
}

/** Shows a description among the texts, where it can be changed. */
function showText(problem) {
  tabs.show("text");
  setGivenProblem(problem);
  description.area.focus();
}

async function copyLink() {
  say(await copied(problemOfPage(), "description"));
}

/** Copies a link that holds what is typed into a sheet. */
async function copyLinkOf(sheet) {
  sheet.say(await copied({ command: sheet.kind.name, count: "", text: JSON.stringify(sheet.state) }, "cells and limits"));
}

/** Copies a link that holds a problem, and answers what is said of it. */
async function copied(problem, what) {
  const fragment = await fragmentOf(problem);
  if (fragment === null) return `The ${what} is too long for a link.`;
  // Not by `location.hash`: the page would follow its own link, and put this text in the place of what is typed meanwhile.
  history.replaceState(null, "", fragment);
  const isCopied = await navigator.clipboard?.writeText(location.href).then(() => true, () => false);
  return isCopied ? `The link is copied. It holds the ${what}.` : `The address of this page now holds the ${what}.`;
}

/** Puts what a link holds into a sheet, unless it is no such thing. */
function takeSheet({ command, text }) {
  try {
    sheets[command].state = JSON.parse(text);
    tabs.show(command);
  } catch {
    at("unable").textContent = "The link is of a sheet, and is broken.";
  }
}

async function followLink() {
  const problem = await problemOf(location.hash);
  if (problem && Object.hasOwn(sheets, problem.command)) return takeSheet(problem) && null;
  if (problem) tabs.show("text");
  const shown = problemOfPage();
  if (problem && Object.keys(shown).some((it) => shown[it] !== problem[it])) setGivenProblem(problem);
  return problem;
}

/** Keeps what stands in the page, or at least the problem, with the fragment under which it stands there. */
function keepTexts() {
  const problem = { ...problemOfPage(), fragment: location.hash, live: at("live").checked, tab: tabs.shown };
  const written = Object.entries(sheets).filter(([, it]) => !it.isEmpty);
  const whole = { ...problem, sheets: Object.fromEntries(written.map(([name, it]) => [name, it.state])) };
  keep({ ...whole, answer: answer.text, answered }, whole, problem);
}

/** Puts back what was kept under this fragment, and answers whether there was anything: it is later than the problem that the fragment holds. */
function takeKept() {
  const found = kept();
  at("live").checked = found?.live ?? true;
  if (found?.fragment !== location.hash || typeof found.text !== "string") return false;
  tabs.show(found.tab);
  for (const [name, sheet] of Object.entries(sheets)) if (found.sheets?.[name]) sheet.state = found.sheets[name];
  putBack(description, found.text, !EXAMPLES.some((it) => it.text === found.text));
  setCommand(found);
  if (found.answer) putBack(answer, found.answer, !found.answered);
  answered = found.answered ?? null;
  clearTimeout(pause);
  return true;
}

/** Puts a text into a box again: as one that was written there, which another text does not replace for good, or as one that was not. */
function putBack(box, text, isWritten) {
  if (isWritten) box.restore(text);
  else box.text = text;
}

function takeFile(event, box) {
  const [file] = event.target.files;
  if (file) box.open(file);
  event.target.value = "";
}

function onKey(event) {
  const isCall = event.key === "Enter" && (event.ctrlKey || event.metaKey);
  if (isCall && !at("solve").disabled) at("problem").requestSubmit(at("solve"));
  if (event.key === "Escape") stop();
}

function stop() {
  clearTimeout(pause);
  running?.stop();
  for (const it of Object.values(sheets)) it.stop();
}

// --- The beginning ---

function listen() {
  at("problem").addEventListener("submit", (event) => {
    event.preventDefault();
    begin("solve", solve);
  });
  at("check").addEventListener("click", () => begin("check", check));
  at("stop").addEventListener("click", stop);
  at("link").addEventListener("click", copyLink);
  at("save-description").addEventListener("click", () => save(description.text, "description.txt"));
  at("save-answer").addEventListener("click", () => save(answer.text, `${answered ?? "answer"}.answer`));
  at("save-picture").addEventListener("click", () => save(parts.svg, `${answered ?? "answer"}.svg`, "image/svg+xml"));
  at("open-description").addEventListener("change", (event) => takeFile(event, description));
  at("open-answer").addEventListener("change", (event) => takeFile(event, answer));
  at("description").addEventListener("input", onDescription);
  at("answer").addEventListener("input", onAnswer);
  at("command").addEventListener("change", onCommand);
  at("count").addEventListener("input", onProblem);
  at("live").addEventListener("change", solveSoon);
  at("example").addEventListener("change", () => EXAMPLES[at("example").value] && setProblem(EXAMPLES[at("example").value]));
  document.addEventListener("keydown", onKey);
  // A file that is dropped beside a box is not opened in place of the page. A text that is dragged is left to the browser.
  for (const kind of ["dragover", "drop"]) {
    document.addEventListener(kind, (event) => event.dataTransfer.types.includes("Files") && event.preventDefault());
  }
  addEventListener("hashchange", followLink);
  addEventListener("pagehide", keepTexts);
}

async function start() {
  at("version").textContent = VERSION;
  fillExamples();
  fillLimits();
  listen();
  // Firefox enables at first what was enabled when the page was loaded again.
  setRunning(false);
  if (!takeKept() && !(await followLink())) {
    setGivenProblem(EXAMPLES.find((it) => it.file === "people.txt"));
  }
  moduleOfProgram().catch((error) => {
    at("unable").textContent = error.message;
    at("solve").disabled = at("check").disabled = true;
    for (const it of Object.values(sheets)) it.at("plan").disabled = true;
  });
}

start();
