"use strict";
// Prints what the script of a page that `mbview html` wrote counts of its trace, as JSON: for each process the ticks in its states, and those in
// which it is drawn at work; for each partition the ticks in its modes, and those of its windows; how many ticks there are before a shutdown; and
// how many marks there are of each line without its tick.

/** The story that the page tells. */
function storyIn(page) {
  const scripts = [...page.matchAll(/<script>\n([^]*?)<\/script>/g)].map(([, script]) => script);
  return new Function(`${scripts.join("\n")}\nreturn new Story(readTrace(TRACE), WINDOWS, TICKS);`)();
}

function add(counts, names, ticks = 1) {
  const key = names.join(" ");
  counts[key] = (counts[key] ?? 0) + ticks;
}

/** The states of each tick, as the page tells them at a cursor. */
function ticksOf(story) {
  const [states, worked] = [{}, {}];
  for (let tick = 0; tick < story.ticks; tick += 1) {
    for (const { lane, state, held } of story.statesAt(tick)) {
      if (state !== null) add(states, [lane.partition, lane.name, state]);
      if (state === "RUNNING" && held === null) add(worked, [lane.partition, lane.name]);
    }
  }
  return { states, worked };
}

/** The same by the stays that it draws. */
function staysOf(story) {
  const states = {};
  for (const { kind, partition, name, stays } of story.lanes) {
    if (kind !== "module") stays.state.forEach((state, place) => add(states, [partition, name, state], stays.to[place] - stays.from[place]));
  }
  return states;
}

/** The windows of each partition, as they are drawn in spans of so many ticks. */
function windowsOf(story, span) {
  const windows = {};
  for (const name of new Set(story.windows.windows.map(([partition]) => partition))) {
    add(windows, [name], 0);
    for (let from = 0; from < story.ticks; from += span) {
      const to = Math.min(from + span, story.ticks);
      for (const [begin, end] of story.windowsIn(name, from, to)) add(windows, [name], end - begin);
    }
  }
  return windows;
}

function marksOf(story) {
  const marks = {};
  for (const lane of story.lanes) for (const { line } of lane.marks) add(marks, [line.partition, line.kind, ...line.words]);
  return marks;
}

function countsOf(story) {
  const [windows, pieces] = [windowsOf(story, story.ticks), windowsOf(story, 97)];
  return { ...ticksOf(story), stays: staysOf(story), windows, pieces, ticks: story.ticks, up: Math.min(story.down, story.ticks), marks: marksOf(story) };
}

// In a browser the page is asked for `countsOf(window.page.story)`.
if (typeof window === "undefined") console.log(JSON.stringify(countsOf(storyIn(require("fs").readFileSync(process.argv[2], "utf8")))));
