// Reads the files for VS Code as that editor does, for try_editors: what the problem matcher finds in reports, and which scopes
// the grammar gives to places of a text. Regular expressions are those of JavaScript; captures have no patterns of their own.
"use strict";
const fs = require("fs");
const path = require("path");

const asked = JSON.parse(fs.readFileSync(0, "utf8"));
const read = (name) => JSON.parse(fs.readFileSync(path.join(asked.folder, name), "utf8"));
const contributed = read("package.json").contributes;
const grammar = read(contributed.grammars[0].path);
const languages = read(contributed.languages[0].configuration);
for (const pattern of [languages.wordPattern, ...Object.values(languages.indentationRules)]) {
  new RegExp(pattern);
}

// The file, the line, the column, the severity and the message of each line that the problem matcher reads.
function matches(report) {
  const pattern = contributed.problemMatchers[0].pattern;
  const found = report.split("\n").map((line) => line.match(new RegExp(pattern.regexp))).filter(Boolean);
  return found.map((it) => [it[pattern.file], +it[pattern.line], +it[pattern.column], it[pattern.severity], it[pattern.message]]);
}

// Rules without those that only include others.
function flat(rules) {
  return rules.flatMap((rule) => {
    if (rule.include) return flat([grammar.repository[rule.include.slice(1)]]);
    return rule.match || rule.begin ? [rule] : flat(rule.patterns);
  });
}

// The match of a rule at a place of a line, or behind it.
function matchOf(source, line, from) {
  const pattern = new RegExp(source, "gd");
  pattern.lastIndex = from;
  return pattern.exec(line);
}

// Gives a match its scope, and its captures theirs.
function scoped(scopes, match, name, captures) {
  scopes.fill(name, match.index, match.index + match[0].length);
  for (const [number, capture] of Object.entries(captures || {})) {
    if (match.indices[number]) scopes.fill(capture.name, ...match.indices[number]);
  }
}

// The rule that matches first at a place of a line or behind it, with its match.
function first(rules, line, at) {
  const found = rules.map((rule) => [rule, matchOf(rule.match || rule.begin, line, at)]).filter(([, match]) => match);
  return found.reduce((one, other) => (one[1] && one[1].index <= other[1].index ? one : other), [null, null]);
}

// The scopes of a line, by its characters, from the rules that are open at its start. Leaves open what is open at its end.
function scopesOf(line, open) {
  const scopes = new Array(line.length + 1).fill("");
  for (let at = 0; at <= line.length; ) {
    const inside = open[open.length - 1];
    const [rule, match] = first(flat(inside ? inside.patterns || [] : grammar.patterns), line, at);
    const end = inside && matchOf(inside.end, line, at);
    scopes.fill((inside && inside.name) || "", at, Math.min(...[end, match].filter(Boolean).map((it) => it.index), line.length));
    if (end && (!match || end.index <= match.index)) {
      scoped(scopes, end, inside.name, inside.endCaptures);
      open.pop();
      at = end.index + Math.max(end[0].length, end.index === line.length ? 1 : 0);
    } else if (match) {
      scoped(scopes, match, rule.name, rule.captures || rule.beginCaptures);
      if (rule.begin) open.push(rule);
      at = match.index + match[0].length;
    } else {
      at = line.length + 1;
    }
  }
  return scopes;
}

const open = [];
const scopes = asked.sample.split("\n").map((line) => scopesOf(line, open));
console.log(JSON.stringify({
  matches: asked.reports.map(matches),
  scopes: asked.places.map(([line, column]) => scopes[line - 1][column - 1]),
}));
