// Colours of the source, by the grammar of the editors.
const OTHERS = "comment|entity|support|string|constant|punctuation|invalid";
const KINDS = new RegExp(`^(${OTHERS}|keyword\\.(control|operator|other)|variable(\\.language)?)\\b`);
const regexOf = (pattern) => new RegExp(pattern.replace("(?i)", ""), pattern.includes("(?i)") ? "dgi" : "dg");

// The match that begins first, of the rule that stands first.
function firstMatch(rules, text, at) {
  const found = rules.map((rule) => {
    rule.regex.lastIndex = at;
    return { rule, match: rule.regex.exec(text) };
  }).filter(({ match }) => match);
  return found.reduce((best, each) => (each.match.index < best.match.index ? each : best), found[0]);
}

// Names the letters from a place on, of which the innermost name stands. Gives the rule that is
// open behind them.
function paint(rules, text, at, names) {
  let open = null;
  for (;;) {
    const { match, rule } = firstMatch(open ? open.rules : rules, text, at) || {};
    if (!match) return open;
    at = match.index + match[0].length;
    if (rule.name) names.fill(rule.name, match.index, at);
    for (const [number, group] of rule.groups) {
      const [first, last] = match.indices[number] || [0, 0];
      if (first === last) continue;
      if (group.name) names.fill(group.name, first, last);
      paint(group.rules, text.slice(0, last), first, names);
    }
    if (rule.end) open = rule;
    else if (match[0] === "") return open;
  }
}

// Gives of a line the name of each letter, and the rule that is open behind it, which ends where a
// line begins.
export function grammarOf({ patterns, repository }) {
  // What is included stands in its place, and the patterns are those of JavaScript.
  const rulesOf = (given = []) => given.flatMap((rule) => {
    if (rule.include) return rulesOf([repository[rule.include.slice(1)]]);
    if (!rule.match && !rule.begin) return rulesOf(rule.patterns);
    const captures = Object.entries(rule.captures || rule.beginCaptures || {});
    const groups = captures.map(([number, group]) => [number, { name: group.name, rules: rulesOf(group.patterns) }]);
    const [regex, end] = [rule.match || rule.begin, rule.end].map((pattern) => pattern && regexOf(pattern));
    return [{ name: rule.name, inside: rule.contentName, rules: rulesOf(rule.patterns), regex, end, groups }];
  });
  const rules = rulesOf(patterns);
  return (line, before) => {
    const open = before && line.search(before.end) < 0 ? before : null;
    const names = new Array(line.length).fill(open?.inside || "");
    return { names, open: paint(open ? open.rules : rules, line, 0, names) || open };
  };
}

export const kindOf = (name) => (KINDS.exec(name) || ["", ""])[1].replace(".", "-");
