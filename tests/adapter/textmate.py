"""Which scopes a TextMate grammar gives the characters of lines: the part of its rules that our grammar uses (match, begin and end, captures
with names or patterns, includes of the repository)."""
import json
import re


def regex(pattern):
    """A pattern in Python's signs, where a flag for small letters stands at the front."""
    return re.compile(pattern.replace("(?i)", ""), re.I if "(?i)" in pattern else 0)


class Grammar:
    def __init__(self, parsed):
        self.scope_name = parsed["scopeName"]
        self.patterns = parsed["patterns"]
        self.repository = parsed["repository"]
        self.compiled = {}

    @staticmethod
    def read(folder):
        return Grammar(json.loads((folder / "syntaxes/mixal.tmLanguage.json").read_text()))

    def rules(self):
        """Each rule of the repository that has a pattern of its own."""
        waiting = list(self.repository.values())
        while waiting:
            rule = waiting.pop(0)
            waiting[:0] = [inner for inner in rule.get("patterns", []) if "include" not in inner]
            if "match" in rule or "begin" in rule:
                yield rule

    def flat(self, patterns):
        """The rules of a list, with those that it includes in their places."""
        for rule in patterns:
            if "include" in rule:
                named = self.repository[rule["include"].lstrip("#")]
                yield from self.flat([named])
            elif "match" in rule or "begin" in rule:
                yield rule
            else:
                yield from self.flat(rule["patterns"])

    def compile(self, pattern):
        if pattern not in self.compiled:
            self.compiled[pattern] = regex(pattern)
        return self.compiled[pattern]

    def scopes(self, lines):
        """For each line a list of scopes for each of its characters, the outermost first."""
        stack = []  # the rules with begin and end that are open
        for line in lines:
            scopes = [[rule["contentName"]] if (rule := stack[-1] if stack else None) and "contentName" in rule else [] for _ in line]
            self.over(line, 0, len(line), stack, scopes)
            yield scopes

    def over(self, line, at, end, stack, scopes):
        """Colours a line from a place on."""
        while True:
            patterns = stack[-1].get("patterns", []) if stack else self.patterns
            best, rule = self.first(line, at, end, patterns)
            closing = self.compile(stack[-1]["end"]).search(line, at, end) if stack else None
            if closing and (not best or closing.start() <= best.start()):
                opened = stack.pop()
                for column in range(closing.start(), end):
                    scopes[column] = [name for name in scopes[column] if name != opened.get("contentName")]
                at = closing.end()
                continue
            if not best:
                return
            self.take(line, best, rule, scopes)
            if "begin" in rule:
                stack.append(rule)
            elif best.end() == at:
                return
            at = best.end()

    def first(self, line, at, end, patterns):
        """The match that begins first, of the rule that stands first."""
        best, chosen = None, None
        for rule in self.flat(patterns):
            found = self.compile(rule.get("match", rule.get("begin"))).search(line, at, end)
            if found and (best is None or found.start() < best.start()):
                best, chosen = found, rule
        return best, chosen

    def take(self, line, found, rule, scopes):
        """Names the characters of a match and of its groups."""
        name = rule.get("name")
        for column in range(*found.span()):
            scopes[column] += [name] if name else []
        for number, capture in rule.get("captures", rule.get("beginCaptures", {})).items():
            first, last = found.span(int(number))
            for column in range(first, last):
                scopes[column] += [capture["name"]] if "name" in capture else []
            if "patterns" in capture and first < last:
                self.inside(line, first, last, capture["patterns"], scopes)

    def inside(self, line, at, end, patterns, scopes):
        while at < end:
            best, rule = self.first(line, at, end, patterns)
            if not best or best.end() == best.start():
                return
            self.take(line, best, rule, scopes)
            at = best.end()
