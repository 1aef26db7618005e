"""Reads a text by a TextMate grammar, as an editor does: a scope for each of its bytes. Of grammars it knows what the one of 3D has:
`match`, `begin` with `end`, captures, `include` of the repository, and scopes of other grammars, in which nothing is looked at."""

import json
import re


class Grammar:
    def __init__(self, path):
        with open(path, encoding="utf-8") as file:
            self.grammar = json.load(file)
        self.rules = self.flat(self.grammar["patterns"])

    def flat(self, patterns):
        """The rules of patterns, with their includes in place."""
        found = []
        for pattern in patterns:
            include = pattern.get("include", "")
            if include.startswith("#"):
                found += self.flat([self.grammar["repository"][include[1:]]])
            elif "match" in pattern or "begin" in pattern:
                found.append(pattern)
            elif not include:
                found += self.flat(pattern["patterns"])
        return found

    def scopes(self, text):
        """The innermost scope of each place of a text; an empty text where it has none."""
        scopes, opened, at = [""] * len(text), [], 0
        for line in text.splitlines(keepends=True):
            self.read_line(line, at, scopes, opened)
            at += len(line)
        return scopes

    def read_line(self, line, begin, scopes, opened):
        at = 0
        while at < len(line):
            rule = opened[-1] if opened else None
            rules = self.flat(rule.get("patterns", [])) if rule else self.rules
            found = [(match.start(), k, match, other) for k, other in enumerate(rules) if (match := search(other, line, at))]
            ended = re.compile(rule["end"]).search(line, at) if rule else None
            if ended and all(ended.start() <= start for start, *_ in found):
                paint(scopes, begin + at, begin + ended.end(), name_of(rule))
                opened.pop()
                at = ended.end()
                continue
            start, _, match, other = min(found, key=lambda one: one[:2]) if found else (len(line), 0, None, None)
            paint(scopes, begin + at, begin + start, name_of(rule))
            if match is None:
                return
            self.take(match, other, begin, scopes)
            if "begin" in other:
                opened.append(other)
            at = max(match.end(), start + 1)

    def take(self, match, rule, begin, scopes):
        paint(scopes, begin + match.start(), begin + match.end(), rule.get("name", ""))
        for number, capture in rule.get("captures", rule.get("beginCaptures", {})).items():
            first, end = match.span(int(number))
            if first >= 0:
                paint(scopes, begin + first, begin + end, capture["name"])


def search(rule, line, at):
    return re.compile(rule.get("match", rule.get("begin"))).search(line, at)


def name_of(rule):
    return "" if rule is None else rule.get("contentName", rule.get("name", ""))


def paint(scopes, begin, end, name):
    scopes[begin:end] = [name] * (end - begin)
