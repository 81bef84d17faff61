"""The report of a run: as text, as JSON, and as one HTML file that opens without a server."""
from __future__ import annotations

import json
from typing import Any
from xml.sax.saxutils import escape

from sfq.geometry.counts import number_of

from .engines import OF_PREDICATES
from .finding import Finding
from .predicates import NAMES as PREDICATES
from .smaller import Small


def described(finding: Finding, source: str) -> dict[str, Any]:
    """Returns all that a report has but the cases."""
    return {
        "pairs": source, "asked": finding.pairs, "compared": finding.compared,
        "refused": dict(sorted(finding.of_fault.items())), "first_refused": finding.first_refused, "ended_early": finding.ended_early,
        "engines": [
            {
                "engine": it.engine.spelled, "version": it.engine.version, "asked": it.engine.ask, "pairs": it.asked,
                "differ": it.differing, "note": it.engine.note,
                "families": {f"{family}: {kind}": count for (family, kind), count in sorted(it.of_family.items())},
                "cells": dict(sorted(it.of_cell.items())), "predicates": dict(sorted(it.of_predicate.items())),
            }
            for it in finding.counts
        ],
    }


def case_of(it: Small) -> dict[str, Any]:
    case = it.case
    return {
        "engine": case.engine, "family": case.family, "number": case.number, "asked": case.ask, "kind": case.difference.kind,
        "differs": list(case.difference.names), "first": case.pair[0], "second": case.pair[1], "sfq": case.wanted, "answer": case.answer,
        "why": it.why, "drawn_first": it.original[0], "drawn_second": it.original[1], "svg": it.svg,
    }


def as_json(finding: Finding, source: str, cases: list[Small]) -> str:
    """Returns the report as JSON."""
    return json.dumps({**described(finding, source), "cases": [case_of(it) for it in cases]}, indent=1) + "\n"


def counted(name: str, counts: dict[str, int]) -> list[str]:
    return [f"  by {name}", *(f"    {count:>8}  {key}" for key, count in counts.items())] if counts else []


def introduced(found: dict[str, Any]) -> list[str]:
    """Returns the lines of what was asked, of what sfq refuses, and of why the run ended early."""
    lines = [f"asked {found['asked']}, compared {found['compared']}"]
    if found["refused"]:
        lines[0] += f"; sfq refuses {', '.join(f'{count} by {code}' for code, count in found['refused'].items())}"
    if found["first_refused"]:
        lines.append(f"the first that it refuses is {found['first_refused']}")
    if found["ended_early"]:
        lines.append(f"ended early, by this: {found['ended_early']}; what follows is of the pairs before")
    return lines


def remarks(it: dict[str, Any]) -> list[str]:
    """Returns the lines of what is to be known of an engine's answers."""
    lines = [f"an answer is of {', '.join(PREDICATES)}"] if it["asked"] == OF_PREDICATES else []
    return [*lines, it["note"]] if it["note"] else lines


def said(it: dict[str, Any]) -> str:
    """Returns what an engine was asked of how many pairs, and how many of its answers differ."""
    return f"{it['asked']} of {number_of(it['pairs'], 'pair')}, differing: {it['differ']:,}"


def as_text(finding: Finding, source: str, cases: list[Small]) -> str:
    """Returns the report as text."""
    found = described(finding, source)
    lines = [f"pairs {source}", *introduced(found)]
    for it in found["engines"]:
        lines += ["", f"{it['engine']}: {it['version']}", f"  {said(it)}"]
        lines += [f"  {line}" for line in remarks(it)]
        for name, key in (("family", "families"), ("cell", "cells"), ("predicate", "predicates")):
            lines += counted(name, it[key])
    for number, small in enumerate(cases, 1):
        case = case_of(small)
        lines += ["", f"case {number}: {case['engine']}, {case['family']} {case['number']}: {case['kind']}"
                  + (f" in {', '.join(case['differs'])}" if case["differs"] else "")]
        lines += [f"  {case['first']}", f"  {case['second']}", f"  sfq    {case['sfq']}", f"  engine {case['answer']}"]
        lines += [f"  why    {it}" for it in case["why"]]
    return "\n".join(lines) + "\n"


STYLE = ("body{font:15px/1.5 sans-serif;max-width:60em;margin:2em auto;padding:0 1em;color:#1b1b1b}table{border-collapse:collapse}"
         "td,th{padding:.1em 1em .1em 0;text-align:left;vertical-align:top}td.n{text-align:right}code{word-break:break-all}"
         "svg{max-width:24em;height:auto;border:1px solid #ccc}section{border-top:1px solid #ccc;margin-top:2em}pre{white-space:pre-wrap}")


def table(head: str, counts: dict[str, int]) -> list[str]:
    rows = [f'<tr><td class="n">{count}</td><td>{escape(key)}</td></tr>' for key, count in counts.items()]
    return [f"<h3>By {head}</h3><table>", *rows, "</table>"] if rows else []


def as_html(finding: Finding, source: str, cases: list[Small]) -> str:
    """Returns the report as one HTML file without scripts."""
    found = described(finding, source)
    body = [f"<h1>sfq-audit</h1><p>pairs {escape(source)}</p>", *(f"<p>{escape(it)}</p>" for it in introduced(found))]
    for it in found["engines"]:
        body.append(f"<h2>{escape(it['engine'])}</h2><p>{escape(it['version'])}: {said(it)}</p>")
        body += [f"<p>{escape(line)}</p>" for line in remarks(it)]
        for name, key in (("family", "families"), ("cell", "cells"), ("predicate", "predicates")):
            body += table(name, it[key])
    for number, small in enumerate(cases, 1):
        case = case_of(small)
        body += [
            f"<section><h2>Case {number}: {escape(case['engine'])}, {escape(case['family'])} {case['number']}</h2>",
            f"<p>{escape(case['kind'])} {escape(', '.join(case['differs']))}</p>", case["svg"],
            f"<p><code>{escape(case['first'])}</code><br><code>{escape(case['second'])}</code></p>",
            f"<table><tr><td>sfq</td><td><code>{escape(case['sfq'])}</code></td></tr><tr><td>engine</td><td><code>{escape(case['answer'])}</code></td></tr></table>",
            f"<pre>{escape(chr(10).join(case['why']))}</pre></section>",
        ]
    return ('<!DOCTYPE html>\n<html lang="en"><head><meta charset="utf-8"><title>sfq-audit</title>'
            f"<style>{STYLE}</style></head>\n<body>\n" + "\n".join(body) + "\n</body></html>\n")


FORMATS = {"text": as_text, "json": as_json, "html": as_html}
