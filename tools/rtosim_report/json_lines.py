"""Rows as JSON: an object a row, a line each. The schema is in docs/REPORTS.md."""
import functools
import json
from typing import Any, Dict, Optional

from .output import Text
from .reading import Run
from .report import Head, Kind, Verdict, event_of
from .source_map import SourceMap


def write_head(output: Text, run: Run, source_map: Optional[SourceMap] = None) -> None:
    """The object of a run whose head alone is known: it has no events."""
    output.write_bytes(head_fields(run.head, source_map).encode() + b"}\n")


def write_run(output: Text, run: Run, source_map: Optional[SourceMap] = None) -> None:
    """The run's object. Events are put together from texts that are kept, as most of them come again and again."""
    fields = fields_of
    events = b"},{".join([b'"step":%b,"tick":%b,%b' % (step, tick, fields(what, source_map)) for step, tick, what in run.checked_lines()])
    output.write_bytes(b"%b,\"events\":[%b]}\n" % (head_fields(run.head, source_map).encode(), b"{%b}" % events if events else b""))


def head_fields(head: Head, source_map: Optional[SourceMap] = None) -> str:
    if head.point is None:
        point, reached = "null", "null"
    else:
        injections = ",".join(f'{{"step":{it.step},"handler":"{it.handler}"}}' for it in head.point)
        point = injections if head.point.is_single else f"[{injections}]"
        reached = "true" if head.is_reached else "false"
    return (
        f'{{"row":{"null" if head.row is None else head.row},"point":{point},"reached":{reached},'
        f'"verdict":{verdict_fields(head.verdict, source_map)},"steps":{head.steps},"ticks":{head.ticks}'
    )


@functools.lru_cache(maxsize=1 << 12)
def verdict_fields(verdict: Verdict, source_map: Optional[SourceMap] = None) -> str:
    fields: Dict[str, Any] = {"kind": verdict.kind}
    if verdict.task is not None:
        fields.update(zip(("task", "op", "code"), (verdict.task, *verdict.numbers)))
        add_source(fields, source_map, verdict.task, verdict.numbers[0])
    return json.dumps(fields, separators=(",", ":"))


@functools.lru_cache(maxsize=1 << 16)
def fields_of(what: bytes, source_map: Optional[SourceMap] = None) -> bytes:
    """The fields of an event but its step and its tick."""
    event = event_of((b"0", b"0", what))
    fields: Dict[str, Any] = {"event": event.kind.value}
    if event.kind is Kind.RUN:
        fields["task"] = None if event.name == "-" else event.name
    elif event.kind is Kind.MARK:
        fields.update(name=event.name, number=event.answer)
    else:
        who = "task" if event.kind is Kind.CALL else "handler"
        fields.update({who: event.name, "op": event.op, "word": event.word, "answer": event.answer})
        add_source(fields, source_map, event.name, event.op, event.word)
    return json.dumps(fields, separators=(",", ":"))[1:-1].encode()


def add_source(fields: Dict[str, Any], source_map: Optional[SourceMap], name: str, index: Optional[int], word: Optional[str] = None) -> None:
    """Adds the place of an op's line of C, if that is known."""
    found = source_map.line(name, index, word) if source_map else None
    if found is not None:
        fields["source"] = found.place
