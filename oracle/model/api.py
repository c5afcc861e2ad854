"""Interface of the language part of the model (read by runner.py).

VALUES ARE PLAIN PYTHON OBJECTS:
  None, True/False, int, str     -> Python's own None, bool, int, str
  list   -> PList   .items  (python list, mutable)
  tuple  -> PTuple  .items  (python tuple)
  dict   -> PDict   .pairs() -> list of (key, value); .get(keyvalue)
  range  -> PRange  .r (python range)
  function -> Function  .name .path .line (line of its `def`) .params [(name, has_default)]
                        .yields (bool) .marks (list of Mark, nearest decorator first)
                        .cls (Class or None: the class in whose body it was defined)
                        .hookimpl (HookImpl or None: .wrapper .tryfirst .trylast)
  method -> Method  .func .self
  builtin -> Builtin .name
  type   -> Class   .name .path .line (of `class`; path None for built-ins) .names (dict name->value,
                    ordered by first binding) .marks (nearest decorator first) .is_exception (bool) .base
  module -> Module  .path .names (dict, ordered, `__name__` first)
  fixture -> FixtureDef .function .scope (text) .params (None or python list of values: raw values or Param)
                        .autouse (bool) .ids (None or python list of texts) .name (text, the given name= or None)
  mark   -> Mark   .name .args (python list) .kwargs (dict, ordered)  .called (bool)
             For mark.parametrize: .args[0] names (str, PList or PTuple of str), .args[1] rows (PList/PTuple),
             .kwargs.get('ids') (PList/PTuple of str or None).
  param  -> Param  .values (python list) .id (str or None) .marks (python list of Mark)
  request -> Request .name .scope .param .has_param .finalizers (list) .closed
  raises -> RaisesObj, info -> Info (.value), item -> Item (.name .nodeid)
  instances -> Instance .cls .names (dict)   (exceptions: .names['args'] is a PTuple; .trace set at first raise)
  monkeypatch -> Monkeypatch, capsys -> Capsys (by the feature builtin_fixtures)
Use World.kind(v) for the kind's name; isinstance(v, values.Function) etc. is fine too.

FixtureDef.function is a Function; its name is FixtureDef.name or FixtureDef.function.name.

class World:
    World(features)
    add_source(path, data: bytes, rewritten: bool)
    has_source(path) -> bool ; paths() -> list of paths
    fault(path) -> None | SourceFault       (SourceFault has kind, line, column, text = the SyntaxError text)
    line(path, n) -> str | None             (line without its line end)
    run_module(path, budget) -> Ended
    names(path) -> list[(name, value)]      (in order of first binding, `__name__` first)
    call(f, args, budget) -> Ended          (f: any value; a function with `yield` -> TypeError at its def)
    begin(f, args, budget) -> Begun ; resume(frozen, sent, budget) -> Begun ; abandon(frozen)
    take_printed() -> str
    make_text(s) make_list(values) make_exception(class_name, text) make_request(name|None, scope, param, has_param)
    make_item(name, nodeid) make_instance(cls)
    make_monkeypatch() make_capsys() undo_patch(v)      (by the feature builtin_fixtures)
    close_request(v) ; take_finalizer(v) -> (True, f) or None     (latest first)
    exc_class_name(v) -> str ; is_a(v, cls_or_tuple) -> bool (cls: Class or PTuple of Class)
    message(exc, most=65536) -> Shown(text, cut, deep) ; repr(v, most=65536) -> Shown ; truth(v) ; same_object(a, b)
    exc_class(name) -> Class                (built-in exception class by name, also Skipped, Failed, StepLimit)
    kind(v) -> str
A StepLimit exception for an Exhausted activity: make_exception('StepLimit', f'step limit of {N} reached').
"""
from __future__ import annotations
import sys
from dataclasses import dataclass, field
from typing import Any, List, Tuple, Optional

# The model recurses in plain Python (3.11: Python-to-Python calls take no C stack).
sys.setrecursionlimit(10 ** 7)

Trace = list   # of (file, line, name), outermost first


@dataclass
class Features:
    package_scope: bool = False
    fstrings: bool = False           # and comprehensions
    builtin_fixtures: bool = False   # monkeypatch, capsys


@dataclass
class SourceFault(Exception):
    kind: str            # Unexpected Unsupported Context Nesting Tab Dedent Character Unterminated Unclosed
                         # Mismatch Escape NumberForm NumberRange NotNfkc NotUtf8 FString
    line: int
    column: int          # 0 for NotUtf8
    @property
    def text(self):
        return FAULT_TEXT[self.kind]
    def __str__(self):
        return f'{self.kind}@{self.line}:{self.column}'


FAULT_TEXT = {
    'Unexpected': 'invalid syntax', 'Unsupported': 'unsupported syntax',
    'Context': 'statement not allowed here', 'Nesting': 'nesting too deep',
    'Tab': 'tab in indentation', 'Dedent': 'unindent matches no open block',
    'Character': 'invalid character', 'Unterminated': 'text literal not closed',
    'Unclosed': 'bracket not closed', 'Mismatch': 'unmatched closing bracket',
    'Escape': 'invalid escape', 'NumberForm': 'invalid number',
    'NumberRange': 'number out of range', 'NotNfkc': 'name is not in normal form',
    'NotUtf8': 'source is not UTF-8', 'FString': 'invalid f-string',
}


@dataclass
class Val:
    """Outcome or sent value."""
    value: Any


@dataclass
class Raised:
    """Outcome, or `sent` of resume (then thrown at the yield)."""
    exc: Any
    trace: list


@dataclass
class Exhausted:
    trace: list


@dataclass
class Yielded:
    value: Any
    frozen: Any


@dataclass
class Ended:
    out: Any      # Val | Raised | Exhausted
    steps: int


@dataclass
class Begun:
    out: Any      # Yielded | Val | Raised | Exhausted
    steps: int


@dataclass
class Shown:
    text: str
    cut: bool
    deep: bool
