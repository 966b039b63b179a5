"""The command line of bin/ask: what is asked, and how the answers are printed."""

import argparse
import contextlib
import json
import os
import pathlib
import re
import shutil
import signal
import sys
import tempfile

from . import asking, certificates, curves, drn, facts, program, properties, shown
from .asking import Refused, shown_path
from .properties import Unsupported

DONE, FALSE, WORDS, MODEL, CANNOT_WRITE, BROKEN_OFF = 0, 1, 2, 3, 7, 130
DESCRIPTION = """Answers properties of a Markov decision process, or of a chain, as PRISM writes them: P, R, S and LRA with F, G, U and C, over labels.
It proves nothing itself: the program of this repository answers, a second one checks its certificate, and each line says which ones.
Without a property it prints facts of the model. docs/ask.md has the grammar and examples."""
EPILOG = """for example:  bin/ask examples/machine.drn 'R{"cost"}min=? [ F "overhauled" ]'
              bin/ask examples/machine.drn 'Pmax<=0.5 [ !"overhauled" U<=3 "broken" ]' --states
status: 0 answered, or true; 1 false; 5 not decided; else as bin/mdp (docs/answers.md); 130 broken off"""


def parser():
    found = argparse.ArgumentParser(prog="bin/ask", description=DESCRIPTION, epilog=EPILOG, formatter_class=argparse.RawDescriptionHelpFormatter)
    add = found.add_argument
    add("model", metavar="MODEL", help="a model in DRN")
    add("properties", metavar="PROPERTY", nargs="*", help='as Pmax=? [ !"crash" U "goal" ]')
    add("--properties", dest="file", metavar="FILE", help="a file of properties, as PRISM's .props: several, with names, constants and comments")
    add("--const", metavar="NAME=VALUE", action="append", default=[], help="the value of a constant; k=1:100 asks for each of these numbers of steps")
    add("--digits", type=int, default=9, metavar="N", help="how near bounds come, 1 to 30 (9)")
    add("--relative", type=int, default=0, metavar="N", help="so many digits of the value are to be certain, as for rare events")
    add("--seconds", type=float, default=60, metavar="N", help="how long the exact answer may take before bounds are asked for (60)")
    add("--exact", action="store_true", help="the exact answer or none")
    add("--bounds", action="store_true", help="bounds alone")
    add("--rows", choices=["exact", "scaled"], default="", help="the rule for rows; without it exact, and scaled where rows don't add to 1")
    add("--states", action="store_true", help="a table of all states")
    add("--where", metavar="FORMULA", help='a table of the states where this holds, as "goal"')
    add("--json", action="store_true", help="JSON, with exact values as text")
    add("--csv", action="store_true", help="CSV, with exact values")
    add("--certificate", metavar="FILE", help="keeps the certificate, or the table of a deadline, in this file")
    add("--policy", metavar="FILE", help="writes the policy to this file")
    add("--keep", metavar="FOLDER", help="where certificates and copies of the model are kept (out/ask)")
    add("--plot", metavar="FILE", help="draws an experiment as svg, png or pdf, by matplotlib")
    add("--solver", metavar="PROGRAM", default="", help="a program that takes the words of bin/mdp, in its place")
    add("--checker", metavar="PROGRAM", default="", help="a program that takes the words of bin/check, in its place")
    return found


class Ends(Exception):
    """Ends with a status, after a message on standard error."""

    def __init__(self, status, *lines):
        super().__init__(*lines)
        self.status, self.lines = status, lines


def options_of(words):
    """What bin/mdp would say of digits is said here, and what belongs to no other word."""
    if not 1 <= words.digits <= asking.MOST_DIGITS or not 0 <= words.relative <= asking.MOST_DIGITS:
        raise Ends(WORDS, "bin/ask: the digits are a whole number from 1 to 30")
    if words.exact and words.bounds or words.json and words.csv:
        raise Ends(WORDS, "bin/ask: of --exact and --bounds, and of --json and --csv, one is taken")
    ways = ("exact",) * (not words.bounds) + ("bounds",) * (not words.exact)
    keep = pathlib.Path(words.keep) if words.keep else folder_to_keep()
    return asking.Options(words.rows, words.digits, words.relative, words.seconds, ways, keep, words.states or bool(words.where))


def folder_to_keep():
    """out/ask of the repository, or a folder of its own where nothing can be written there."""
    usual = program.TOP / "out" / "ask"
    with contextlib.suppress(OSError):
        usual.mkdir(parents=True, exist_ok=True)
        if os.access(usual, os.W_OK):
            return usual
    return pathlib.Path(tempfile.mkdtemp(prefix="mdp-ask-"))


def parsed(text, constants):
    """The properties of a text; where it can't be taken, the place is shown."""
    try:
        return properties.parse(text, constants)
    except Unsupported as unsupported:
        raise Ends(WORDS, f"bin/ask: {unsupported.why}", properties.message_of(text, unsupported)) from None


def properties_of(words):
    constants = {}
    for text in words.const:
        try:
            name, value = properties.constant_of(text)
        except Unsupported as unsupported:
            raise Ends(WORDS, f"bin/ask: --const {text[:100]}: {unsupported.why}") from None
        constants[name] = value
    texts = list(words.properties)
    if words.file:
        try:
            texts.append(pathlib.Path(words.file).read_bytes().decode("utf-8", "surrogateescape"))
        except OSError as error:
            raise Ends(6, f"bin/ask: {words.file}: {error.strerror}") from None
    found = [asked for text in texts for asked in parsed(text, constants)]
    if texts and not found:
        raise Ends(WORDS, "bin/ask: no property is given")
    return found


def read_model(path, words, has_rows):
    """The model; where it can't be followed, what bin/mdp says of it."""
    try:
        return drn.read(path, has_rows=has_rows)
    except drn.Unclear as unclear:
        with tempfile.TemporaryDirectory() as folder, contextlib.suppress(program.Unbuilt):
            ended = program.run(program.solver(words.solver), ["solve", path, words.rows or "exact", "max", "reach", "init"], pathlib.Path(folder) / "said")
            if re.match("model line|read-fault|long ", ended.first):
                raise Ends(ended.status, f"bin/ask: {ended.first}", *filter(None, [ended.errors.strip()])) from None
        raise Ends(MODEL, f"bin/ask: {unclear}") from None


# ---- what is printed


def value_text(result):
    """What a property comes to, in words."""
    value = "" if result.low is None else shown.text_of(result.low, result.high)
    if result.is_range:
        value = f"from {shown.exact_text(result.low)} to {shown.exact_text(result.high)}"
    if result.count is not None:
        return str(result.count[0]) if result.count[0] == result.count[1] else f"from {result.count[0]} to {result.count[1]}"
    if result.least is not None:
        return "no number of steps" if result.truth is False else f"{result.least} step{'s' * (result.least != 1)}, value {value}"
    if result.curve:
        return f"{len(result.curve)} numbers of steps"
    if not result.is_bound:
        return value
    word = {True: "true", False: "false", None: "not decided"}[result.truth]
    return f"{word}, the value is {value}" if value else word


def evidence_text(one):
    """Who vouches for a number."""
    written = f"{one.command} of {one.solver.name} ({one.solver.vouches})"
    if one.checker:
        return f"certificate {shown_path(one.file)}: {one.verdict} by {one.checker.name} ({one.checker.vouches}); from {written}"
    behind = "whose proof stands behind it" if one.solver.is_proved else "so tests alone stand behind it"
    return f"no certificate, as for each deadline: from {written}, {behind}; its text is {shown_path(one.file)}"


def line_of(result):
    """One line: the property, what it comes to, and who vouches for it."""
    name = f'"{result.asked.name}": ' if result.asked.name else ""
    behind = "; ".join([*map(evidence_text, result.evidence), *result.notes])
    text = result.asked.words()
    return f"{name}{text if len(text) <= 300 else text[:300] + '..'}: {value_text(result)}{f'  [{behind}]' if behind else ''}"


def state_rows(session, result, bits):
    """A table's head and its rows: number, name, labels, value or lower and upper, the policy's action."""
    answer = result.answer
    is_exact = answer.is_exact
    head = ["state", "name", "labels", *(["value", "decimal"] if is_exact else ["lower", "upper"]), "action"]
    return head, [
        [str(s), session.model.states[s].name, " ".join(session.model.states[s].labels), *shown.cells(answer.lower[s], answer.upper[s], is_exact), action(session, answer, s)]
        for s in asking.states_of(bits)
    ]


def action(session, answer, s):
    """The policy's choice at a state, with its name where it has one."""
    if not answer.choices:
        return ""
    choice = answer.choices[s]
    name = session.model.states[s].choices[choice].name
    return f"{choice} {name}".strip() if name != str(choice) else name


def where_bits(session, words):
    """The states of a table."""
    if not words.where:
        return session.labels.all
    try:
        reader = properties.Parser(words.where)
        formula = reader.formula()
        if reader.now.kind != "end":
            reader.refuse("the formula ends before this")
        session.source = words.where
        return session.labels.states(formula)
    except Unsupported as unsupported:
        raise Ends(WORDS, f"bin/ask: --where: {unsupported.why}", properties.message_of(words.where, unsupported)) from None


def json_of(session, words, result):
    """What a property comes to, with exact values as text."""
    found = {"property": result.asked.words(), "name": result.asked.name or None}
    if result.low is not None:
        found |= {"lower": shown.exact(result.low), "upper": shown.exact(result.high)}
    if result.is_bound:
        found["holds"] = result.truth
    if result.count is not None:
        found["count"] = list(result.count)
    if result.least is not None:
        found["steps"] = None if result.truth is False else result.least
    if result.curve:
        found["curve"] = [{"steps": k, "lower": shown.exact(low), "upper": shown.exact(high)} for k, low, high in result.curve]
    found["evidence"] = [json_evidence(one) for one in result.evidence]
    found["notes"] = result.notes
    if result.answer and session.options.lists_states:
        found["states"] = [json_state(session, result.answer, s) for s in asking.states_of(where_bits(session, words))]
    return found


def json_evidence(one):
    return {
        "command": one.command,
        "file": str(one.file),
        "model": str(one.model),
        "rows": one.rows,
        "solver": one.solver.name,
        "solver_is_proved": one.solver.is_proved,
        "checker": one.checker.name if one.checker else None,
        "checker_is_proved": one.checker.is_proved if one.checker else None,
        "verdict": one.verdict or None,
    }


def json_state(session, answer, s):
    state = session.model.states[s]
    found = {"state": s, "name": state.name or None, "labels": state.labels, "lower": shown.exact(answer.lower[s]), "upper": shown.exact(answer.upper[s])}
    return found | ({"choice": answer.choices[s], "action": state.choices[answer.choices[s]].name} if answer.choices else {})


def csv_of(session, words, results):
    """A line for each property; with --states one for each of its states; of an experiment one for each number of steps."""
    rows = []
    for result in results:
        text = result.asked.name or result.asked.words()
        if result.curve:
            rows += [[text, str(k), shown.exact(low), shown.exact(high)] for k, low, high in result.curve]
        elif result.answer and session.options.lists_states:
            answer = result.answer
            rows += [[text, str(s), shown.exact(answer.lower[s]), shown.exact(answer.upper[s])] for s in asking.states_of(where_bits(session, words))]
        else:
            value = ["", ""] if result.low is None else [shown.exact(result.low), shown.exact(result.high)]
            rows.append([text, csv_place(result), *value])
    at = "steps" if any(result.curve for result in results) else "state" if session.options.lists_states else "holds"
    return shown.csv_text(["property", at, "lower", "upper"], rows)


def csv_place(result):
    if result.count is not None:
        return "-".join(map(str, sorted(set(result.count))))
    if result.least is not None:
        return "" if result.truth is False else str(result.least)
    return "" if result.truth is None else str(result.truth).lower()


def tables_of(session, words, result):
    """The tables behind the line of a property."""
    if result.curve:
        yield from shown.table(["steps", "lower", "upper"], [[str(k), *shown.cells(low, high, False)] for k, low, high in result.curve])
    if session.options.lists_states and result.answer:
        yield from shown.table(*state_rows(session, result, where_bits(session, words)))


def write_files(words, results):
    """The files that --certificate, --policy and --plot name."""
    if words.certificate:
        if not results[0].evidence:
            raise Ends(WORDS, "bin/ask: nothing was computed for this property, so there is no certificate")
        shutil.copyfile(results[0].evidence[-1].file, words.certificate)
    if words.policy:
        answer = results[0].answer
        if not answer or not answer.choices:
            raise Ends(WORDS, "bin/ask: the answer has no policy without a deadline; of a deadline --certificate FILE keeps the table of choices")
        pathlib.Path(words.policy).write_text(certificates.policy_of(answer.choices))
    if words.plot:
        curves.plot(words.plot, results[0])


def status_of(results):
    if any(result.truth is False for result in results):
        return FALSE
    return asking.UNDECIDED if any(result.is_bound and result.truth is None for result in results) else DONE


# ---- the run


def answered(session, asked):
    """What a property comes to; what can't be asked ends with the place in its text."""
    try:
        return asking.of_property(session, asked)
    except Unsupported as unsupported:
        raise Ends(WORDS, f"bin/ask: {unsupported.why}", properties.message_of(asked.source, unsupported)) from None
    except Refused as refused:
        raise Ends(refused.status, f"bin/ask: {asked.words()[:300]}: {refused.text}", *filter(None, [refused.more.strip()])) from None
    except drn.Unclear as unclear:
        raise Ends(70, f"bin/ask: {unclear}") from None


def print_facts(model, words):
    pairs = facts.facts(model)
    if words.json:
        print(json.dumps({"model": words.model, "facts": dict(pairs)}, indent=1))
    elif words.csv:
        sys.stdout.write(shown.csv_text(["fact", "value"], pairs))
    else:
        print(*shown.table(["fact", "value"], pairs), sep="\n")


def session_of(words, model, options):
    """The model with the programs that are to answer. What has to be compiled for them is compiled first."""
    try:
        solver, checker = program.solver(words.solver), program.checker(words.checker)
        program.prepare(solver)
        program.prepare(checker)
    except program.Unbuilt as unbuilt:
        raise Ends(70, f"bin/ask: {unbuilt}") from None
    return asking.Session(words.model, model, options, solver, checker)


def print_answers(session, words, found):
    """Prints what each property comes to, and gives the status."""
    results = []
    for asked in found:
        results.append(answered(session, asked))
        if not words.json and not words.csv:
            print(line_of(results[-1]), *tables_of(session, words, results[-1]), sep="\n", flush=True)
    if words.json:
        print(json.dumps({"model": words.model, "answers": [json_of(session, words, result) for result in results]}, indent=1))
    if words.csv:
        sys.stdout.write(csv_of(session, words, results))
    write_files(words, results)
    return status_of(results)


def run(words):
    """Answers what is asked, and gives the status."""
    options, found = options_of(words), properties_of(words)
    model = read_model(words.model, words, not found)
    if not found:
        print_facts(model, words)
        return DONE
    if len(found) != 1 and (words.certificate or words.policy or words.plot):
        raise Ends(WORDS, "bin/ask: --certificate, --policy and --plot belong to one property")
    if words.plot:
        curves.ready(words.plot)
    session = session_of(words, model, options)
    try:
        where_bits(session, words)
        return print_answers(session, words, found)
    finally:
        session.close()


def main(arguments):
    """Runs, and ends with the status. A break by the user ends what was started."""
    sys.stdout.reconfigure(encoding="utf-8", errors="surrogateescape")
    signal.signal(signal.SIGTERM, signal.default_int_handler)
    try:
        status = run(parser().parse_args(arguments))
        sys.stdout.flush()
    except Ends as ends:
        with contextlib.suppress(OSError):
            sys.stdout.flush()
        print(*ends.lines, sep="\n", file=sys.stderr)
        status = ends.status
    except curves.CannotPlot as why:
        print(f"bin/ask: {why}", file=sys.stderr)
        status = WORDS
    except KeyboardInterrupt:
        print("\nbin/ask: broken off", file=sys.stderr)
        status = BROKEN_OFF
    except OSError as error:
        print(f"bin/ask: {error.filename or 'standard output'}: {error.strerror}", file=sys.stderr)
        status = CANNOT_WRITE
    except MemoryError:
        print("bin/ask: memory", file=sys.stderr)
        status = 8
    with contextlib.suppress(OSError):
        sys.stderr.flush()
    os._exit(status)
