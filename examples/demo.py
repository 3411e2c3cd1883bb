"""Asks the program queries over a catalogue and shows the answers. `./demo` at the top of the repository calls it."""
import os
import shutil
import subprocess
import sys
import tempfile

import answers
import catalogue_help
import page
import quick_build

TOP = os.path.dirname(os.path.dirname(os.path.abspath(__file__)))
PROGRAM = os.path.join(TOP, "crates", "vdb_server", "out", "vdb_server")
USAGE = """usage:
  ./demo                                   asks some questions of two product lines in examples/
  ./demo FILE QUERY..                      asks queries over a catalogue, and writes; a table's name is a query
  ./demo --variant A,B FILE QUERY..        shows what the variant with these features sees; `none` has none
  ./demo --page OUT.html FILE QUERY        writes a page on which the features can be switched
  ./demo check FILE                        says whether a catalogue can be used, or what is wrong with it"""

EMAIL = "examples/email.vdb", "An e-mail client in many variants", [
    ("What is an account?", "account"),
    ("Which messages lie in which folder? A client without filters has no folders.",
     "select m.subject, f.title from message as m join folder as f on m.folder = f.id"),
    ("What was done to a message? Each feature leaves a trail of its own.", "trail"),
    ("A query that some variant can't answer is refused, and the variant is shown.",
     "select subject from message where folder = 1"),
    ("A choice guards it.", "select subject from message where choice [filters] (folder = 1, true)"),
    ("A message is put into another folder, in the clients that have folders: one write and one commit for all of them.",
     "update message set folder = 2 where id = 1 when filters"),
    ("Since then it is", "select id, folder from message where id = 1"),
]
PAYROLL = "examples/payroll.vdb", "A payroll over five releases, whose tables changed with each", [
    ("Who has which title? The tables were split and joined again; the answer is the same in every release.",
     "select emp_no, title from engineer union select emp_no, title from other_staff union select emp_no, title from staff"),
    ("Whose pay does a later release tell otherwise than an earlier one, and since when? One question over all releases"
     " at once: with a database for each release it would be five, and a comparison.",
     "choice [r5] (select emp_no, salary from staff,"
     " select s.emp_no as emp_no, j.salary as salary from staff as s join job as j on s.title = j.title)"),
]


def program():
    """The proved build, or else a quick one that proves nothing."""
    if os.access(PROGRAM, os.X_OK):
        return PROGRAM
    if not shutil.which("rt"):
        sys.exit("demo: crates/vdb_server/out/vdb_server isn't built, and the toolchain's `rt` isn't there to build it")
    return quick_build.program(TOP)


def existing(name):
    if not os.path.isfile(name):
        sys.exit(f"demo: there is no file {name}")
    return os.path.abspath(name)


def run(words):
    return subprocess.run([program(), *words], stdin=subprocess.DEVNULL, capture_output=True, check=False)


def text_of(name):
    with open(name, "rb") as file:
        return file.read().decode(errors="replace")


def refused(name, said):
    """Shows why a catalogue is refused."""
    line = said.decode(errors="replace").rstrip("\n")
    print("\n".join([line] + catalogue_help.explained(line, text_of(name))), file=sys.stderr)


def check(name):
    ran = run(["check", existing(name)])
    if ran.returncode:
        refused(name, ran.stderr)
    else:
        sys.stdout.write(ran.stdout.decode())
    return ran.returncode


def replayed(catalogue, queries):
    """What the program answers to a client that asks these queries: parameters, and an answer for each query."""
    with tempfile.TemporaryDirectory() as folder:
        stream = os.path.join(folder, "stream.bin")
        with open(stream, "wb") as out:
            out.write(answers.stream(query.rstrip().rstrip(";") + ";" for query in queries))
        ran = run(["replay", existing(catalogue), stream])
    if ran.returncode:
        refused(catalogue, ran.stderr)
        sys.exit(ran.returncode)
    return answers.read_reply(ran.stdout)


def show(title, lines):
    print(f"\n{title}\n")
    for line in lines:
        print(f"    {line}".rstrip())


def ask(catalogue, queries, variant=None):
    """Shows the answers to queries, whole or as a variant reads them."""
    parameters, answered = replayed(catalogue, queries)
    if variant is not None:
        known_variant(dict(parameters), variant)
    for query, answer in zip(queries, answered):
        whole = variant is None or answer.error
        show(query, answers.answer_lines(answer) if whole else answers.variant_lines(answer, variant))
    for query in queries[len(answered):]:
        show(query, ["not asked: the session had ended"])


def known_variant(parameters, variant):
    """Ends where the features aren't those of a variant."""
    names = [name for name in parameters["vdb_features"].split(",") if name]
    for name in variant:
        if name not in names:
            sys.exit(f"demo: {name} is none of the features {', '.join(names)}")
    if not answers.holds(parameters["vdb_model"], variant):
        sys.exit(f"demo: no variant has just these features: the model is {parameters['vdb_model']}")


def tour():
    for name, title, questions in EMAIL, PAYROLL:
        catalogue = os.path.join(TOP, name)
        parameters, answered = replayed(catalogue, [query for _, query in questions])
        print(f"\n== {title}: {name}")
        show("The session begins with", answers.parameter_lines(parameters))
        for (question, query), answer in zip(questions, answered):
            show(f"{question}\n  {query}", answers.answer_lines(answer))
    print("\nNow yours: ./demo check FILE, ./demo FILE 'QUERY', ./demo --variant A,B FILE 'QUERY'")


def main(words):
    match words:
        case []:
            tour()
        case ["check", name]:
            sys.exit(check(name))
        case ["--variant", features, catalogue, *queries] if queries:
            ask(catalogue, queries, set(features.split(",")) - {"none", ""})
        case ["--page", out, catalogue, query]:
            parameters, answered = replayed(catalogue, [query])
            page.write(out, catalogue, query, dict(parameters), answered[0])
            print(f"{out} is written: open it in a browser")
        case [catalogue, *queries] if queries and not catalogue.startswith("-"):
            ask(catalogue, queries)
        case _:
            sys.exit(USAGE)


main(sys.argv[1:])
