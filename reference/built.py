"""Runs of the built programs, compared with the reference."""

import subprocess
from pathlib import Path

from reference import program, salvage
from reference.alike import files_alike, walk_of_pairs
from reference.command import Fault
from reference.difference import Difference, demand_equal
from reference.inputs import damaged_file, drawn_file, file_to_salvage, fixed_damages, fixed_files
from reference.processor import command
from reference.replay import CLOSING_QUESTIONS, replay_of
from reference.script import SCRIPT_BYTES, UNKNOWN, Player, answer_kind, parse
from reference.walks import drawn_walk, every_length, spoilt_walk

LONGEST_RUN = 120  # seconds
NOT_WRITTEN = "the saved file could not be written\n"
SCRIPTS = Path(__file__).parent / "scripts"


class Built:
    """A built program: takes one input a run at standard input, prints its answer and ends with 0."""

    def __init__(self, path):
        self.command = command(path)

    def run(self, given, shown, output=subprocess.PIPE):
        """What it writes to standard output and to standard error; `shown` is the input as a text, for a run that goes
        wrong."""
        try:
            ways = {"stdout": output, "stderr": subprocess.PIPE}
            run = subprocess.run(self.command, input=given, timeout=LONGEST_RUN, **ways)
        except subprocess.TimeoutExpired:
            raise Difference("no end of the run", shown, after=f"{LONGEST_RUN} seconds")
        except OSError as fault:
            raise Fault(f"{str(self.command[-1])!r} cannot be run: {fault.strerror}") from None
        if run.returncode != 0:
            raise Difference("exit status", shown, built=run.returncode, errors=run.stderr)
        return run.stdout, run.stderr.decode("ascii", "backslashreplace")

    def output(self, given, shown):
        """What it prints."""
        return self.run(given, shown)[0].decode("ascii", "backslashreplace")


class BuiltProgram(Built):
    """The program `sitting`."""

    def compare_fixed(self, tally):
        """The files at the limits and at each reading of the file rules."""
        for file in fixed_files():
            self.compare(file, tally)

    def compare_drawn(self, random, tally):
        """One whole or damaged file."""
        self.compare(random.choice([drawn_file, damaged_file])(random), tally)

    def compare_exchanged(self, random, tally):
        """Request E13: of a file and of its like the built program prints the same, changed."""
        way, files = files_alike(random)
        printed, like = (self.compare(file, tally) for file in files)
        asked = way, *(file.hex(" ") for file in files)
        demand_equal("program, of a file and its like", asked, file=way.output(printed), like=like)
        tally["program: files and their likes, both built", printed_kind(printed)] += 1

    def compare(self, file, tally):
        """Gives what the built program printed."""
        expected, printed = program.output(file), self.output(file, file.hex(" "))
        demand_equal("program", file.hex(" "), reference=expected, built=printed)
        tally["program: files", printed_kind(expected)] += 1
        return printed


def printed_kind(printed):
    """What the program prints, for tallies: its refusal, or that it is a report."""
    return printed.strip() if printed.startswith("refused") else "report printed"


class BuiltSalvage(Built):
    """The program `salvaging`: the saved file at standard output, what was lost or refused at standard error."""

    def compare_fixed(self, tally):
        """Every cut and every spoilt byte of two files, the files at the limits, and long inputs."""
        for damaged in fixed_damages():
            self.compare(damaged, tally)
        self.compare_full_output(tally)

    def compare_full_output(self, tally):
        """Where the saved file cannot be written, no losses are told as if it were."""
        damaged = next(damaged for damaged in fixed_damages() if salvage.output(damaged)[0])
        with open("/dev/full", "wb") as full:
            line = self.run(damaged, salvage.shown(damaged), full)[1]
        demand_equal("output that takes nothing", salvage.shown(damaged), rule=NOT_WRITTEN, built=line)
        tally["salvage: files", "not written"] += 1

    def compare_drawn(self, random, tally):
        """One damaged file, or a whole one."""
        self.compare(file_to_salvage(random), tally)

    def compare(self, damaged, tally):
        shown = salvage.shown(damaged)
        saved, line = salvage.output(damaged)
        built_saved, built_line = self.run(damaged, shown)
        demand_equal("what was lost", shown, reference=line, built=built_line)
        demand_equal("saved file", shown, reference=saved.hex(" "), built=built_saved.hex(" "))
        refused = line.startswith("refused")
        tally["salvage: files", line.strip() if refused else salvage.losses_kind(map(int, line.split()))] += 1


class BuiltScripts(Built):
    """The player of scripts."""

    def compare_fixed(self, tally):
        """The scripts kept beside this program: document 01's examples, limits and refusals; every length."""
        for path in sorted(SCRIPTS.glob("*.script")):
            calls = parse(path.read_text())
            player = Player()
            self.compare([(step, player.play(step)) for step in calls], tally)
        for walk in every_length():
            self.compare(walk.steps, tally)

    def compare_drawn(self, random, tally):
        """A run of walks one after another, as many as a script may hold, each from its own making."""
        steps, length = [], 0
        walk = drawn_walk(random, unmade=True)
        while length + len(walk.text()) <= SCRIPT_BYTES:
            steps += walk.steps
            length += len(walk.text())
            walk = spoilt_walk(random) if random.random() < 0.2 else drawn_walk(random)
        self.compare(steps, tally)

    def compare_replay(self, random, tally):
        """Demand 3: a walk, and its accepted calls sitting by sitting on a new store."""
        walk = drawn_walk(random, remake=False)
        replay = replay_of(walk)
        closing = [(question, walk.player.play(question)) for question in CLOSING_QUESTIONS]
        if len(walk.text()) < SCRIPT_BYTES - 1000:
            self.compare(walk.steps + closing, tally)
            self.compare(replay + closing, tally)
            tally["scripts: walks and their replay sitting by sitting", ""] += 1

    def compare_exchanged(self, random, tally):
        """Request E13: sittings and their likes at desks beside each other, as many as a script may hold. Where the built answers
        are those of the reference, they are held to each other too."""
        steps, alike, length = [], [], 0
        walk, pairs = walk_of_pairs(random)
        while length + len(walk.text()) <= SCRIPT_BYTES:
            alike += [(way, len(steps) + one, len(steps) + other) for way, one, other in pairs]
            steps += walk.steps
            length += len(walk.text())
            walk, pairs = walk_of_pairs(random)
        answers = self.compare(steps, tally)
        for way, one, other in alike:
            asked = way, *(f"answer {place} (from 0), to the call {steps[place][0].line()}" for place in (one, other))
            demand_equal("script, of a desk and its like", asked, desk=way.answer(answers[one]), like=answers[other])
            tally[f"scripts: {steps[one][0].name} at a desk and its like at another, both built", answer_kind(answers[one])] += 1

    def compare(self, steps, tally):
        """Plays the steps' calls in one run and compares each answer. Gives what the built player answered."""
        text = "".join(step.line() + "\n" for step, _ in steps)
        answers = answers_of(self.output(text.encode(), text))
        demand_equal("number of answers", text, reference=len(steps), built=len(answers))
        for place, ((step, expected), given) in enumerate(zip(steps, answers)):
            if expected != [UNKNOWN]:
                what = f"answer {place} (from 0), to the call {step.line()}"
                demand_equal(what, text, reference="\n".join(expected), built="\n".join(given))
            tally[f"scripts: {step.name}", answer_kind(expected)] += 1
        tally["scripts: runs", ""] += 1
        return answers


def answers_of(output):
    """The printed lines, call by call: rows and `outside` belong to the report before them."""
    answers = []
    for line in output.splitlines():
        if answers and (line[:1].isdigit() or line.startswith("outside")):
            answers[-1].append(line)
        else:
            answers.append([line])
    return answers
