"""Ratios and tables. A result is what the repeated runs of one program on one text came to."""
import csv
from collections import namedtuple
from math import exp, log
from statistics import median

from families import SIZES
from programs import READER

# kind: the Kind of the text; size: 0, 1 or 2; jobs, clauses: of the text. seconds, first (None: no
# output), processor, peak: medians of the runs. ended: whether each run answered all jobs.
# counts: what the program told of its last run. answered: how many jobs have a verdict.
FIELDS = "kind size jobs clauses program seconds first processor peak ended counts answered"


class Result(namedtuple("Result", FIELDS)):
    @property
    def text(self):
        """What tells the text from the others."""
        return self.kind.family, self.kind.name, self.size


def combined(kind, size, text, program, runs):
    firsts = [run.first for run in runs if run.first is not None]
    return Result(kind, size, text.jobs, text.clauses, program,
                  seconds=median(run.seconds for run in runs),
                  first=median(firsts) if firsts else None,
                  processor=median(run.processor for run in runs),
                  peak=median(run.peak for run in runs), ended=all(run.ended for run in runs),
                  counts=runs[-1].counts, answered=len(runs[-1].verdicts))


class Results:
    """All results, asked for by text and program."""

    def __init__(self, results):
        self.all = results
        self.programs = list(dict.fromkeys(result.program for result in results))
        self.families = list(dict.fromkeys(result.kind.family for result in results))
        self._at = {(result.text, result.program): result for result in results}

    @property
    def peers(self):
        return [program for program in self.programs if program != "tarmo"]

    def of(self, program, family=None):
        return [result for result in self.all if result.program == program
                and family in (None, result.kind.family)]

    def pairs(self, peer, family=None):
        """Tarmo's result and the peer's on each text that both were run on."""
        return [(self._at[other.text, "tarmo"], other) for other in self.of(peer, family)]


def markdown(head, rows):
    lines = [head, ["---"] * len(head), *rows]
    return "\n".join(f"| {' | '.join(map(str, line))} |" for line in lines) + "\n"


def number(value):
    """Three digits or so."""
    if value >= 100:
        return f"{value:,.0f}"
    return f"{value:.1f}" if value >= 10 else f"{value:.2f}"


# Whether Tarmo and the peer were stopped, so that the ratio is a bound.
SIGNS = {(False, False): "", (True, False): "> ", (False, True): "< ", (True, True): "? "}


def mean_ratio(pairs, value):
    """The geometric mean of Tarmo's value by the peer's, with the sign of a bound."""
    if not pairs:
        return ""
    stopped = (any(not one.ended for one, _ in pairs), any(not other.ended for _, other in pairs))
    mean = exp(sum(log(value(one) / value(other)) for one, other in pairs) / len(pairs))
    return SIGNS[stopped] + number(mean)


def over_limit(results):
    count = sum(not result.ended for result in results)
    return count if count else ""


def ratio_table(results, value):
    """For each family, and for all texts, the geometric mean of the ratios to each peer."""
    peers = results.peers
    rows = [[family, len(results.of("tarmo", family)),
             *(mean_ratio(results.pairs(peer, family), value) for peer in peers)]
            for family in results.families]
    rows.append(["all", len(results.of("tarmo")),
                 *(mean_ratio(results.pairs(peer), value) for peer in peers)])
    return markdown(["Tarmo by", "texts", *peers], rows)


def limit_table(results):
    """For each family how many texts each program didn't end."""
    programs = results.programs
    rows = [[family, *(over_limit(results.of(program, family)) for program in programs)]
            for family in results.families]
    rows.append(["all", *(over_limit(results.of(program)) for program in programs)])
    return markdown(["Not ended", *programs], rows)


def first_block_table(results):
    """The median time to the first block beside the median time of the whole text."""
    rows = []
    for family in results.families:
        found = results.of("tarmo", family)
        firsts = [result.first for result in found if result.first is not None]
        ended = [result.seconds for result in found if result.ended]
        rows.append([family, f"{len(firsts)} of {len(found)}",
                     f"{median(firsts):.3f}" if firsts else "",
                     f"{median(ended):.3f}" if ended else ""])
    return markdown(["Tarmo", "with a block", "seconds to it", "to the end, where reached"], rows)


def count_table(results, count):
    """Thousands of conflicts or propagations, over the texts that all who tell them ended."""
    tellers = [program for program in results.programs if program != READER
               and any(result.counts for result in results.of(program))]
    rows = []
    for family in results.families:
        texts = [{result.text: result.counts.get(count, 0) for result in
                  results.of(program, family) if result.ended and result.counts}
                 for program in tellers]
        common = set.intersection(*map(set, texts)) if texts else set()
        sums = [sum(told[text] for text in common) / 1000 for told in texts]
        rows.append([family, len(common), *map(number, sums)])
    return markdown(["Thousands", "texts", *tellers], rows)


def all_tables(results):
    """Each table with its title, as text."""
    return {
        "Wall time, geometric mean of the ratios": ratio_table(results, lambda one: one.seconds),
        "Processor time, geometric mean of the ratios": ratio_table(results, lambda one: one.processor),
        "Peak memory, geometric mean of the ratios": ratio_table(results, lambda one: one.peak),
        "Texts that weren't ended within the limit": limit_table(results),
        "Seconds to the first block and to the end, medians": first_block_table(results),
        "Conflicts": count_table(results, "conflicts"),
        "Propagations": count_table(results, "propagations"),
    }


COLUMNS = ("family text size jobs clauses program seconds first processor peak_mib ended answered "
           "conflicts propagations").split()


def write_csv(path, results):
    with open(path, "w", newline="") as file:
        lines = csv.writer(file, lineterminator="\n")
        lines.writerow(COLUMNS)
        for result in results.all:
            first = "" if result.first is None else f"{result.first:.4f}"
            lines.writerow([result.kind.family, result.kind.name, SIZES[result.size],
                            result.jobs, result.clauses, result.program,
                            f"{result.seconds:.4f}", first,
                            f"{result.processor:.4f}", f"{result.peak:.1f}", int(result.ended),
                            result.answered, result.counts.get("conflicts", ""),
                            result.counts.get("propagations", "")])
