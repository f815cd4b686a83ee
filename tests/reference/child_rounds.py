"""Rounds in which a run with children is killed up to five times: what is started in each of its sessions, beside the attempts
that its restart file has before and behind it.

Only the program is killed, and not the child that it may have then, which goes on and leaves its results late. A child prints
to the standard error of the program, a pipe: that pipe is read up to its end, which comes when all children have ended.
"""
from child_studies import LAST, STARTS
from children import names_of
from kill_rounds import KILLED, KillRounds, Round, read, write
from restart import RestartRefused, judge


def starts_in(folder):
    """The lines of all starts so far."""
    return (read(folder, STARTS) or b"").splitlines()


class ChildRound(Round):
    """A round over a study with children."""

    kind = "child"

    def __init__(self, rounds, number):
        super().__init__(rounds, number)
        self.extra = 0

    def entries(self):
        """Those of the restart file, where there is one of this study's."""
        content = read(self.folder, self.name)
        if content in (None, self.older):
            return []
        try:
            return judge(content, self.shape)[0].entries
        except RestartRefused:
            return []

    def make_ready(self, entries):
        """Puts the script's count to that of the restart file, and lays stale files where the next attempt has its own."""
        write(self.folder, LAST, self.study.last(entries))
        due = self.study.entries[len(entries) :]
        if due and self.random.random() < 0.5:
            self.counts["with stale files"] += 1
            names = names_of(self.study.parts.interface, self.study.numbers[due[0].point])
            for name in map(bytes.decode, names):
                write(self.folder, name, b"77 stale\n" * len(self.study.parts.responses.labels))

    def watched(self, act, words):
        """Has the program act, and compares what it started with the attempts that its restart file has more then."""
        before, seen = self.entries(), len(starts_in(self.folder))
        self.make_ready(before)
        ran = act(words)
        made, started = self.entries()[len(before) :], starts_in(self.folder)[seen:]
        wanted, extra = [*map(self.study.line, made)], started[len(made) :]
        following = self.study.entries[len(before) + len(made) :][: len(extra)]
        if started[: len(made)] != wanted:
            self.wrong.append(f"starts {started}, and the restart file has {wanted} more")
        elif extra and (ran.status != KILLED or len(extra) > 1 or extra != [*map(self.study.line, following)]):
            self.wrong.append(f"status {ran.status}, and starts {extra} beyond the {len(made)} that the restart file has more")
        self.extra += len(extra)
        return ran

    def killed(self, words):
        return self.watched(super().killed, words)

    def ended(self, words):
        return self.watched(super().ended, words)

    def go(self):
        super().go()
        starts = len(starts_in(self.folder))
        if starts != len(self.study.entries) + self.extra:
            self.wrong.append(f"{starts} starts for {len(self.study.entries)} attempts, and {self.extra} extra ones were seen")
        self.counts["starts"] += starts
        self.counts["extra starts"] += self.extra


class ChildRounds(KillRounds):
    """All rounds of a seed over studies with children."""

    round = ChildRound

    def more_faults(self, study, folder):
        lines = [*map(study.line, study.entries)]
        # Where commands are traced two of its runs begin anew, and the one between them finds all attempts made.
        wanted = lines * (2 if self.traces else 1)
        if starts_in(folder) != wanted:
            yield f"starts {starts_in(folder)}, and not {wanted}"
