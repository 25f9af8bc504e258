#!/usr/bin/env python3
"""Tries the completions in bash, zsh and fish: the words before the cursor, and what each shell then offers.

    python3 completions/check.py [SUMMARY]

It works in a folder of its own with a folder `city` and the files `feed.pb` and `list.csv`. Where the program SUMMARY is there, what is offered of its options is what
it says of them itself.
"""
import os, pathlib, pty, re, select, shlex, subprocess, sys, tempfile, time

HERE = pathlib.Path(__file__).resolve().parent
FILES = ["city", "feed.pb", "list.csv"]
# What is typed behind the program's name, and what is offered.
COMMAND_CASES = [
    ("", ["alerts", "check", "encode", "follow", "merge", "predict", "show", "trial", "verify"]),
    ("ch", ["check"]),
    ("check --", ["--now", "--timetable"]),
    ("check --now 5 --", ["--timetable"]),
    ("check --now ", []),
    ("check --timetable ", ["city"]),
    ("check fe", ["feed.pb"]),
    ("check feed.pb --", []),
    ("check feed.pb li", ["list.csv"]),
    ("follow --", ["--list", "--timetable"]),
    ("follow --list l", ["list.csv"]),
    ("predict --", ["--now", "--timetable", "--zone-file", "--zone-rule"]),
    ("predict --zone-rule UTC0 --", ["--now", "--timetable"]),
    ("predict --zone-file fe", ["feed.pb"]),
    ("show --", []),
    ("show fe", ["feed.pb"]),
    ("encode li", ["list.csv"]),
    ("merge --", []),
    ("merge fe", ["feed.pb"]),
    ("merge feed.pb li", ["list.csv"]),
    ("trial ", []),
    ("verify --", []),
    ("verify li", ["list.csv"]),
    ("alerts --", ["--agency", "--now", "--route", "--stop", "--trip"]),
    ("alerts --stop S1 --", ["--now"]),
    ("alerts --now 5 --", ["--agency", "--route", "--stop", "--trip"]),
    ("alerts --route ", []),
    ("alerts --trip T1 fe", ["feed.pb"]),
    ("alerts --trip T1 feed.pb li", ["list.csv"]),
    ("alerts --trip T1 feed.pb --", []),
    ("wrong --", []),
]
SUMMARY_CASES = [
    ("--", ["--fail-on", "--files", "--help", "--ignore", "--ignore-file", "--json", "--list", "--version"]),
    ("--ig", ["--ignore", "--ignore-file"]),
    ("--fail-on ", ["error", "never", "warning"]),
    ("--fail-on w", ["warning"]),
    ("--ignore ", []),
    ("--ignore-file l", ["list.csv"]),
    ("--list l", ["list.csv"]),
    ("--files fe", ["feed.pb"]),
    ("--json fe", ["feed.pb"]),
    ("fe", ["feed.pb"]),
]
CASES = [("rt_command", *case) for case in COMMAND_CASES] + [("rt_summary", *case) for case in SUMMARY_CASES]


def in_bash(program, typed, folder):
    words = [program] + typed.split(" ")
    script = "source %s; COMP_WORDS=(%s); COMP_CWORD=%d; _%s; printf '%%s\\n' \"${COMPREPLY[@]}\"" % (
        shlex.quote(str(HERE / f"{program}.bash")), " ".join(map(shlex.quote, words)), len(words) - 1, program)
    return subprocess.run(["bash", "--norc", "-c", script], cwd=folder, capture_output=True, text=True).stdout.split("\n")


def in_fish(program, typed, folder):
    script = "source %s; complete -C %s" % (shlex.quote(str(HERE / f"{program}.fish")), shlex.quote(f"{program} {typed}"))
    shown = subprocess.run(["fish", "-N", "-c", script], cwd=folder, capture_output=True, text=True).stdout
    return [line.split("\t")[0].rstrip("/") for line in shown.split("\n")]


class Zsh:
    """A zsh of its own on a terminal, whose completion tells its matches to a file."""

    def __init__(self, folder):
        self.told = pathlib.Path(folder) / ".told"
        self.child, self.terminal = pty.fork()
        if self.child == 0:
            os.chdir(folder)
            os.execvpe("zsh", ["zsh", "-f", "-i"], {**os.environ, "TERM": "dumb", "PS1": "> "})
        setup = r"""unsetopt zle_bracketed_paste; fpath=(%s $fpath); autoload -Uz compinit; compinit -u -D; zstyle ':completion:*' list-prompt ''; zmodload zsh/complist
compadd() { local -a found words; [[ ${@[(I)-(O|A|D)]} -gt 0 ]] && { builtin compadd "$@"; return }; builtin compadd -O found "$@"; print -rl -- $found >> .told; builtin compadd "$@" }
told() { zle list-choices; print -- end >> .told; zle kill-whole-line }
zle -N told; bindkey '^B' told; print -- end >> .told
""" % shlex.quote(str(HERE))
        self.send(setup)

    def send(self, text):
        """What is told until the end, after these keys."""
        self.told.unlink(missing_ok=True)
        os.write(self.terminal, text.encode())
        deadline = time.time() + 20
        while time.time() < deadline:
            if select.select([self.terminal], [], [], .05)[0]:
                os.read(self.terminal, 65536)
            lines = self.told.read_text().split("\n") if self.told.exists() else []
            if "end" in lines:
                return lines[:lines.index("end")]
        sys.exit("zsh doesn't answer")

    def offered(self, program, typed):
        return [line.rstrip("/") for line in self.send(f"{program} {typed}\x02")]

    def close(self):
        os.write(self.terminal, b"exit\n")
        os.waitpid(self.child, 0)


def other_options(summary):
    """The options that a program itself tells, where they aren't those of the cases."""
    told = subprocess.run([summary, "--help"], capture_output=True, text=True).stdout
    options = sorted(set(re.findall(r"(?m)^ .*?(--[a-z-]+)", told)))
    return [] if options == SUMMARY_CASES[0][1] else options


def main():
    wrong = 0
    if len(sys.argv) > 1 and os.access(sys.argv[1], os.X_OK) and other_options(sys.argv[1]):
        wrong += 1
        print("  %s has the options %s" % (sys.argv[1], other_options(sys.argv[1])))
    with tempfile.TemporaryDirectory() as folder:
        for name in FILES:
            path = pathlib.Path(folder) / name
            path.touch() if "." in name else path.mkdir()
        zsh = Zsh(folder)
        for program, typed, wanted in CASES:
            shells = [("bash", in_bash(program, typed, folder)), ("zsh", zsh.offered(program, typed)), ("fish", in_fish(program, typed, folder))]
            for shell, offered in shells:
                # An option's value and a file may also be found among the folder's names; only what is asked for may come.
                offered = sorted({word for word in offered if word})
                if offered != sorted(wanted):
                    wrong += 1
                    print("  %s: `%s %s` offers %s, not %s" % (shell, program, typed, offered, sorted(wanted)))
        zsh.close()
    print("completions: %s" % ("%d faults" % wrong if wrong else "%d cases in bash, zsh and fish" % len(CASES)))
    sys.exit(1 if wrong else 0)


if __name__ == "__main__":
    main()
