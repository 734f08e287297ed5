#!/usr/bin/env python3
"""try_completion.py: whether bash and, where it is there, zsh complete what they should by once.bash and _once.

Each case has the words of a line, the last of them unfinished, and what it is completed with, in a folder of some
files. Prints a line for each that fails, and last how many passed.
"""
import os
import re
import shutil
import subprocess
import sys
import tempfile

HERE = os.path.dirname(os.path.abspath(__file__))
FILES = ["network.json", "traffic.json", "certificate.txt", "run one.txt", "capture.pcap", "below/other.json"]
EVERYTHING = ["below", "capture.pcap", "certificate.txt", "network.json", "run one.txt", "traffic.json"]
CASES = [
    (["che"], ["check"]),
    (["c"], ["check", "collect", "confirm"]),
    (["help", "con"], ["confirm"]),
    (["audit", "--lim"], ["--limit"]),
    (["run", "--li"], ["--links"]),
    (["check", "--e"], ["--explain"]),
    (["check", "--f"], ["--format"]),
    (["check", "--format", ""], ["json"]),
    (["lint", "--format", "json", "net"], ["network.json"]),
    (["collect", "--p"], ["--progress"]),
    (["check", "--p"], []),
    (["check", ""], ["below", "network.json", "traffic.json"]),
    (["check", "network.json", "t"], ["traffic.json"]),
    (["check", "network.json", "traffic.json", "cert"], ["certificate.txt"]),
    (["run", "network.json", "traffic.json", "c"], ["capture.pcap"]),
    (["audit", "--limit", "5", "network.json", "tr"], ["traffic.json"]),
    (["audit", "--limit", ""], []),
    (["lint", "below/"], ["below/other.json"]),
    (["collect", "network.json", "cap"], ["capture.pcap"]),
    (["run", "--links", "cert"], ["certificate.txt"]),
    (["check", "network.json", "traffic.json", "certificate.txt", ""], []),
]


def bash(words, folder):
    text = 'source "$0"; COMP_WORDS=(once "$@"); COMP_CWORD=$#; _once; printf "%s\\n" "${COMPREPLY[@]}"'
    run = subprocess.run(["bash", "--norc", "-c", text, HERE + "/once.bash", *words], cwd=folder, capture_output=True, text=True)
    return sorted(line for line in run.stdout.split("\n") if line), run.stderr


# What zsh adds as matches is printed by `compadd`, which is found before the one of zsh: folders on the way to a file too,
# and options where no file is left to name. Both are left out.
ZSH = r"""
zmodload zsh/zpty
zpty -b shell zsh -f -i
send() { zpty -w shell "$1"; }
send "cd ${(q)1}; fpath=(${(q)2} \$fpath); autoload -Uz compinit; compinit -u -D"
send 'compadd() { local -a found; builtin compadd -O found "$@"; builtin compadd "$@"; (( $#found )) && print -rl -- "<"${^found}">" >> "$LOG"; }'
send "LOG=${(q)3}"
send "PROMPT='' ; zstyle ':completion:*' completer _complete; bindkey '^I' expand-or-complete"
send 'print READY > "$LOG.ready"'
for i in {1..400}; do [[ -e $3.ready ]] && break; sleep 0.05; done
zpty -w -n shell "once $4"$'\t\C-u'
send 'print DONE > "$LOG.done"'
for i in {1..400}; do [[ -e $3.done ]] && break; sleep 0.05; done
zpty -d shell
"""


def zsh(words, folder):
    with tempfile.TemporaryDirectory() as made:
        log = made + "/log"
        line = " ".join(re.sub(r"(\s)", r"\\\1", word) for word in words)
        subprocess.run(["zsh", "-f", "-c", ZSH, "zsh", folder, HERE, log, line], capture_output=True, timeout=60)
        found = open(log, encoding="utf-8").read() if os.path.exists(log) else ""
    names = set(re.findall(r"<(.*?)>", found)) - set(words[-1].split("/"))
    return sorted(name for name in names if words[-1].startswith("-") or not name.startswith("-")), ""


def main():
    passed = failed = 0
    with tempfile.TemporaryDirectory() as folder:
        os.mkdir(folder + "/below")
        for name in FILES:
            open(os.path.join(folder, name), "w", encoding="utf-8").close()
        for shell in (bash, zsh):
            for words, wanted in CASES if shutil.which(shell.__name__) else []:
                found, said = shell(words, folder)
                if shell is zsh:
                    wanted = [os.path.basename(name) for name in wanted]
                is_right = found == wanted and not said
                passed, failed = passed + is_right, failed + (not is_right)
                if not is_right:
                    print("%s: once %s: %s instead of %s %s" % (shell.__name__, " ".join(words), found, wanted, said))
    print("%d passed, %d failed" % (passed, failed))
    return 1 if failed else 0


sys.exit(main())
