#!/usr/bin/env python3
"""manual.py ONCE [--compare]: writes the man page and the completion of bash and zsh from the help that ONCE prints.

Beside this script: once.1, once.bash, _once. What the help doesn't have comes from one place each: exit statuses from
docs/GUIDE.md, examples from README.md, the date and the version (if ONCE is not given) from changelog. With --compare
nothing is written, and the exit status is 1 where a file isn't what it would be.
"""
import email.utils
import os
import re
import subprocess
import sys
import textwrap

HERE = os.path.dirname(os.path.abspath(__file__))
TOP = os.path.dirname(HERE)

# What completes each placeholder of the help: files with these endings first, or nothing.
ENDINGS = {
    "NETWORK": "json", "TRAFFIC": "json", "CERTIFICATE": "txt", "REFUTATION": "txt", "RUN": "txt", "SCHEDULE": "txt",
    "CAPTURE": "pcap", "STREAM": "ipfix", "ANSWER": "txt", "TOTALS": "txt", "PARTS": "txt", "PREFIX": "", "N": None, "NAME": None, "NUMBER": None,
}


class Help:
    """A help text in its parts: about, usage, and sections of lines, each with its heading or none."""

    def __init__(self, text):
        self.about, rest = text.split("Usage: ", 1)
        usage, _, rest = rest.partition("\n")
        self.usage = re.sub(r"^\S+", "once", usage.strip())
        self.sections = []
        for line in rest.split("\n"):
            heading = re.fullmatch(r"([A-Z][^.]{0,40}):", line)
            if heading:
                self.sections.append((heading[1], []))
            elif line.strip() and not line.startswith(" ") and (not self.sections or self.sections[-1][0]):
                self.sections.append((None, [line]))
            elif self.sections:
                self.sections[-1][1].append(line)

    def entries(self, heading):
        """The entries of a section of clap: each with its words and its help."""
        found = []
        for name, lines in self.sections:
            for line in lines if name == heading else []:
                entry = re.fullmatch(r" {2}(?: {4})?(\S.*?)(?: {2,}(.*))?", line)
                if entry:
                    found.append([entry[1], entry[2] or ""])
                elif found and line.strip():
                    found[-1][1] = (found[-1][1] + " " + line.strip()).strip()
        return found

    def others(self):
        """The sections that aren't lists of clap's."""
        return [(name, lines) for name, lines in self.sections if name not in ("Commands", "Arguments", "Options")]


class Program:
    """What a program says of itself."""

    def __init__(self, program):
        self.program = program
        self.help = Help(self.said("--help"))
        self.commands = [(name, about) for name, about in self.help.entries("Commands")]
        self.helps = {name: Help(self.said("help", name)) for name, _ in self.commands if name != "help"}
        log = read("packaging/changelog")
        self.date = email.utils.parsedate_to_datetime(re.search(r"^ -- .*?  (.*)", log, re.M)[1]).strftime("%Y-%m-%d")
        told = re.match(r"once (\S+)", self.said("--version", status=None))
        self.version = told[1] if told else re.match(r"once \((\S+?)\)", log)[1]

    def said(self, *words, status=0):
        run = subprocess.run([self.program, *words], stdin=subprocess.DEVNULL, capture_output=True, text=True)
        if status is not None and run.returncode != status:
            sys.exit("%s %s: status %d" % (self.program, " ".join(words), run.returncode))
        return run.stdout

    def flags(self):
        """Returns the options that every command takes, as the help has them, one per line: name, value if it has one, commands, text."""
        lines = [line for name, section in self.help.others() for line in [name or "", *section]]
        found = re.findall(r"^(--[a-z]+)(?: ([a-z]+))?, with ([a-z, ]+): (.*)$", "\n".join(lines), re.M)
        return [(flag, value, re.findall(r"[a-z]+", commands), text) for flag, value, commands, text in found]

    def options_of(self, command):
        """The options of a command: clap's own, and those flags that it takes."""
        yield from self.options(self.helps[command])
        for flag, value, commands, text in self.flags():
            if "any" in commands or command in commands:
                yield [flag], value, text

    def files(self, command):
        """The placeholders of a command's files, in order."""
        return [word.strip("<>[].") for word, _ in self.helps[command].entries("Arguments")]

    def options(self, of):
        """The options of a help: names, placeholder of the value or none, and words."""
        for words, text in of.entries("Options"):
            names = re.findall(r"(?<!\S)--?[\w-]+", words)
            value = re.search(r"<(\w+)>", words)
            yield names, value and value[1], re.sub(r" *\[default: .*", "", text)


def read(name):
    with open(os.path.join(TOP, name), encoding="utf-8") as file:
        return file.read()


# The man page.

def roff(text):
    """A text as roff reads it, with the text between backticks in bold."""
    text = text.replace("\\", "\\e").replace("-", "\\-").replace("'", "\\(aq").replace("^", "\\(ha").replace("~", "\\(ti")
    text = re.sub(r"`([^`]*)`", r"\\fB\1\\fR", text).replace("`", "\\(ga")
    return re.sub(r"^\.", r"\\&.", text)


def filled(text):
    """A paragraph, in lines that aren't long."""
    for line in textwrap.wrap(roff(text), 78, break_long_words=False, break_on_hyphens=False):
        yield re.sub(r"^([.'])", r"\\&\1", line)


def blocks(text, fixed=False):
    """Paragraphs and indented lines; two columns of indented lines are a list, but where all is fixed."""
    for block in re.split(r"\n\s*\n", text.strip("\n")):
        lines = block.split("\n")
        indent = min(len(line) - len(line.lstrip()) for line in lines)
        rows = [re.fullmatch(r" {%d}(\S+(?: \S+)*) {2,}(\S.*)" % indent, line) for line in lines]
        if not indent and not fixed:
            yield ".PP"
            yield from filled(" ".join(line.strip() for line in lines))
        elif rows[0] and not fixed:
            for line, row in zip(lines, rows):
                if row:
                    yield ".TP"
                    yield ".B " + roff(row[1])
                yield from filled(row[2] if row else line.strip())
        else:
            yield from [".PP", ".RS 4", ".nf"]
            yield from (roff(line[indent:]) for line in lines)
            yield from [".fi", ".RE"]


def listed(entries):
    for words, text in entries:
        yield from [".TP", ".B " + roff(words), *filled(text)]


def sections(lines):
    """The sections of a help that follow its lists."""
    for heading, body in lines:
        if heading:
            yield from [".PP", "\\fI%s\\fR" % roff(heading)]
        yield from blocks("\n".join(body), fixed=bool(heading and heading.startswith("Example")))


def taken(help, name):
    """The text of the section with this name, however it is written."""
    return "\n".join("\n".join(body) for heading, body in help.others() if heading and heading.upper().startswith(name))


def statuses():
    """The rows of the table of exit statuses, as lines of two columns."""
    table = read("docs/GUIDE.md").split("| Exit status | Meaning |\n", 1)[1].split("\n\n", 1)[0]
    return "\n".join("  %s  %s" % row for row in re.findall(r"^\| (\d) \| (.*) \|$", table, re.M))


def example():
    return read("README.md").split("## A first audit\n", 1)[1].split("\n## ", 1)[0].strip("\n")


def manual(program):
    help = program.help
    tops = ("EXIT STATUS", "FILES", "EXAMPLE")
    helps = [dict(its.entries("Options")) for its in program.helps.values()]
    everywhere = {words: text for words, text in helps[0].items() if all(words in its for its in helps)}
    yield ".\\\" `make manual` writes this file from the help of the program. Don't change it by hand."
    yield '.TH ONCE 1 "%s" "once %s" "User Commands"' % (program.date, program.version)
    yield from [".SH NAME", "once \\- %s" % roff(help.about.strip().split("\n")[0].rstrip(".").lower().replace(" ip ", " IP "))]
    yield ".SH SYNOPSIS"
    for name, its in program.helps.items():
        yield from [".B once " + name, roff(its.usage.split(name, 1)[1].strip()), ".br"]
    yield from [".B once help", "[COMMAND]", ".br", ".B once", "< BUNDLE"]
    yield ".SH DESCRIPTION"
    yield from filled(read("README.md").split("\n\n")[1])
    yield from sections(part for part in help.others() if not (part[0] or "").upper().startswith(tops))
    yield ".SH COMMANDS"
    for name, its in program.helps.items():
        yield ".SS once " + name
        yield from blocks(its.about)
        yield from listed([[word.strip("<>"), text] for word, text in its.entries("Arguments")])
        yield from listed(entry for entry in its.entries("Options") if entry[0] not in everywhere)
        yield from sections(its.others())
    yield ".SH OPTIONS"
    yield from ["Of the program itself:", *listed(help.entries("Options"))]
    yield from [".PP", "Of each command:", *listed(everywhere.items())]
    yield ".SH EXIT STATUS"
    yield from blocks(taken(help, "EXIT STATUS") or statuses())
    yield ".SH FILES"
    yield from blocks(taken(help, "FILES") or "\n".join([
        "  share/doc/once/docs/GUIDE.md  a guide for users; paths are below the prefix of the installation, as /usr",
        "  share/doc/once/docs/FORMATS.md  what is read and written, member by member and line by line",
        "  share/doc/once/docs/REFUSALS.md  the numbers of refusals",
        "  share/doc/once/examples  networks, traffic, certificates, refutations and runs",
    ]))
    yield ".SH EXAMPLES"
    yield from blocks(taken(help, "EXAMPLE"), fixed=True) if taken(help, "EXAMPLE") else blocks(example())
    yield ".SH SEE ALSO"
    yield ".BR tshark (1),\n.BR nfcapd (1),\n.BR pmacctd (8)"
    yield ".PP"
    yield from filled("RFC 6728 (configurations), RFC 7951 (their JSON), RFC 7011 (IPFIX), RFC 7015 (aggregations).")


# Completion.

def bash(program):
    yield "# bash completion of once. `make manual` writes this file from the help of the program."
    yield "_once()"
    yield "{"
    yield "    local current=${COMP_WORDS[COMP_CWORD]} before=${COMP_WORDS[COMP_CWORD-1]} command= place=0 i options files file"
    yield "    for ((i = 1; i < COMP_CWORD; i++)); do"
    yield "        case ${COMP_WORDS[i]} in"
    values = sorted({names[-1] for its in program.helps.values() for names, value, _ in program.options(its) if value})
    fixed = [(flag, value) for flag, value, _, _ in program.flags() if value]
    yield "            %s) [[ ${COMP_WORDS[i+1]} == = ]] && ((i++)); ((i++)) ;;" % "|".join([*(flag for flag, _ in fixed), *values])
    yield "            -*) ;;"
    yield "            *) if [[ $command ]]; then ((place++)); else command=${COMP_WORDS[i]}; fi ;;"
    yield "        esac"
    yield "    done"
    yield "    [[ $before == = ]] && before=${COMP_WORDS[COMP_CWORD-2]}"
    yield "    [[ $current == = ]] && before=${COMP_WORDS[COMP_CWORD-1]} current="
    yield "    case $command in"
    for name, its in program.helps.items():
        options = [option for names, _, _ in program.options_of(name) for option in names]
        files = [ENDINGS[file] if ENDINGS[file] is not None else "-" for file in program.files(name)]
        yield '        %s) options="%s" files=(%s) ;;' % (name, " ".join(options), " ".join(file or "''" for file in files))
    names = " ".join(name for name, _ in program.commands)
    yield '        help) [[ $place -eq 0 ]] && COMPREPLY=($(compgen -W "%s" -- "$current")); return ;;' % names
    top = " ".join(option for names, _, _ in program.options(program.help) for option in names)
    yield '        *) COMPREPLY=($(compgen -W "%s %s" -- "$current")); return ;;' % (names, top)
    yield "    esac"
    yield "    file=${files[place]--}"
    yield "    case $before in"
    for flag, value in fixed:
        yield '        %s) COMPREPLY=($(compgen -W "%s" -- "$current")); return ;;' % (flag, value)
    for value in values:
        kinds = {kind for its in program.helps.values() for names, kind, _ in program.options(its) if names[-1] == value}
        ending = ENDINGS[kinds.pop()]
        yield "        %s) file=%s ;;" % (value, "-" if ending is None else ending or "''")
    yield '        *) [[ $current == -* ]] && COMPREPLY=($(compgen -W "$options" -- "$current")) && return ;;'
    yield "    esac"
    yield "    [[ $file == - ]] && return"
    yield "    compopt -o filenames 2>/dev/null"
    yield "    if [[ $file ]]; then"
    yield "        mapfile -t COMPREPLY < <(compgen -f -X \"!*.$file\" -- \"$current\"; compgen -d -- \"$current\")"
    yield "    fi"
    yield "    [[ ${COMPREPLY[0]} ]] || mapfile -t COMPREPLY < <(compgen -f -- \"$current\")"
    yield "}"
    yield "complete -F _once once"


def quoted(text):
    return text.replace("'", "'\\''").replace("[", "\\[").replace("]", "\\]").replace(":", "\\:")


def action(placeholder):
    """Returns how zsh completes a value: one of a file by its placeholder, or one that the help has in small letters."""
    if placeholder.islower():
        return "(%s)" % placeholder
    ending = ENDINGS[placeholder]
    return " " if ending is None else "_files -g \"*.%s\"" % ending if ending else "_files"


def zsh(program):
    yield "#compdef once"
    yield "# zsh completion of once. `make manual` writes this file from the help of the program."
    yield "_once() {"
    yield "  local state line"
    yield "  local -a commands"
    yield "  commands=("
    yield from ("    '%s:%s'" % (name, quoted(about)) for name, about in program.commands)
    yield "  )"
    yield "  _arguments -C \\"
    yield from ("    " + line + " \\" for line in arguments(program.options(program.help)))
    yield "    '1: :->command' '*:: :->words'"
    yield "  case $state in"
    yield "    command) _describe command commands ;;"
    yield "    words)"
    yield "      case $words[1] in"
    for name, its in program.helps.items():
        yield "        %s)" % name
        yield "          _arguments \\"
        yield from ("            " + line + " \\" for line in arguments(program.options_of(name)))
        yield "            " + " ".join("'%d:%s:%s'" % (n + 1, file, action(file)) for n, file in enumerate(program.files(name)))
        yield "          ;;"
    yield "        help) _describe command commands ;;"
    yield "      esac"
    yield "      ;;"
    yield "  esac"
    yield "}"
    yield '_once "$@"'


def arguments(options):
    """What `_arguments` of zsh needs for each option."""
    for names, value, text in options:
        rest = "[%s]%s" % (quoted(text), ":%s:%s" % (value, action(value)) if value else "")
        if len(names) > 1:
            yield "'(%s)'{%s}'%s'" % (" ".join(names), ",".join(names), rest)
        else:
            yield "'%s%s'" % (names[0] + ("=" if value else ""), rest)


def main(words):
    program = Program(words[0] if "/" not in words[0] else os.path.abspath(words[0]))
    different = 0
    for name, lines in (("once.1", manual), ("once.bash", bash), ("_once", zsh)):
        text = "\n".join(lines(program)) + "\n"
        text = re.sub(r"^(\.S[HS] .*\n)\.PP\n", r"\1", text, flags=re.M)
        if "--compare" not in words:
            with open(os.path.join(HERE, name), "w", encoding="utf-8") as file:
                file.write(text)
        elif not os.path.exists(os.path.join(HERE, name)) or read("packaging/" + name) != text:
            different += 1
            print("packaging/%s isn't what `make manual` writes" % name)
    return 1 if different else 0


if __name__ == "__main__":
    if len(sys.argv) < 2 or sys.argv[2:] not in ([], ["--compare"]):
        sys.exit(__doc__)
    sys.exit(main(sys.argv[1:]))
