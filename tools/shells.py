"""The completions of the shells and the man page, each as a text made of the program's words (answers.py)."""

BASH = """\
# The completions of btspace for bash, made by tools/manual.
_btspace() {{
    local word=${{COMP_WORDS[COMP_CWORD]}} before=${{COMP_WORDS[COMP_CWORD - 1]}} command=${{COMP_WORDS[1]}} offered=
    if ((COMP_CWORD == 1)); then
        offered='{first}'
    else
        case $command:$before in
{values}\
        esac
        [ -z "$offered" ] && case $command:$word in
{options}\
        esac
    fi
    # Where nothing is offered, readline offers files.
    mapfile -t COMPREPLY < <(compgen -W "$offered" -- "$word")
}}
complete -o default -F _btspace btspace
"""

ZSH = """\
#compdef btspace
# The completions of btspace for zsh, made by tools/manual.
_btspace() {{
    local state line curcontext=$curcontext
    _arguments -C {options} '1:command:->command' '*::argument:->argument'
    case $state in
        command)
            local -a commands=({commands})
            _describe command commands
            ;;
        argument)
            case $words[1] in
{arguments}\
            esac
            ;;
    esac
}}
if [ "$funcstack[1]" = _btspace ]; then
    _btspace "$@"
else
    compdef _btspace btspace
fi
"""

FISH = """\
# The completions of btspace for fish, made by tools/manual.
complete -c btspace -f
"""

MAN = r"""
.TH BTSPACE 1
.SH NAME
btspace \- a replicated Linda tuple space
.SH SYNOPSIS
{synopsis}
.SH DESCRIPTION
A tuple space is a shared collection of tuples. Programs put tuples into it, read them by templates, and take them.
.B btspace
runs scripts of such operations on one space, or on a cluster of replicas that stays right while some of them lie.
A file is read from standard input where it is named
.BR - .
{commands}
.SH SCRIPTS
A script has an operation on each line. An empty line, and one that begins with
.BR # ,
is passed over.
{operations}
.SH EXIT STATUS
.TP
.B 0
All was done.
.TP
.B 1
A line, a configuration or a file was refused. Standard error says which.
.TP
.B 2
The words are wrong.
.TP
.B 3
Memory, an output, or room in the journal of a run was wanting.
.SH SEE ALSO
README.md, docs/tutorial.md, docs/recipes.md and docs/formats.md of the sources.
"""

OPERATIONS = {
    "out (1 \"a\")": "Puts the tuple. The answer is `done`, or `full`.",
    "rdp (1 ?text)": "Reads the oldest tuple that matches the template: `found TUPLE`, or `absent`.",
    "inp (1 *)": "Takes it.",
    "cas (\"lock\" *) (\"lock\" \"ann\")": "Puts the tuple if none matches the template: `swapped true`, or `swapped false`.",
    "rdAll 64 (?int ?text)": "Reads the oldest matches, at most so many: `all N TUPLE ..`.",
    "inAll 64 (?int ?text)": "Takes them, from a space of version 2.",
    "upgrade": "Makes the space one of version 2.",
}


def long_options(command):
    return " ".join(f"--{it}" for it in command.options)


def bash(table):
    values, options = [], []
    for name, command in table.commands.items():
        for option, it in command.options.items():
            if it.values:
                values.append(f"            {name}:--{option}) offered='{' '.join(it.values)}' ;;\n")
        options.append(f"            {name}:-*) offered='{long_options(command)}' ;;\n")
    if "help" in table.names:
        options.append(f"            help:*) offered='{' '.join(table.commands)}' ;;\n")
    first = " ".join([*table.names, long_options(table.whole)])
    return BASH.format(first=first, values="".join(values), options="".join(options))


def quoted(text):
    """A word of a shell, in quotes."""
    return "'" + text.replace("'", "'\\''") + "'"


def zsh_option(name, option):
    """An option as _arguments wants it: help and the version exclude all else."""
    about = f"[{option.about.replace('[', '(').replace(']', ')')}]"
    if option.short:
        return f"'(- *)'{{-{option.short},--{name}}}{quoted(about)}"
    value = f":{option.value}:({' '.join(option.values)})" if option.value else ""
    return quoted(f"--{name}{about}{value}")


def zsh_arguments(command):
    files = (f"{at}:{name}:{'_files' if is_file(name) else ' '}" for at, name in enumerate(command.files, 1))
    return " ".join([*(zsh_option(*it) for it in command.options.items()), *map(quoted, files)])


def is_file(name):
    """Whether an argument names a file. HEX doesn't."""
    return name != "HEX"


def zsh(table):
    arguments = [f"                {name}) _arguments {zsh_arguments(it)} ;;\n" for name, it in table.commands.items()]
    if "help" in table.names:
        arguments.append(f"                help) _arguments '1:command:({' '.join(table.commands)})' ;;\n")
    commands = " ".join(quoted(f"{name}:{about}") for name, about in table.abouts.items())
    options = " ".join(zsh_option(*it) for it in table.whole.options.items())
    return ZSH.format(options=options, commands=commands, arguments="".join(arguments))


def fish_option(condition, name, option):
    short = f" -s {option.short}" if option.short else ""
    value = f" -x -a {quoted(' '.join(option.values))}" if option.value else ""
    return f"complete -c btspace -n {quoted(condition)}{short} -l {name}{value} -d {quoted(option.about)}\n"


def fish(table):
    text = FISH
    for name, option in table.whole.options.items():
        text += fish_option("__fish_use_subcommand", name, option)
    for name, about in table.abouts.items():
        text += f"complete -c btspace -n __fish_use_subcommand -a {name} -d {quoted(about)}\n"
    if "help" in table.names:
        text += f"complete -c btspace -n '__fish_seen_subcommand_from help' -a {quoted(' '.join(table.commands))}\n"
    for name, command in table.commands.items():
        condition = f"__fish_seen_subcommand_from {name}"
        text += "".join(fish_option(condition, *it) for it in command.options.items())
        if any(map(is_file, command.files)):
            text += f"complete -c btspace -n {quoted(condition)} -F\n"
    return text


def roff(text):
    """A text that roff prints as it stands."""
    return text.replace("\\", "\\e").replace("-", "\\-").replace("'", "\\(aq")


def man_command(command):
    """A command's part of the man page: its usage, what it does, its arguments and options, and its notes."""
    lines = [f".SS {roff(command.usage)}", roff(command.about) + "."]
    for name, about in command.files.items():
        lines += [".TP", f".I {name}", roff(about) + "."]
    for name, option in command.options.items():
        names = f"-{option.short}, --{name}" if option.short else f"--{name}"
        value = f" \\fI{roff(option.value)}\\fR" if option.value else ""
        lines += [".TP", f"\\fB{roff(names)}\\fR{value}", roff(option.about) + "."]
    if command.notes:
        lines += [".PP", *map(roff, command.notes.splitlines())]
    return "\n".join(lines)


def man(table):
    synopsis = "\n.br\n".join(roff(it.usage) for it in table.commands.values())
    commands = "\n".join([".SH COMMANDS", *map(man_command, table.commands.values())])
    operations = "\n".join(f".TP\n\\fB{roff(line)}\\fR\n{roff(about)}" for line, about in OPERATIONS.items())
    return MAN.lstrip("\n").format(synopsis=synopsis, commands=commands, operations=operations)


SHELLS = {"bash": bash, "zsh": zsh, "fish": fish, "man": man}
