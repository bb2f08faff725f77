"""What shells complete after `mtp2`, for bash, zsh and fish, made from what the program's `--help` says."""


def long_of(word):
    return next((it for it in word.spellings if it.startswith("--")), word.spellings[-1])


def quoted(text):
    """Text between single quotes, for each of the shells."""
    return "'" + text.replace("'", "'\\''") + "'"


def bash_values(word):
    """The line that completes the value of an option or an argument."""
    words, file = " ".join(word.choices()), " && _mtp2_files" if word.takes_file() else ""
    return f"_mtp2_words {quoted(words)}{file}"


def bash(whole, commands):
    """The completion for bash."""
    lines = [
        "# bash completion for mtp2; made from `mtp2 --help`",
        '_mtp2_words() { mapfile -t -O "${#COMPREPLY[@]}" COMPREPLY < <(compgen -W "$1" -- "$current"); }',
        "_mtp2_files() {",
        "    compopt -o filenames 2>/dev/null",
        '    mapfile -t -O "${#COMPREPLY[@]}" COMPREPLY < <(compgen -f -- "$current")',
        "}",
        "_mtp2() {",
        "    local current=${COMP_WORDS[COMP_CWORD]} before=${COMP_WORDS[COMP_CWORD - 1]}",
        "    COMPREPLY=()",
        "    if ((COMP_CWORD == 1)); then",
        f"        _mtp2_words {quoted(' '.join([name for name, _ in whole.commands] + ['--help', '--version']))}",
        "        return",
        "    fi",
        '    case "${COMP_WORDS[1]} $before" in',
    ]
    for command in commands:
        for option in filter(lambda it: it.value, command.options):
            lines.append(f"    {quoted(f'{command.name} {long_of(option)}')}) {bash_values(option)}; return ;;")
    lines += ["    esac", '    case "${COMP_WORDS[1]}" in']
    for command in commands:
        options = " ".join(long_of(it) for it in command.options)
        lines += [f"    {command.name})", f"        [[ $current != -* ]] || _mtp2_words {quoted(options)}"]
        lines += [f"        [[ $current == -* ]] || {{ {bash_values(it)}; }}" for it in command.arguments]
        lines += ["        ;;"]
    return "\n".join([*lines, "    esac", "}", "complete -F _mtp2 mtp2", ""])


def zsh_text(text):
    """A description, in which zsh gives brackets and colons another meaning."""
    for it in "[]:":
        text = text.replace(it, f"\\{it}")
    return text


def zsh_values(word):
    """What completes a value: its name, and an action."""
    if word.takes_file() and word.choices():
        return f":{zsh_text(word.value)}:{zsh_function(word)}"
    action = "_files" if word.takes_file() else f"({' '.join(word.choices())})"
    return f":{zsh_text(word.value)}:{action}"


def zsh_function(word):
    """The function that completes a word or a file: an action of `_arguments` has no place for its colons."""
    return "_".join(["_mtp2", *word.choices()])


def zsh_functions(commands):
    """All such functions."""
    words = [it for command in commands for it in (*command.options, *command.arguments)]
    both = {zsh_function(it): it.choices() for it in words if it.takes_file() and it.choices()}
    for name, choices in sorted(both.items()):
        yield f"{name}() {{ _alternative {quoted(f'words:word:({chr(32).join(choices)})')} 'files:file:_files'; }}"


def zsh_option(word):
    """An option, as `_arguments` takes it."""
    many = "*" if word.repeats() else ""
    value = zsh_values(word) if word.value else ""
    return f"{many}{long_of(word)}[{zsh_text(word.meaning)}]{value}"


def zsh(whole, commands):
    """The completion for zsh."""
    lines = ["#compdef mtp2", "# made from `mtp2 --help`", *zsh_functions(commands), "local -a commands", "commands=("]
    lines += [f"    {quoted(f'{name}:{zsh_text(meaning)}')}" for name, meaning in whole.commands]
    lines += [
        ")",
        "if ((CURRENT == 2)); then",
        "    _describe command commands",
        "    return",
        "fi",
        "local command=$words[2]",
        "shift words",
        "((CURRENT--))",
        "case $command in",
    ]
    for command in commands:
        words = [quoted(zsh_option(it)) for it in command.options]
        words += [quoted(("*" if "..." in command.usage else "") + zsh_values(it)) for it in command.arguments]
        lines += [f"{command.name})", "    _arguments \\", "        " + " \\\n        ".join(words), "    ;;"]
    return "\n".join([*lines, "esac", ""])


def fish(whole, commands):
    """The completion for fish."""
    lines = ["# fish completion for mtp2; made from `mtp2 --help`", "complete -c mtp2 -f"]
    for name, meaning in whole.commands:
        lines.append(f"complete -c mtp2 -n __fish_use_subcommand -a {name} -d {quoted(meaning)}")
    for command in commands:
        seen = f"complete -c mtp2 -n '__fish_seen_subcommand_from {command.name}'"
        for it in command.options:
            value = (" -r -F" if it.takes_file() else " -x") if it.value else ""
            listed = f" -a {quoted(' '.join(it.choices()))}" if it.choices() else ""
            lines.append(f"{seen} -l {long_of(it)[2:]}{value}{listed} -d {quoted(it.meaning)}")
        for it in command.arguments:
            file = " -F" if it.takes_file() else ""
            listed = f" -a {quoted(' '.join(it.choices()))}" if it.choices() else ""
            lines.append(f"{seen}{file}{listed}")
    return "\n".join([*lines, ""])
