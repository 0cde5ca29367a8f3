"""What zsh completes: a shell on a terminal of its own, which tells each match that a completion adds."""
import os
import pty
import re
import select
import signal
import time

# How long the shell may take for all, in seconds.
LONG = 300
# The shell tells the matches of each call of `compadd`, ends a completion with a mark, and forgets the line.
SET_UP = r"""
PROMPT='' RPROMPT='' fpath=('@FUNCTIONS@' $fpath)
autoload -Uz compinit && compinit -u -D
zstyle ':completion:*' completer _complete
compadd() {
    if [[ ${@[1,(i)(-|--)]} == *-(O|A|D)\ * ]]; then
        builtin compadd "$@"
        return
    fi
    local -a found
    builtin compadd -A found "$@"
    (( $#found )) && print -rl -- "[match "${^found}"]" >> '@TOLD@'
    builtin compadd "$@"
}
told() { print -r -- '[end]' >> '@TOLD@' }
tell() { zle complete-word; told; BUFFER=''; zle redisplay }
zle -N tell
bindkey '^I' tell
cd '@FOLDER@'
print -r -- '[end]' >> '@TOLD@'
"""


def count_of(path):
    if not os.path.exists(path):
        return 0
    with open(path, encoding="utf-8") as file:
        return file.read().count("[end]\n")


def wait_for(terminal, path, count, until):
    """Reads what the shell shows until its file has so many ends."""
    while count_of(path) < count:
        if time.monotonic() > until:
            raise TimeoutError(f"zsh told {count_of(path)} of {count}")
        if select.select([terminal], [], [], 0.02)[0]:
            os.read(terminal, 65536)


def completed_by_zsh(functions, folder, cases):
    """Returns for each list of words what its last word can be."""
    told, script = f"{folder}.told", f"{folder}.zsh"
    with open(script, "w", encoding="utf-8") as file:
        file.write(SET_UP.replace("@FUNCTIONS@", functions).replace("@TOLD@", told).replace("@FOLDER@", folder))
    process, terminal = pty.fork()
    if process == 0:
        os.execvpe("zsh", ["zsh", "-f", "-i"], {"PATH": "/usr/bin:/bin", "TERM": "dumb", "HOME": os.path.dirname(folder)})
    until = time.monotonic() + LONG
    try:
        os.write(terminal, f"source '{script}'\n".encode())
        wait_for(terminal, told, 1, until)
        for count, words in enumerate(cases, 2):
            os.write(terminal, (" ".join(words) + "\t").encode())
            wait_for(terminal, told, count, until)
    finally:
        os.kill(process, signal.SIGKILL)
        os.close(terminal)
        os.waitpid(process, 0)
    with open(told, encoding="utf-8") as file:
        parts = file.read().split("[end]\n")[1 : len(cases) + 1]
    return [re.findall(r"(?m)^\[match (.*?)\]$", part) for part in parts]
