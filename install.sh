#!/usr/bin/env bash
# Installs the programs that were built, their manuals and the completions of three shells.
#
#     ./install.sh [PREFIX]
#
# PREFIX is /usr/local by default. The programs are crates/rt_command/out/rt_command, which `rt run` in crates/rt_command proves and builds, and
# crates/rt_summary/out/rt_summary, which is left out where it isn't built.
set -eu
top=$(cd "$(dirname "$0")" && pwd)
prefix=${1:-/usr/local}
program=$top/crates/rt_command/out/rt_command
[ -x "$program" ] || { echo "install.sh: there is no $program: build it first, by 'rt run -- trial 7' in crates/rt_command" >&2; exit 1; }
put() { # MODE FILE TO
    install -D -m "$1" "$2" "$prefix/$3"
    echo "$prefix/$3"
}
put 755 "$program" bin/rt_command
put 644 "$top/docs/rt_command.1" share/man/man1/rt_command.1
put 644 "$top/completions/rt_command.bash" share/bash-completion/completions/rt_command
put 644 "$top/completions/_rt_command" share/zsh/site-functions/_rt_command
put 644 "$top/completions/rt_command.fish" share/fish/vendor_completions.d/rt_command.fish
summary=$top/crates/rt_summary/out/rt_summary
if [ -x "$summary" ]; then
    put 755 "$summary" bin/rt_summary
    put 644 "$top/docs/rt_summary.1" share/man/man1/rt_summary.1
    put 644 "$top/completions/rt_summary.bash" share/bash-completion/completions/rt_summary
    put 644 "$top/completions/_rt_summary" share/zsh/site-functions/_rt_summary
    put 644 "$top/completions/rt_summary.fish" share/fish/vendor_completions.d/rt_summary.fish
fi
put 644 "$top/LICENSE" share/doc/rt_command/LICENSE
