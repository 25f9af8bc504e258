#!/usr/bin/env bash
# Checks what stands here for people: the page that shows a report, the manual and the completions.
#
#     viewer/check.sh [PICTURES]
#
# Needs the Debian packages chromium, python3, mandoc, bash, zsh and fish. It is run by hand, and is no part of `rt ci`. Where
# PICTURES names a folder, the page's screens are put there; else reports and screens go away with their temporary folder.
set -u
export PYTHONDONTWRITEBYTECODE=1
cd "$(dirname "$0")/.." || exit 1
rc=0

for program in chromium python3 mandoc bash zsh fish; do
    command -v "$program" > /dev/null || { echo "there is no $program: apt-get install $program" && exit 1; }
done

python3 viewer/rules.py --check && echo "the page's texts: as docs/rules.md and docs/report.md have them" || rc=1
python3 viewer/check_page.py "$@" || rc=1
mandoc -Tlint -W warning docs/rt_command.1 && echo "the manual: mandoc has nothing to say" || rc=1
python3 completions/check.py || rc=1
exit $rc
