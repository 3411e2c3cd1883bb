#!/bin/sh
# Runs the built program on each example of the pages and of examples/, tries how it ends, as README.md says, compares it
# with the language said a second time, and tries the demonstration's script and page. It fails where one doesn't do what
# it should, and skips where the program isn't built or Python is missing; the page is skipped where Chromium is missing.
set -eu
top=$(cd "$(dirname "$0")/.." && pwd)
program=$top/crates/vdb_server/out/vdb_server
if [ ! -x "$program" ]; then
  echo "examples: skipped, $program isn't built" >&2
  exit 0
fi
if ! command -v python3 > /dev/null; then
  echo "examples: skipped, there is no python3" >&2
  exit 0
fi
status=0
python3 -B "$top/docs/run_program.py" "$top" "$program" || status=1
python3 "$top/docs/run_examples.py" "$top" "$program" || status=1
python3 -B "$top/docs/run_answers.py" "$top" "$program" || status=1
python3 -B "$top/docs/run_language.py" "$top" "$program" || status=1
python3 -B "$top/docs/run_queries.py" "$top" "$program" || status=1
python3 -B "$top/docs/run_transactions.py" "$top" "$program" || status=1
python3 -B "$top/docs/run_plain.py" "$top" "$program" || status=1
python3 -B "$top/docs/run_demo.py" "$top" "$program" || status=1
python3 -B "$top/docs/run_page.py" "$top" "$program" || status=1
python3 -B "$top/docs/run_definitions.py" "$top" || status=1
exit $status
