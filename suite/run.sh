#!/bin/sh
# run.sh [--quick] [--only NETWORK].. [--jobs N]: makes the suite. Without options it writes results/, systems.csv and
# pictures/, and the tables of README.md and details.md; with --only or --quick it writes to out/. Wants python3.
set -eu
cd "$(dirname "$0")"
"${FDSTUDY:-../fdstudy}" --help > /dev/null # proved and built first, where it has to be
case " $* " in
*" --only"* | *" --quick "*) to=out ;;
*) to=results ;;
esac
python3 suite.py run --to "$to" "$@"
for page in page.py systems.py; do
  if [ "$to" = out ]; then python3 $page --from out --to out; else python3 $page; fi
done
