# What the scripts `run` of the folders beside this file have in common, which they source. It goes to the top of the
# repository, leaves all out where python3 or one of the packages that `needs` lists isn't here, each of which has a
# command of its own name, and names in SKEWCHECK the program: that of the environment, or the built one, which is
# built where it isn't. A script that runs no program says so by `runs_program=no`, and none is built for it.
folder=tests/$(basename "$(dirname "$(readlink -f "$0")")")
case ${SKEWCHECK-} in '' | /*) ;; *) SKEWCHECK=$PWD/$SKEWCHECK ;; esac
cd "$(dirname "${BASH_SOURCE[0]}")/.." || exit 74
for package in python3 "${needs[@]}"; do
  if ! command -v "$package" >/dev/null; then
    echo "left out: $folder: for want of the package $package"
    echo "0 passed, 0 failed"
    exit 0
  fi
done
[ "${runs_program-yes}" = yes ] || return 0
export SKEWCHECK=${SKEWCHECK:-$PWD/crates/skewcheck/out/skewcheck}
[ -x "$SKEWCHECK" ] || [ "$SKEWCHECK" != "$PWD/crates/skewcheck/out/skewcheck" ] || ./skewcheck -- </dev/null >/dev/null
[ -x "$SKEWCHECK" ] || { echo "$folder: $SKEWCHECK isn't there" >&2; exit 72; }
