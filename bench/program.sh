# Read by the scripts of this folder: $here is the folder, $program the program that $1 names, or else
# that of the repository, which is built for it, and $make a folder that goes when the script ends.
here=$(cd "$(dirname "$0")" && pwd)
crate=$here/../crates/rfq_venue
program=${1:-$crate/out/rfq_venue}
make=$(mktemp -d)
trap 'rm -rf "$make"' EXIT
[ -n "$1" ] || (cd "$crate" && rt run -- alone < ../../examples/first-quote.due > /dev/null 2>&1)
