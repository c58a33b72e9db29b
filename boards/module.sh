#!/bin/sh
# module.sh NAME: proves crate NAME_c and writes target/staticlib/libNAME.a, as tools/archive.sh does, and keeps the LLVM module that the
# prover hands to the clang of its toolchain: target/module/NAME.bc, and clang's command, a word a line, NAME.command.
# rt is run from a folder of links that stands for the kit. Three files are no links: bin/rt and bin/rtlib.py, copies, since they look for the
# kit where they themselves lie, and toolchain/bin/clang, which copies the module and then runs the kit's clang with the same words. So
# verdict and archive are those of the kit.
set -eu
[ $# -eq 1 ] || { echo "usage: module.sh NAME" >&2; exit 2; }
cd "$(dirname "$0")/.."
rt=$(command -v "${RT:-rt}") || { echo "module.sh: there is no ${RT:-rt} on the PATH" >&2; exit 2; }
kit=$(dirname "$(dirname "$(readlink -f "$rt")")")
mkdir -p target/module
kept=$PWD/target/module/$1
rm -f "$kept".*

folder=$(mktemp -d)
trap 'rm -rf "$folder"' EXIT
links=$folder/kit
mkdir -p "$links/bin" "$links/toolchain/bin"
cp "$kit/bin/rt" "$kit/bin/rtlib.py" "$links/bin/"
cat >"$links/toolchain/bin/clang" <<CLANG
#!/bin/sh
set -e
for word in "\$@"; do case \$word in *.bc) cp "\$word" '$kept.bc' ;; esac; done
printf '%s\n' '$kit/toolchain/bin/clang' "\$@" >'$kept.command'
exec '$kit/toolchain/bin/clang' "\$@"
CLANG
chmod +x "$links/toolchain/bin/clang"
for part in toolchain/bin toolchain bin .; do
    for file in "$kit/$part"/*; do [ -e "$links/$part/${file##*/}" ] || ln -s "$file" "$links/$part/"; done
done

RT=$links/bin/rt tools/archive.sh "$1"
[ -s "$kept.bc" ] || { echo "module.sh: the prover handed no module to clang" >&2; exit 1; }
