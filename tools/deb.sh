#!/usr/bin/env bash
# Makes two packages of Debian: `glb`, the proved program with what a server needs, and `glb-tools`, the other tools.
#
#     tools/deb.sh VERSION [FOLDER]       VERSION as 1.0; the packages go into FOLDER, or here
#
# GLB names the built program; crates/glb_program/out/glb_program if it is not set. Who answers for the packages stands in
# DEBFULLNAME and DEBEMAIL, as for Debian's own tools. It needs dpkg-deb, gzip, strip (Debian: binutils) and Python 3.11. `glb`
# makes the user and the group `glb`, and starts nothing: docs/OPERATING.md says how (it goes to /usr/share/doc/glb). Taking it
# off leaves /etc/glb and /var/lib/glb; `apt purge` takes these, the user and all else that it left, too.
set -euo pipefail
top=$(cd "$(dirname "$0")/.." && pwd)
glb=${GLB:-$top/crates/glb_program/out/glb_program}
maintainer="${DEBFULLNAME:-Whoever built it} <${DEBEMAIL:-root@localhost}>"

# fault STATUS WORDS: ends with a line that says what to do
fault() {
    echo "tools/deb.sh: $2" >&2
    exit "$1"
}

case ${1:-} in
--help)
    cat <<HELP
usage: tools/deb.sh VERSION [FOLDER]

Makes two packages of Debian, glb and glb-tools, in half a minute. VERSION begins
with a digit, as 1.0; the packages go into FOLDER, or here. GLB names the built
program; crates/glb_program/out/glb_program of the repository if it is not set.

exit status:
  0     done
  1     something is not there, or cannot be written: one line on standard error says what
  64    a word that the command does not have
HELP
    exit
    ;;
esac
if [ $# -gt 2 ] || ! [[ ${1:-} =~ ^[0-9][A-Za-z0-9.+~-]*$ ]]; then
    fault 64 'VERSION [FOLDER] are wanted, and a version begins with a digit, as 1.0 (see tools/deb.sh --help)'
fi
version=$1
folder=${2:-.}
lacking=
for needed in dpkg-deb:dpkg gzip:gzip python3:python3 strip:binutils; do
    command -v "${needed%:*}" >/dev/null || lacking="$lacking ${needed#*:}"
done
[ -z "$lacking" ] || fault 1 "it needs what is not installed here: apt-get install$lacking"
[ -f "$glb" ] || fault 1 "there is no program at $glb: build it as README.md says, or name it by GLB"
[ -d "$folder" ] && [ -w "$folder" ] || fault 1 "no package can be written into the folder $folder: make it, or name another one"
# what a server needs, with Python's own library alone; all others are of glb-tools
server_commands="append follow fleet launch log roll"
roots=$(mktemp -d)
trap 'rm -rf "$roots"' EXIT
umask 022
server=$roots/glb
tools=$roots/glb-tools
install -d "$server" "$tools"

# The module whose main a command is, by its path; nothing of what is no command of Python.
module_of() { sed -n -e 's/^ *start("\(.*\)")$/\1/p' -e 's/^ *from glb_tools\.\(.*\) import main$/\1/p' "$top/tools/$1" | tr . /; }

# The modules of glb_tools that those of the server's commands read.
server_modules() {
    python3 - "$top/tools/glb_tools" $(for name in $server_commands; do module_of "glb-$name"; done) <<'PYTHON'
import re, sys
from pathlib import Path

folder, todo, found = Path(sys.argv[1]), sys.argv[2:], {"__init__"}
while todo:
    name = todo.pop()
    path = folder / f"{name}.py"
    if name not in found and path.exists():
        found.add(name)
        text = path.read_text()
        todo += re.findall(r"glb_tools\.(\w+)", text)
        for names in re.findall(r"from glb_tools import ([\w, ]+)", text):
            todo += re.split(r"[, ]+", names)
print(*sorted(found))
PYTHON
}

# A file of Python, with the interpreter of Debian's package.
install_script() {
    install -D -m "$1" "$2" "$3"
    sed -i '1s,^#!/usr/bin/env python3$,#!/usr/bin/python3,' "$3"
}

# A command: it stands beside its modules, and in the path is a link.
install_command() {
    install_script 755 "$top/tools/$2" "$1/usr/share/glb/$2"
    install -d "$1/usr/bin" "$1/usr/share/man/man1"
    ln -s "../share/glb/$2" "$1/usr/bin/$2"
    manual "$2" | gzip -9n >"$1/usr/share/man/man1/$2.1.gz"
}

# The same of a command that is none of Python.
manual_of_help() {
    {
        printf '.TH %s 1 "" "glb %s" "User Commands"\n.SH NAME\n%s \\- %s\n.SH DESCRIPTION\n.nf\n' "${2^^}" "$version" "$2" "$3"
        "$4" --help | sed 's/-/\\-/g'
        printf '.fi\n.SH SEE ALSO\n.BR glb (1)\n'
    } | gzip -9n >"$1/usr/share/man/man1/$2.1.gz"
}

# The completion for bash of each command that a package has.
install_completions() {
    for command in $(ls "$1/usr/bin"); do
        if [ -e "$top/tools/completions/$command" ]; then
            install -D -m 644 "$top/tools/completions/$command" "$1/usr/share/bash-completion/completions/$command"
        fi
    done
}

# A manual page: what a command says by --help, or, where it needs what is not installed here, what its module says.
manual() {
    local module about help
    module=$top/tools/glb_tools/$(module_of "$1").py
    about=$(sed -n '1s/^"""//;1s/[."]*$//p' "$module" | sed 's/^glb-[a-z]*: //')
    help=$(COLUMNS=100 python3 -B "$top/tools/$1" --help 2>/dev/null) || help=$(sed -n '/^"""/,/"""$/p;/"""$/q' "$module" | tr -d '"')
    printf '.TH %s 1 "" "glb %s" "User Commands"\n.SH NAME\n%s \\- %s\n' "${1^^}" "$version" "$1" "${about,}"
    printf '.SH DESCRIPTION\n.nf\n'
    sed -e 's/\\/\\\\/g' -e "s/^[.']/\\\\\&&/" -e 's/-/\\-/g' <<<"$help"
    printf '.fi\n.SH SEE ALSO\n.BR glb (1),\n/usr/share/doc/glb/OPERATING.md\n'
}

# Units name the places of a program that was put there by hand.
install_unit() {
    local unit=$1/usr/lib/systemd/system/$(basename "$2")
    install -D -m 644 "$2" "$unit"
    sed -i -e 's,/usr/local/bin/glb,/usr/bin/glb,g' -e 's,/usr/local/lib/glb/,/usr/bin/,g' -e '/^#/s, *Install as /.*$,,' -e '/^#$/d' "$unit"
}

# A file of settings: what it names by hand stands elsewhere.
install_settings() {
    install -D -m 644 "$2" "$1/$3"
    sed -i -e 's,/usr/local/bin/glb,/usr/bin/glb,g' -e 's, *Install as /.*$,,' -e 's/192\.0\.2\.53:53/127.0.0.1:53/' "$1/$3"
    echo "/$3" >>"$1.conffiles"
}

# The server.
install -D -s -m 755 "$glb" "$server/usr/bin/glb"
modules=$(server_modules)
for module in $modules; do install -D -m 644 "$top/tools/glb_tools/$module.py" "$server/usr/share/glb/glb_tools/$module.py"; done
sed -i "s/^VERSION = .*/VERSION = \"$version\"/" "$server/usr/share/glb/glb_tools/__init__.py"
for name in $server_commands; do
    install_command "$server" "glb-$name"
done
for unit in "$top"/examples/*.service "$top"/examples/*.timer; do
    case $(basename "$unit") in
    glb.* | glb@* | glb-feed* | glb-show* | glb-fleet@* | glb-follow@*) install_unit "$server" "$unit" ;;
    *) install_unit "$tools" "$unit" ;;
    esac
done
install -D -m 644 "$top/docs/glb.1" "$server/usr/share/man/man1/glb.1"
gzip -9n "$server/usr/share/man/man1/glb.1"
install -D -m 644 -t "$server/usr/share/doc/glb" "$top"/README.md "$top"/CHANGELOG.md "$top"/SECURITY.md "$top"/CONTRIBUTING.md "$top"/docs/*.md "$top"/docs/*.png "$top"/docs/*.svg
install -D -m 644 -t "$server/usr/share/doc/glb/operating" "$top"/docs/operating/*.md
# links between documents: those of the top stand beside the others here; the figures of bench stay in the repository
sed -i -e 's,](docs/,](,g' -e 's,](\.\./\([A-Z]*\.md\),](\1,g' "$server"/usr/share/doc/glb/*.md
sed -i -e 's,](\.\./\.\./\([A-Z]*\.md\),](../\1,g' "$server"/usr/share/doc/glb/operating/*.md
install -D -m 644 -t "$server/usr/share/doc/glb/examples" "$top"/examples/*.toml "$top"/examples/*.map "$top"/examples/*.changes "$top"/examples/*.socket "$top"/examples/glb-ready.nft "$top"/examples/glb-bird.conf "$top"/examples/queries.txt
# the launcher's settings of the unit: a server is begun by it where they are put beside the unit
install -D -m 644 "$top/examples/glb-launch.conf" "$server/usr/share/doc/glb/examples/glb-launch.conf"
sed -i -e 's,/usr/local/bin/glb,/usr/bin/glb,g' -e 's,/usr/local/lib/glb/,/usr/bin/,g' "$server/usr/share/doc/glb/examples/glb-launch.conf"
install -D -m 755 "$top/examples/glb-ready" "$server/usr/bin/glb-ready"
sed -i "s/^version=.*/version=$version/" "$server/usr/bin/glb-ready"
manual_of_help "$server" glb-ready "let queries in to a server of a fleet, or keep them out" "$server/usr/bin/glb-ready"
install_settings "$server" "$top/examples/glb.default" etc/default/glb
install -d "$server/etc/glb"
printf '# LISTEN, WORKERS, TCP and GLB_ETCD of the units glb@v4 and glb-fleet@v4: see /usr/share/doc/glb/OPERATING.md\nLISTEN=127.0.0.1:53\nWORKERS=1\n' >"$server/etc/glb/v4.conf"
echo /etc/glb/v4.conf >>"$server.conffiles"
# what it was built from
{
    echo "commit  $(git -C "$top" rev-parse HEAD 2>/dev/null || echo unknown)$([ -z "$(git -C "$top" status --porcelain 2>/dev/null)" ] || echo ', with changes')"
    echo "kit     $(rt version 2>/dev/null || echo unknown)"
    echo "built   $(sha256sum <"$glb" | cut -d' ' -f1)"
    echo "program $(sha256sum <"$server/usr/bin/glb" | cut -d' ' -f1)  /usr/bin/glb"
} >"$server/usr/share/doc/glb/build"

# The tools.
(cd "$top/tools" && find glb_tools -type f ! -path '*/__pycache__/*') | while read -r file; do
    case " $modules " in *" $(basename "$file" .py) "*) [ "${file%/*}" = glb_tools ] && continue ;; esac
    install -D -m 644 "$top/tools/$file" "$tools/usr/share/glb/$file"
done
for command in "$top"/tools/glb-*; do
    name=$(basename "$command")
    case " $server_commands " in *" ${name#glb-} "*) continue ;; esac
    if [ -n "$(module_of "$name")" ]; then install_command "$tools" "$name"; fi
done
# the one that is compiled, where it was built (tools/native/build.sh)
compiled=
if [ -x "$top/tools/native/glb-prices" ]; then
    install -D -s -m 755 "$top/tools/native/glb-prices" "$tools/usr/lib/glb/glb-prices"
    ln -s ../lib/glb/glb-prices "$tools/usr/bin/glb-prices"
    manual_of_help "$tools" glb-prices "solve a transport problem for glb-topology" "$top/tools/native/glb-prices"
    compiled="libc6, libstdc++6, libgcc-s1, "
fi
# names of before, until the next release of the package
install -d "$tools/usr/lib/glb"
for old in "$top"/tools/*.py; do
    name=$(basename "$old")
    if [ -x "$old" ]; then install_script 755 "$old" "$tools/usr/share/glb/$name"; else install_script 644 "$old" "$tools/usr/share/glb/$name"; fi
    ln -s "../../share/glb/$name" "$tools/usr/lib/glb/$name"
done
install_completions "$server"
install_completions "$tools"
install -D -m 644 -t "$tools/usr/share/doc/glb-tools/examples" "$top"/examples/*.yml "$top"/examples/*.json "$top"/examples/*.nginx
install -D -m 644 -t "$tools/usr/share/doc/glb-tools/examples/network" "$top"/examples/network/*
install -m 644 -t "$tools/usr/share/doc/glb-tools/examples" "$top"/examples/glb-demand.{mtail,conf}
for settings in "$top"/examples/glb-*.default; do install_settings "$tools" "$settings" "etc/default/$(basename "$settings" .default)"; done
# its units, those of a name with all that were made of them
tool_units=$(ls "$tools/usr/lib/systemd/system" | sed 's/@\./@*./' | tr '\n' ' ')

for package in glb glb-tools; do
    root=$roots/$package
    install -d "$root/DEBIAN" "$root/usr/share/doc/$package"
    mv "$root.conffiles" "$root/DEBIAN/conffiles"
    printf '%s (%s) unstable; urgency=medium\n\n  * Made by tools/deb.sh.\n\n -- %s  %s\n' "$package" "$version" "$maintainer" "$(date -R)" | gzip -9n >"$root/usr/share/doc/$package/changelog.gz"
    printf 'glb: its program is proved by and built with the Rattle kit.\nThe C library that it is linked with is under the LGPL, /usr/share/common-licenses/LGPL-2.1.\n\nCopyright 2026 The engineers of glb\n' >"$root/usr/share/doc/$package/copyright"
done
size() { du -sk --exclude=DEBIAN "$1" | cut -f1; }
cat >"$server/DEBIAN/control" <<CONTROL
Package: glb
Version: $version
Architecture: amd64
Maintainer: $maintainer
Installed-Size: $(size "$server")
Depends: libc6, python3 (>= 3.11), adduser
Suggests: glb-tools, etcd-server, nftables
Section: net
Priority: optional
Description: mapping system of a content delivery network, proved correct
 It sends groups of clients to server pools by stable allocation over trees of
 capacities, publishes a repaired map for each batch of changes, and answers
 over DNS. Each function of the program is proved to meet its contract.
 .
 With it come the programs by which a fleet of servers follows one log.
CONTROL
cat >"$tools/DEBIAN/control" <<CONTROL
Package: glb-tools
Version: $version
Architecture: amd64
Maintainer: $maintainer
Installed-Size: $(size "$tools")
Depends: ${compiled}glb (= $version), python3 (>= 3.11), python3-dnspython, python3-flask, python3-jinja2, python3-numpy, python3-prometheus-client, python3-requests, python3-scipy, python3-waitress
Recommends: python3-maxminddb, python3-yaml
Suggests: mtail, prometheus, prometheus-blackbox-exporter, prometheus-node-exporter
Breaks: glb (<< $version)
Replaces: glb (<< $version)
Section: net
Priority: optional
Description: tools for the mapping system of a content delivery network
 They say why clients go where they go and what moves between two maps, make
 topologies, watch over one server or a fleet of them, and show it as a page.
CONTROL

# What a package leaves behind itself: what Python keeps of its modules.
postinst_of_both='if [ "$1" = configure ]; then
    python3 -m compileall -q /usr/share/glb/glb_tools || true
    if [ -d /run/systemd/system ]; then systemctl daemon-reload; fi
fi'
prerm_of_both='find /usr/share/glb /usr/lib/glb -name __pycache__ -prune -exec rm -rf {} + 2>/dev/null || true'
cat >"$server/DEBIAN/postinst" <<SCRIPT
#!/bin/sh
set -e
if [ "\$1" = configure ]; then
    adduser --system --quiet --group --no-create-home --home /nonexistent glb
    # one that is there belongs to whom it did: StateDirectory= of the units gives all of it to glb
    [ -d /var/lib/glb ] || install -d -m 755 -o glb -g glb /var/lib/glb
fi
$postinst_of_both
SCRIPT
cat >"$server/DEBIAN/prerm" <<SCRIPT
#!/bin/sh
set -e
# an upgrade leaves the servers as they are: start them again when it suits, one after another
if [ "\$1" = remove ] && [ -d /run/systemd/system ]; then
    systemctl stop 'glb*.socket' 'glb*.service' 'glb*.timer' || true
fi
$prerm_of_both
SCRIPT
cat >"$server/DEBIAN/postrm" <<'SCRIPT'
#!/bin/sh
set -e
if [ "$1" = purge ]; then
    rm -rf /etc/glb /var/lib/glb
    # units that were enabled, and their failures
    rm -f /etc/systemd/system/*.wants/glb*.service /etc/systemd/system/*.wants/glb*.timer /etc/systemd/system/*.wants/glb*.socket
    rmdir /etc/systemd/system/glb*.wants 2>/dev/null || true
    if [ -d /run/systemd/system ]; then systemctl reset-failed 'glb*' 2>/dev/null || true; fi
    if command -v deluser >/dev/null; then
        deluser --system --quiet glb || echo "glb: the user glb is left: end its processes, then deluser --system glb" >&2
    fi
fi
if [ -d /run/systemd/system ]; then systemctl daemon-reload; fi
SCRIPT
cat >"$tools/DEBIAN/postinst" <<SCRIPT
#!/bin/sh
set -e
$postinst_of_both
SCRIPT
cat >"$tools/DEBIAN/prerm" <<SCRIPT
#!/bin/sh
set -e
if [ "\$1" = remove ] && [ -d /run/systemd/system ]; then
    # the stars are systemd's
    set -f
    systemctl stop $tool_units || true
    set +f
fi
$prerm_of_both
SCRIPT
cat >"$tools/DEBIAN/postrm" <<SCRIPT
#!/bin/sh
set -e
if [ "\$1" = remove ] || [ "\$1" = purge ]; then
    # metrics that nobody writes any more would be served for ever
    rm -f /var/lib/prometheus/node-exporter/glb.prom /var/lib/prometheus/node-exporter/glb-*.prom
fi
if [ "\$1" = purge ]; then
    for unit in $tool_units; do rm -f /etc/systemd/system/*.wants/\$unit; done
    rmdir /etc/systemd/system/glb*.wants 2>/dev/null || true
    set -f
    if [ -d /run/systemd/system ]; then systemctl reset-failed $tool_units 2>/dev/null || true; fi
    set +f
fi
if [ -d /run/systemd/system ]; then systemctl daemon-reload; fi
SCRIPT
chmod 755 "$server"/DEBIAN/{postinst,prerm,postrm} "$tools"/DEBIAN/{postinst,prerm,postrm}
chmod 644 "$server/DEBIAN/conffiles" "$tools/DEBIAN/conffiles"
dpkg-deb --root-owner-group --build "$server" "$folder/glb_${version}_amd64.deb"
dpkg-deb --root-owner-group --build "$tools" "$folder/glb-tools_${version}_amd64.deb"
