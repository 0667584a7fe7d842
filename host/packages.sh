#!/usr/bin/env bash
# Debian's packages with which the host's tests try what stands in the documents: numpy for the Python module, Netpbm for the conversions
# that the program names, GNU parallel for many rigs, mandoc for the manual page. As root it installs those that are missing. Its status is
# not 0 where one cannot be had; the tests then say what they did not try.
set -u

# package COMMAND ..: the package is there where the command succeeds.
missing=()
package() {
    "${@:2}" > /dev/null 2>&1 || missing+=("$1")
}

package python3-numpy /usr/bin/python3 -c "import numpy"
package netpbm command -v pamdepth
package parallel command -v parallel
package mandoc command -v mandoc
[ "${#missing[@]}" -gt 0 ] || exit 0

if [ "$(id -u)" -ne 0 ]; then
    echo "host/packages.sh: not root, and these are missing: ${missing[*]}" >&2
    exit 1
fi
wait_for_locks=(-o DPkg::Lock::Timeout=300)
{ apt-get "${wait_for_locks[@]}" update && apt-get "${wait_for_locks[@]}" install --yes --no-install-recommends "${missing[@]}"; } > /dev/null 2>&1 || {
    echo "host/packages.sh: these could not be had: ${missing[*]}" >&2
    exit 1
}
