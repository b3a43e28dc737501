#!/usr/bin/env bash
# A slip is neither let go nor spent twice. Each misuse is written into a copy of the crate `well`, where the compiler
# must refuse it by its own error and by no other. The copy is removed again.
set -euo pipefail

repository=$(cd "$(dirname "$0")/.." && pwd)
copy=$(mktemp -d)
trap 'rm -rf "$copy"' EXIT
tar -C "$repository" --exclude=out -c crates crates.txt | tar -C "$copy" -x
cd "$copy/crates/well"
sed -i 's/^pub mod slip;$/pub mod misuse;\n&/' src/lib.rt
grep -q '^pub mod misuse;$' src/lib.rt

# refused NAME ERROR: the source on standard input is refused by error[ERROR], and by nothing else
refused() {
    cat > src/misuse.rt
    if rt check > "$copy/log" 2>&1; then
        echo "slip misuse, $1: ACCEPTED"
        exit 1
    fi
    found=$(grep -o 'error\[[^]]*\]' "$copy/log" | sort -u | tr '\n' ' ')
    if [ "$found" != "error[$2] " ]; then
        echo "slip misuse, $1: expected error[$2], found: $found"
        cat "$copy/log"
        exit 1
    fi
    echo "slip misuse, $1: refused by error[$2]"
}

refused 'let go' linear-value-let-go <<'RATTLE'
//! A key is drawn, and its slip is let go.
use crate::fault::WellFault;
use crate::store::Well;

pub fn misuse(well: &mut Well, key: &mut [u8]) -> Result<u32, WellFault> {
    let slip = well.draw(key)?;
    Ok(slip.bits())
}
RATTLE

refused 'spent twice' borrow-e0382 <<'RATTLE'
//! A slip is loaded a second time.
use crate::slip::Returned;
use crate::slip::Slip;
use crate::store::Well;

pub fn misuse(well: &mut Well, slip: Slip) -> Result<(), Returned> {
    well.load(slip)?;
    well.load(slip)
}
RATTLE
