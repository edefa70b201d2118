#!/bin/bash
# Whether the pages of docs/extend/ are true: tools/extend_check.sh [act|question|table ..] [--crate CRATE] [--unproved]. Each patch of
# tools/extend/ touches only the files that its pages list, and what it makes is proved, over what the libraries of crates/*/out/rlib hold;
# or, by --unproved, is taken by the compiler. docs/GATE.md says what that costs; it is no part of the gate.
exec "$(dirname "$(readlink -f "$0")")/extend/extend_check.py" "$@"
