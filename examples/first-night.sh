#!/usr/bin/env bash
# Two box offices for one night, from a script, by the program UNPROVED: what there is to prove, a minute after the checkout. If
# scripts/build --unproved left a program that is newer than each source, that runs the script; else what `world` needs is compiled,
# and no more.
set -eu
top=$(cd "$(dirname "$0")/.." && pwd)
script="$top/examples/first-night.script" program="$top/crates/boxoffice/out/boxoffice-unproved"
work=$(mktemp -d "${TMPDIR:-/tmp}/first-night.XXXXXX")
trap 'rm -rf "$work"' EXIT

# Copies a crate, unless it is the toolchain's, and what it stands on.
take() {
    local line below
    line=$(grep -E "^$1( .*)?:" "$top/crates.txt") || return 0
    [ ! -d "$work/crates/$1" ] || return 0
    mkdir -p "$work/crates/$1"
    cp -r "$top/crates/$1/src" "$work/crates/$1"
    echo "$line" >> "$work/crates.txt"
    for below in ${line#*:}; do take "$below"; done
}

# The modules of operator_cli that run a script, with a main of their own. A fault says nothing but its status.
make_world() {
    local crate="$work/crates/world" uses='rights_lattice local_rights book_core world_steps desk_lines plain_words' name
    for name in $uses; do take "$name"; done
    echo "world: $uses thiserror" >> "$work/crates.txt"
    cp "$top/HANDLES" "$work"
    mkdir -p "$crate/src"
    for name in answering fault status totals world; do cp "$top/crates/operator_cli/src/$name.rt" "$crate/src"; done
    cat > "$crate/src/ending.rt" << 'END'
use crate::status::Status;
use crate::command_fault::CommandFault;
use std::io::Write;

pub(crate) fn tell_fault<E: Write>(_fault: CommandFault, _err: &mut E) -> Status {
    Status::Failed
}
END
    cat > "$crate/src/command_fault.rt" << 'END'
use crate::fault::ScriptFault;

#[derive(Clone, Copy)]
pub(crate) struct CommandFault;

impl From<ScriptFault> for CommandFault {
    fn from(_fault: ScriptFault) -> CommandFault {
        CommandFault
    }
}
END
    cat > "$crate/src/main.rt" << 'END'
mod answering;
mod ending;
mod fault;
mod status;
mod command_fault;
mod totals;
mod world;

use crate::world::world_script;
use std::io::BufWriter;
use std::process::ExitCode;

fn main(rt: HostRuntime) -> ExitCode {
    let Ok(mut out) = BufWriter::new(rt.alloc(), rt.stdout()) else {
        return ExitCode::from(3);
    };
    let status = world_script(rt.alloc(), rt.stdin(), &mut out, &mut rt.stderr());
    ExitCode::from(status.code())
}
END
}

if [ -x "$program" ] && [ -z "$(find "$top"/crates/*/src "$top/crates.txt" -newer "$program" -print -quit)" ]; then
    "$program" world < "$script" > "$work/replies"
else
    echo 'Compiling what the script needs, unproved: a minute.' >&2
    make_world
    (cd "$work/crates/world" && TMPDIR=$work rt try < "$script" > "$work/replies" 2> "$work/log") || { cat "$work/log" >&2; exit 1; }
fi
# Each line of the script with its reply. The first has none, and the totals answer the end.
{ echo; cat "$work/replies"; } | paste -d '\t' "$script" - | expand -t 26 | sed 's/ *$//'
