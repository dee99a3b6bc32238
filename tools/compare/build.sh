#!/usr/bin/env bash
# Builds what the comparison, the fault runs and the benchmark share, into target/compare. Sourced by their run.sh from the root of the repository.
#   prepare [DIR]    the library, the plain recurrence, and the original Rust of DIR where it is there
#   program NAME     tools/NAME's program, as target/compare/NAME
#   start NAME ..    that program, run
# Only copies under target/ are patched; nothing of the original comes into the repository.
build=target/compare
archive=crates/wavenet/out/libwavenet.a
# the processor that rt builds the library for
flags=(--edition 2021 -C opt-level=3 -C target-cpu=x86-64-v2 --check-cfg 'cfg(original, test)')

fail() { echo "$1" >&2; exit 1; }

missing() { fail "$1: '$2' is not there once; this is not nam-rs at 6462dd59a9"; }

# a call in the file replaced: it has to be there, once
once() { # FILE OLD NEW
    [ "$(grep -oF -- "$2" "$1" | wc -l)" = 1 ] || missing "$1" "$2"
    awk -v old="$2" -v new="$3" '{ i = index($0, old); if (i) $0 = substr($0, 1, i - 1) new substr($0, i + length(old)); print }' "$1" >"$1.new"
    mv "$1.new" "$1"
}

# a private field made visible: its line has to be there, once
field() { # FILE FIELD
    [ "$(grep -cxF -- "    $2," "$1")" = 1 ] || missing "$1" "$2"
    awk -v old="    $2," -v new="    pub $2," '$0 == old { $0 = new } { print }' "$1" >"$1.new"
    mv "$1.new" "$1"
}

copies() { # SOURCE DIR: the original's files, with their memory within reach
    local w=$2/wavenet f
    rm -rf "$2" && mkdir -p "$w"
    for f in activation array conv film gating layer; do cp "$1/src/wavenet/$f.rs" "$w/$f.rs"; done
    { echo '#[derive(Debug, Clone, Copy, PartialEq, Eq)]'; sed -n '/^pub enum GatingMode/,/^}/p' "$1/src/model.rs"; } >"$2/gating_mode.rs"
    cp tools/compare/original/lib.rs "$2/lib.rs"
    cp tools/compare/original/bridge.rs "$w/bridge.rs"
    chmod -R u+w "$2"
    for f in 'ring: Vec<f32>' 'pos: usize'; do field "$w/conv.rs" "$f"; done
    field "$w/film.rs" 'cond_to_scale_shift: Conv1d'
    for f in 'conv: Conv1d' 'mixin: Conv1d' 'layer1x1: Option<Conv1d>' 'head1x1: Option<Conv1d>' 'films: [Option<FiLM>; 8]'; do field "$w/layer.rs" "$f"; done
    for f in 'rechannel: Conv1d' 'layers: Vec<Layer>' 'head_rechannel: Conv1d'; do field "$w/array.rs" "$f"; done
}

original() { # SOURCE: the original with our functions, and with its own
    copies "$1" $build/original_ours
    copies "$1" $build/original_own
    once $build/original_ours/wavenet/activation.rs 'x.tanh()' 'crate::ours::tanh(x)'
    once $build/original_ours/wavenet/activation.rs '(-x).exp()' 'crate::ours::exp(-x)'
    once $build/original_ours/wavenet/activation.rs 'x.max(0.0)' 'crate::ours::relu(x)'
    local c
    # optimised: unoptimised, its max gives another zero
    for c in original_ours original_own; do
        rustc "${flags[@]}" --crate-type rlib --crate-name $c $build/$c/lib.rs -o $build/lib$c.rlib
        flags+=(--extern $c=$build/lib$c.rlib)
    done
    flags+=(--cfg original)
}

prepare() {
    command -v rustc >/dev/null || { echo "skipped: there is no rustc to build this with"; exit 0; }
    mkdir -p $build
    bash tools/library.sh wavenet
    if [ -f "${1:-}/src/wavenet/array.rs" ]; then
        original "$1"
    elif [ -n "${1:-}" ]; then
        echo "skipped: the original Rust, for there is no $1/src/wavenet"
    fi
    rustc "${flags[@]}" --crate-type rlib --crate-name common tools/compare/src/lib.rs -o $build/libcommon.rlib
    flags+=(--extern common=$build/libcommon.rlib)
}

program() {
    rustc "${flags[@]}" -C link-arg=$archive --crate-name "$1" "tools/$1/main.rs" -o "$build/$1"
}

start() {
    local code=0
    "$build/$1" "${@:2}" || code=$?
    [ $code != 139 ] || echo "$1 ended at a forbidden page: a call went beyond the end of a buffer"
    return $code
}
