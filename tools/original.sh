#!/bin/sh
# Sourced by the scripts that compare with the Rust original: builds it, and this library's archive.
#   . tools/original.sh; build_with CHECKOUT NAME   compiles tools/rust/NAME.rs against both, to target/original/NAME
# CHECKOUT is a checkout of EventLAB-Team/eventcv at commit cfbccf43b6, or a folder with these files of it, each with or
# without `.txt` behind its name: crates/eventcv-core/src/lib.rs, io.rs, io/text.rs and io/prophesee_raw.rs.
# tools/original/cut.py cuts what is needed out of it, to target/original/from; nothing of it enters the repository.
# Wanted are Python 3, Rust 1.88 or later, and the crate memmap2: from Debian's package librust-memmap2-dev where that is
# installed, else from crates.io. ARCHIVE=FILE takes that archive, and builds and proves none.
build_original() { # CHECKOUT
    from=target/original/from registry=/usr/share/cargo/registry
    mkdir -p "$from" && cp -Rp tools/original/. "$from" || return 2
    python3 tools/original/cut.py "$1" "$from/cut" || return 2
    set -- build --release --quiet
    if [ -n "$(find "$registry" -maxdepth 1 -name 'memmap2-*' 2>/dev/null)" ]; then
        set -- "$@" --offline --config "source.debian.directory='$registry'" --config "source.crates-io.replace-with='debian'"
    fi
    (cd "$from" && cargo "$@") && return 0
    case $* in *debian*) ;; *) echo "the original maps files by the crate memmap2: apt-get install librust-memmap2-dev" >&2 ;; esac
    return 2
}

build_archive() { # to target/original/libprophesee_raw_c.a
    mkdir -p target/original || return 2
    if [ -n "$ARCHIVE" ]; then
        cp "$ARCHIVE" target/original/libprophesee_raw_c.a
        return
    fi
    (cd crates/prophesee_raw_c && rt lib) >target/original/lib.log 2>&1 || { tail -n 5 target/original/lib.log; return 2; }
    cp crates/prophesee_raw_c/out/libprophesee_raw_c.a target/original/libprophesee_raw_c.a
}

build_with() { # CHECKOUT NAME
    build_original "$1" && build_archive || return 2
    rustc --edition 2021 -C opt-level=3 -o "target/original/$2" "tools/rust/$2.rs" \
        --extern "eventcv=target/original/from/target/release/libeventcv.rlib" -L dependency=target/original/from/target/release/deps \
        -L native=target/original -l static=prophesee_raw_c
}
