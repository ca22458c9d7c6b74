# Sourced by oracle/run and bench/run: builds a program that asks las 0.11.2 and the port, each from its own source. It
# leaves the caller in the repository's folder.

build=target/oracle

fail() {
    echo "${0%/run}: $*" >&2
    exit 1
}

# Runs a command and shows what it says only if it fails.
quietly() {
    "$@" >"$build/log" 2>&1 || {
        cat "$build/log" >&2
        fail "'$*' failed"
    }
}

# The published files in a folder are those of las 0.11.2, byte for byte.
as_published() {
    (cd "$1" && sha256sum --check --quiet "$sums") || fail "$1/src is not las 0.11.2 as published"
}

# build_with_las FOLDER PROGRAM: builds the Rust program in the repository's folder PROGRAM, with las from FOLDER and the
# port's static library. Nothing is kept from an earlier build but what tools/libraries keeps.
build_with_las() {
    local folder program=$2 sums
    [ -d "$1/src" ] || fail "$1 has no src/ inside"
    folder=$(cd "$1" && pwd)
    cd "$(dirname "${BASH_SOURCE[0]}")/.."
    sums=$PWD/oracle/published.sha256
    . rust/needs.sh
    . tools/x86_64.sh
    for_x86_64
    rm -rf "$build" "$program/Cargo.lock"
    mkdir -p "$build/las" "$build/cargo"

    # What las stands on, as Debian packages it.
    local missing=() crate stub compiled published stubs
    for crate in byteorder chrono log num-traits thiserror uuid; do
        dpkg -s "librust-$crate-dev" >/dev/null 2>&1 || missing+=("librust-$crate-dev")
    done
    if [ ${#missing[@]} -gt 0 ]; then
        echo "installing ${missing[*]}"
        quietly apt-get update
        quietly env DEBIAN_FRONTEND=noninteractive apt-get install -y --no-install-recommends "${missing[@]}"
    fi
    cat >"$build/cargo/config.toml" <<END
[source.crates-io]
replace-with = "debian"

[source.debian]
directory = "$(dpkg -L librust-byteorder-dev | sed -n 's|/byteorder-[^/]*$||p')"
END

    # las: the published files, unchanged, and a stub for each file that is not published. No stub hides a published file.
    as_published "$folder"
    cp -r "$folder/src" "$build/las/"
    while read -r stub; do
        [ ! -e "$folder/$stub" ] || fail "$folder has $stub, and so has oracle/stubs"
    done < <(cd oracle/stubs && find . -type f -printf '%P\n')
    cp -r oracle/stubs/. "$build/las/"

    # The port.
    echo "proving the port"
    quietly tools/libraries

    # The program. rust/sys finds the library.
    echo "building las and $program"
    CARGO_HOME=$PWD/$build/cargo CARGO_TARGET_DIR=$build/build RUSTFLAGS='--cap-lints warn' \
        cargo build --release --quiet --offline --manifest-path "$program/Cargo.toml"

    # What was compiled is every published file but copc.rs, which is for compressed points, and every stub; nothing else.
    compiled=$(grep -o "$build/las/[^ ]*" "$build/build/$release/$program.d" | sed "s|^$build/las/||" | LC_ALL=C sort)
    published=$(sed 's|^[^ ]*  ||' "$sums" | grep -vx src/copc.rs)
    stubs=$(cd oracle/stubs && find src -type f)
    [ "$compiled" = "$(LC_ALL=C sort <<<"$published"$'\n'"$stubs")" ] || fail "las was built from other files: $compiled"
    as_published "$build/las"
    echo "las: $(wc -l <<<"$published") published files, unchanged, and $(wc -l <<<"$stubs") stubs"
}
