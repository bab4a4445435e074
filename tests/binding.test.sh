# The Rust binding as a host meets it: packed, linked from anywhere, with core alone, and its examples. It needs cargo, and the archive in
# the folder that FANNAVY_STATICLIB names, or in target/staticlib.

PATH=$PATH:${HOME:-/root}/.cargo/bin
binding=$root/rust/fannavy
export FANNAVY_STATICLIB=${FANNAVY_STATICLIB:-$root/target/staticlib}

# cargo with nothing fetched, and a target folder of these tests alone.
run_cargo() {
    local verb=$1
    shift
    cargo "$verb" --quiet --offline --target-dir "$root/rust/target/tests" "$@"
}

# The same of the binding, whose lock file stays.
of_binding() {
    local verb=$1
    shift
    run_cargo "$verb" --locked --manifest-path "$binding/Cargo.toml" "$@"
}

# Whether this machine can build the binding.
has_cargo() { cargo --version >/dev/null 2>&1 || { left_out "no cargo"; return 1; }; }

# The command with its messages in the file errors.
said() { "$@" 2>errors; }

test_binding_is_packaged() {
    has_cargo || return 0
    of_binding package --allow-dirty
    local packed
    packed=fannavy-$(sed -nE 's/^version = "(.*)"$/\1/p' "$binding/Cargo.toml")
    tar -xzf "$root/rust/target/tests/package/$packed.crate"
    diff "$root/include/fannavy.h" "$packed/include/fannavy.h"
    diff "$root/NOTICE" "$packed/NOTICE"
    # By itself it does not know where the archive is, and says what to do.
    FANNAVY_STATICLIB='' status 101 said run_cargo build --manifest-path "$packed/Cargo.toml"
    mentions errors 'set FANNAVY_STATICLIB to the folder that has it'
}

test_relative_archive_folder() {
    has_cargo || return 0
    mkdir -p here/lib elsewhere
    cp "$FANNAVY_STATICLIB/libfannavy.a" here/lib
    (cd here && FANNAVY_STATICLIB=lib of_binding build)
    # One that is started there and not by a shell there, and one that names it from the package's own folder.
    FANNAVY_STATICLIB=lib env -C here cargo build --quiet --offline --locked --manifest-path "$binding/Cargo.toml" --target-dir "$PWD/target"
    (cd elsewhere && FANNAVY_STATICLIB=$(realpath --relative-to="$binding" ../here/lib) of_binding build)
    # The same name from another folder is another folder.
    (cd elsewhere && FANNAVY_STATICLIB=lib status 101 said of_binding build)
    mentions elsewhere/errors "no libfannavy.a in $PWD/elsewhere/lib, nor in "
}

# A host that has no std has a panic handler of its own, which std would be a second one beside; and where something is allocated, it
# would have to name an allocator.
test_binding_uses_core_only() {
    has_cargo || return 0
    mkdir src
    cat >Cargo.toml <<END
[package]
name = "bare"
version = "0.0.0"
edition = "2021"

[lib]
crate-type = ["staticlib"]

[profile.dev]
panic = "abort"

[dependencies]
fannavy = { path = "$binding" }

[workspace]
END
    cat >src/lib.rs <<'END'
#![no_std]

#[panic_handler]
fn stop(_: &core::panic::PanicInfo) -> ! {
    loop {}
}

#[no_mangle]
pub extern "C" fn bytes_of_a_stem() -> usize {
    fannavy::stem("evlerdir").map_or(0, |stem| stem.len())
}
END
    run_cargo build
}

test_binding_examples_run() {
    has_cargo || return 0
    example() { of_binding run --example "$@"; }
    example stem -- kitabımızdan EVLERDİR siniz >out
    has_text out $'kitabımızdan\tkitap\nEVLERDİR\tev\nsiniz\t\n'
    status 1 said example stem -- evler $'\xff' "$(printf '%097d' 0)" lar >out
    has_text out $'evler\tev\nlar\tlar\n'
    mentions errors ': a word is not UTF-8'
    mentions errors '00: a word is over '
    local text="Elektrik motorunun kapağını açın, İstanbul'daki vidaları sökün."
    example glossary -- "$text" 'elektrik motoru' KAPAK vida İstanbul >out
    has_text out $'found\telektrik motoru\nfound\tKAPAK\nfound\tvida\nfound\tİstanbul\n'
    status 1 example glossary -- "$text" kablo vida 'kapak motoru' siniz >out
    has_text out $'missing\tkablo\nfound\tvida\nmissing\tkapak motoru\nmissing\tsiniz\n'
    status 2 said example glossary
    mentions errors 'usage: glossary TEXT TERM..'
}
