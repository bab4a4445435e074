# What `make install` puts and `make uninstall` takes away. make, pkg-config and cc have to be there, and the program and the archive have
# to be built.

archive=${root-}/target/staticlib/libfannavy.a

# What is installed, below PREFIX.
installed='bin/stemlist
include/fannavy.h
lib/libfannavy.a
lib/pkgconfig/fannavy.pc
libexec/fannavy/clashes
libexec/fannavy/stemlist
share/man/man1/stemlist.1
'

# make as from a shell of its own: tests may run below a make, whose options are not theirs.
clean_make() { env -u MAKEFLAGS -u MAKELEVEL -u PREFIX -u DESTDIR make --no-print-directory "$@"; }

# make in the repository, of what is built there.
of_root() {
    [ -x "$root/target/bin/stemlist" ] && [ -f "$archive" ] || fail "the program and the archive are not built"
    clean_make -C "$root" "$@"
}

# All that is not a folder, below a folder, sorted.
files() { (cd "$1" && find . ! -type d -printf '%P\n' | LC_ALL=C sort); }

test_install_and_uninstall() {
    local stage="$PWD/a stage" there="$PWD/a stage/opt/a place"
    of_root install "PREFIX=/opt/a place" "DESTDIR=$stage"
    files "$there" >list
    has_text list "$installed"
    [ "$(files "$stage" | wc -l)" -eq "$(wc -l <list)" ] || fail "files outside PREFIX"
    cmp "$root/stemlist" "$there/bin/stemlist"
    cmp "$root/target/bin/stemlist" "$there/libexec/fannavy/stemlist"
    cmp "$archive" "$there/lib/libfannavy.a"
    if grep -rlF "$stage" "$stage"; then fail "the folder DESTDIR is named above"; fi

    of_root uninstall "PREFIX=/opt/a place" "DESTDIR=$stage"
    files "$stage" >list
    is_empty list
    [ ! -e "$there/libexec/fannavy" ] || fail "libexec/fannavy is left"
    of_root uninstall "PREFIX=/opt/a place" "DESTDIR=$stage"
}

test_install_is_readable_whatever_the_umask() {
    (umask 077 && of_root install PREFIX=/usr "DESTDIR=$PWD/stage")
    find stage ! -perm -444 >list
    is_empty list
    find stage/usr/bin stage/usr/libexec ! -perm -111 >list
    is_empty list
}

test_uninstall_leaves_what_is_not_ours() {
    of_root install "PREFIX=$PWD"
    touch libexec/fannavy/another
    of_root uninstall "PREFIX=$PWD"
    files . >../list
    has_text ../list $'libexec/fannavy/another\n'
}

test_folders_are_set_one_by_one() {
    of_root install PREFIX=/usr libdir=/usr/lib/x86_64-linux-gnu mandir=/usr/man "DESTDIR=$PWD/stage"
    mentions stage/usr/lib/x86_64-linux-gnu/pkgconfig/fannavy.pc 'libdir=${prefix}/lib/x86_64-linux-gnu'
    [ -f stage/usr/lib/x86_64-linux-gnu/libfannavy.a ] && [ -f stage/usr/man/man1/stemlist.1 ]
}

# The launcher would not find its program, and pkg-config not the header.
test_install_refuses_folders_that_do_not_fit() {
    status 2 of_root install PREFIX=/usr libexecdir=/usr/lib "DESTDIR=$PWD/stage" 2>said
    mentions said 'libexecdir has to be the folder libexec beside bindir'
    status 2 of_root install PREFIX=usr "DESTDIR=$PWD/stage/" 2>said
    mentions said 'not an absolute path: usr/bin'
    [ ! -e stage ] || fail "something was installed"
}

# In a copy of the repository with a stand-in for rt, which tells what it was asked and builds a file with nothing in it; where the file
# `idle` is, it builds nothing.
tree_to_build() {
    mkdir -p tree/crates/stemlist tree/crates/fannavy bin
    cp -r "$root/Makefile" "$root/stemlist" "$root/include" "$root/docs" "$root/libexec" tree
    cat >bin/rt <<'RT'
#!/bin/sh
name=${PWD##*/}
echo "$* in $name" >>../../../asked
[ ! -e ../../../idle ] || exit 0
case $1 in run) file=out/$name ;; lib) file=out/lib$name.a ;; esac
mkdir -p out && : >"$file"
RT
    chmod +x bin/rt
    PATH=$PWD/bin:$PATH
}

# What is missing is built, what is there is taken however old it is.
test_install_builds_only_what_is_missing() {
    tree_to_build
    clean_make -C tree install "PREFIX=$PWD/there"
    has_text asked $'run in stemlist\nlib in fannavy\n'
    touch -d 2001-01-01 tree/target/bin/stemlist tree/target/staticlib/libfannavy.a
    clean_make -C tree install "PREFIX=$PWD/there"
    rm tree/target/staticlib/libfannavy.a
    clean_make -C tree install "PREFIX=$PWD/there"
    has_text asked $'run in stemlist\nlib in fannavy\nlib in fannavy\n'
    clean_make -C tree
    has_text asked $'run in stemlist\nlib in fannavy\nlib in fannavy\nrun in stemlist\nlib in fannavy\n'
}

# An archive that an earlier build left is not taken for that of this one.
test_an_archive_is_that_of_its_build() {
    tree_to_build
    tree/libexec/build fannavy
    rm tree/target/staticlib/libfannavy.a
    touch idle
    status 1 tree/libexec/build fannavy 2>said
    [ ! -e tree/target/staticlib/libfannavy.a ] || fail "it was taken"
}

# With a space in its path: eval reads pkg-config's answer as the shell means it.
test_pkg_config_builds_a_program() {
    local there="$PWD/a place"
    of_root install "PREFIX=$there"
    export PKG_CONFIG_PATH=$there/lib/pkgconfig
    eval "cc -std=c11 '$root/examples/stem.c' $(pkg-config --cflags --libs fannavy) -o stem"
    ./stem >stem.out
    diff "$root/examples/stem.out" stem.out
    [ "$(pkg-config --variable=libdir fannavy)" = "$there/lib" ]
    mentions "$there/include/fannavy.h" "#define FANNAVY_VERSION \"$(pkg-config --modversion fannavy)\""
}

# Without the kit, from another folder, and through a symbolic link.
test_installed_program_runs() {
    local line=$'evler\tY\tY\t0\tev\tev\tev\n'
    of_root install "PREFIX=$PWD/there"
    mkdir elsewhere
    ln -s "$PWD/there/bin/stemlist" elsewhere/words
    cd elsewhere
    PATH=/usr/bin:/bin
    echo evler | ../there/bin/stemlist >lines
    has_text lines "$line"
    echo evler | ./words >lines
    has_text lines "$line"
    printf 'ev\nevler\n' | ./words --clashes --tabs >lines
    has_text lines $'2\tev\t1\tev\n2\tev\t2\tevler\n'
    ./words --help >lines
    mentions lines "Manual: man -l $(realpath ../there/share/man/man1/stemlist.1)"
}
