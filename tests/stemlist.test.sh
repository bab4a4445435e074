# The program with its launcher, as a user meets them: inputs, errors and their status, signals, trees that cannot be built.

evler=$'evler\tY\tY\t0\tev\tev\tev\n'
lar=$'lar\tN\tN\t1\tlar\tlar\tlar\n'

# ---- inputs ----

test_words_from_standard_input() {
    echo evler | "$stemlist" >out 2>err
    has_text out "$evler"
    is_empty err
}

test_files_in_their_order_and_a_dash_between() {
    printf 'evler' >'no line end'
    echo lar >second
    echo evler | "$stemlist" 'no line end' - second >out 2>err
    has_text out "$evler$evler$lar"
    is_empty err
}

test_a_file_named_like_an_option() {
    echo evler >--fold
    echo lar >-
    "$stemlist" -- --fold ./- >out
    has_text out "$evler$lar"
}

test_empty_inputs_give_nothing() {
    : >nothing
    "$stemlist" nothing nothing >out 2>err
    "$stemlist" </dev/null >>out 2>>err
    is_empty out
    is_empty err
}

test_folded() {
    printf 'EVLER\nIŞIKLAR\nİZLER\nevler\n' >words
    "$stemlist" --fold words >out 2>err
    printf 'evler\nışıklar\nizler\nevler\n' | "$stemlist" >want
    diff want out
    is_empty err
    "$stemlist" words --fold | diff want -
}

# Where the folded form is over the limit it is refused as such, and a refused word stays refused.
test_folded_and_refused() {
    local long
    long=$(printf 'I%.0s' $(seq 49))
    printf '%s\n\377\nA\tB\n%s%s\n' "$long" "$long" "$long" >words
    "$stemlist" --fold words >out
    has_text out $'!\t1\n!\t2\n!\t4\n!\t1\n'
    "$stemlist" words | sed -n 1p | cut -c 1-4 >out
    has_text out $'IIII\n'
}

test_line_by_line_at_a_pipe() {
    mkfifo words list
    "$stemlist" <words >list &
    exec 3>words 4<list
    echo evler >&3
    read -r -t 60 line <&4
    [ "$line"$'\n' = "$evler" ]
    echo lar >&3
    read -r -t 60 line <&4
    [ "$line"$'\n' = "$lar" ]
    exec 3>&-
    wait $!
}

# ---- errors ----

test_a_full_output() {
    echo evler >words
    status 1 "$stemlist" words >/dev/full 2>err
    has_text err $'stemlist: standard output: No space left on device\n'
    head -n 100000 < <(yes evler) >words
    status 1 "$stemlist" <words >/dev/full 2>err
    has_text err $'stemlist: standard output: No space left on device\n'
    status 1 "$stemlist" --help >/dev/full
    status 1 "$stemlist" --version >/dev/full
    status 1 env --default-signal=PIPE "$stemlist" --clashes words >/dev/full 2>err
    has_text err $'stemlist: standard output: No space left on device\n'
}

# A shell's limit for idle users is none for a slow input.
test_a_slow_input_under_tmout() {
    (sleep 2; echo evler) | TMOUT=1 status 1 "$stemlist" - missing >out 2>err
    has_text out "$evler"
    has_text err $'stemlist: missing: No such file or directory\n'
}

test_a_closed_output() {
    echo evler | status 1 "$stemlist" >&- 2>err
    has_text err $'stemlist: standard output: Bad file descriptor\n'
}

test_a_closed_input() {
    status 1 "$stemlist" <&- >out 2>err
    is_empty out
    has_text err $'stemlist: standard input: Bad file descriptor\n'
    echo evler >words
    "$stemlist" words <&- >out 2>err
    has_text out "$evler"
    is_empty err
}

test_a_closed_standard_error() {
    echo evler | "$stemlist" 2>&- >out
    has_text out "$evler"
    status 1 "$stemlist" missing 2>&- >out
}

test_a_directory() {
    mkdir folder
    status 1 "$stemlist" folder >out 2>err
    is_empty out
    has_text err $'stemlist: folder: Is a directory\n'
    status 1 "$stemlist" <folder 2>err
    has_text err $'stemlist: standard input: Is a directory\n'
}

test_a_missing_file_among_several() {
    echo evler >first
    echo lar >last
    status 1 "$stemlist" first 'not there' last >out 2>err
    has_text out "$evler$lar"
    has_text err $'stemlist: not there: No such file or directory\n'
}

test_a_file_that_may_not_be_read() {
    tree tree
    chmod -R a+rX . tree
    echo evler >secret
    chmod 0 secret
    status 1 as_nobody tree/stemlist secret >out 2>err
    is_empty out
    has_text err $'stemlist: secret: Permission denied\n'
}

test_a_name_that_is_too_long() {
    status 1 "$stemlist" "$(printf 'a%.0s' $(seq 300))" "$(printf 'a%.0s' $(seq 5000))" >out 2>err
    is_empty out
    [ "$(grep -c ': File name too long$' err)" -eq 2 ]
}

# Not on a file system that has no such name.
test_a_name_that_is_not_utf_8() {
    echo evler >words
    cp words $'\377' || { not_tried "no file can have such a name"; return; }
    status 1 "$stemlist" $'\377' words >out 2>err
    has_text out "$evler"
    has_text err $'stemlist: \377: Invalid or incomplete multibyte or wide character\n'
    "$stemlist" <$'\377' >out
    has_text out "$evler"
}

test_wrong_arguments() {
    local arguments
    for arguments in --nothing -f --whole --tabs '--clashes a b'; do
        # shellcheck disable=SC2086
        status 2 "$stemlist" $arguments </dev/null >out 2>err
        is_empty out
        mentions err 'usage: stemlist'
    done
}

# ---- signals ----

test_a_closed_pipe_ends_it_quietly() {
    local statuses
    set +e
    yes evler | env --default-signal=PIPE "$stemlist" 2>err | head -n 1 >out
    statuses=("${PIPESTATUS[@]}")
    set -e
    [ "${statuses[1]}" -eq 141 ]
    has_text out "$evler"
    is_empty err
}

# To who ignores the signal it is an error like any other.
test_a_closed_pipe_under_an_ignored_signal() {
    local statuses
    set +e
    yes evler | env --ignore-signal=PIPE "$stemlist" 2>err | head -n 1 >out
    statuses=("${PIPESTATUS[@]}")
    set -e
    [ "${statuses[1]}" -eq 1 ]
    has_text out "$evler"
    has_text err $'stemlist: standard output: Broken pipe\n'
}

# A signal for the launcher alone ends the program too, and both by that signal.
test_signals_reach_the_program() {
    local name
    for name in TERM HUP INT; do
        perl "$root/tests/signalled.pl" "$name" lists "$stemlist" >out
        has_text out "ended by $name, and its output closed"$'\n'
        perl "$root/tests/signalled.pl" "$name" waits "$stemlist" --clashes >out
        has_text out "ended by $name, and its output closed"$'\n'
    done
}

# ---- what it says of itself ----

test_help_fits_eighty_columns() {
    local line
    "$stemlist" -h >out
    "$stemlist" --help | diff out -
    while IFS= read -r line; do
        case $line in 'Manual: '*) continue ;; esac
        [ ${#line} -le 80 ] || fail "over 80 columns: $line"
    done <out
    sed -n 's/^Manual: //p' out >manual
    (cd / && MANPAGER=cat PAGER=cat bash -c "$(cat "$OLDPWD/manual")") | grep -q 'list Turkish words'
}

test_one_version_everywhere() {
    local version
    version=$(sed -n 's/^#define FANNAVY_VERSION "\(.*\)"$/\1/p' "$root/include/fannavy.h")
    [ -n "$version" ]
    has_text <("$stemlist" --version) "stemlist (Fannavy) $version"$'\n'
    grep -q "^version = \"$version\"$" "$root/rust/fannavy/Cargo.toml"
    grep -q "^\.TH STEMLIST 1 .*\"Fannavy $version\"" "$root/docs/stemlist.1"
}

# ---- the tree that it stands in ----

# A copy of what the launcher looks at, with the program, which is also where rt puts it.
tree() {
    mkdir -p "$1/target/bin" "$1/crates/stemlist/out" "$1/docs"
    cp "$stemlist" "$1/"
    cp -r "$root/libexec" "$1/"
    cp "$root/docs/stemlist.1" "$1/docs/"
    touch -d '2020-01-01' "$1/crates.txt"
    cp "$root/target/bin/stemlist" "$1/crates/stemlist/out/"
    cp "$root/target/bin/stemlist" "$1/target/bin/"
}

# The PATH without rt.
without_rt() { PATH=/usr/bin:/bin "$@"; }

test_a_path_with_spaces() {
    tree 'a tree'
    ln -s "$PWD/a tree/stemlist" 'a link'
    mkdir 'another folder'
    echo evler >'some words'
    (cd 'another folder' && "../a link" '../some words') >out 2>err
    has_text out "$evler"
    is_empty err
    './a tree/stemlist' --clashes 'some words' >out
    mentions out '1 entry: 0 in 0 groups'
}

test_without_the_kit_an_old_program_runs() {
    tree tree
    touch -d tomorrow tree/crates.txt
    echo evler | without_rt tree/stemlist >out 2>err
    has_text out "$evler"
    [ "$(wc -l <err)" -eq 1 ]
    mentions err 'a source is newer than the program, which runs as it was built: the Rattle kit'
}

test_without_the_kit_nothing_is_built() {
    tree tree
    rm tree/target/bin/stemlist
    echo evler | status 1 without_rt tree/stemlist >out 2>err
    is_empty out
    has_text err $'stemlist: the program cannot be built: the Rattle kit\'s command rt is not on the PATH\n'
}

# An rt that proves nothing: it says what is in the file `says`, and leaves the program as it is.
stand_in_rt() {
    mkdir bin
    printf '#!/bin/sh\ncat "%s"\n' "$PWD/says" >bin/rt
    chmod +x bin/rt
    PATH=$PWD/bin:$PATH
}

# What rt says where only dates changed.
said_of_nothing_new() {
    printf 'rt: nothing has changed since the last proved build, by out/stemlist.stamp, so nothing is checked now\n'
    printf 'rt: running out/stemlist; to give it other input, run that file yourself\n'
}

test_changed_dates_say_nothing() {
    tree tree
    stand_in_rt
    said_of_nothing_new >says
    touch tree/crates.txt
    echo evler | tree/stemlist >out 2>err
    has_text out "$evler"
    is_empty err
    : >says
    [ tree/target/bin/stemlist -nt tree/crates.txt ]
}

test_a_changed_source_is_told() {
    tree tree
    stand_in_rt
    cat >says <<'END'
rt: chose --jobs 2 for lines
fn lines::listed::put_listed: proved
logic /opt/kit/antt-project.json: libraries=16 files=2756 sum=0
library words: modules loaded=22 checked=0
crate lines: modules loaded=0 checked=33
logic=proved functions=9 sum=0 native=nat,char,string
rt: listing: begins with what a check kept in /another/crates/listing
crate listing: modules loaded=33 checked=1
logic=proved functions=9 sum=0 native=nat,char,string
linked target=x86_64-unknown-linux-gnu files=out/stemlist.o
rt: running out/stemlist; to give it other input, run that file yourself
END
    touch -d '1 minute' tree/crates.txt
    echo evler | tree/stemlist >out 2>err
    has_text out "$evler"
    has_text err $'stemlist: proving and building, this once; it takes some minutes\nstemlist: lines proved\nstemlist: listing proved\n'
}

# What rt writes beside the sources is none of them.
test_what_rt_writes_is_no_source() {
    tree tree
    touch -d tomorrow tree/crates/stemlist/out/stemlist.stamp
    echo evler | without_rt tree/stemlist >out 2>err
    has_text out "$evler"
    is_empty err
}

test_a_failed_build_is_told() {
    tree tree
    stand_in_rt
    echo 'rt: lines NOT PROVED' >says
    printf 'exit 1\n' >>bin/rt
    touch -d tomorrow tree/crates.txt
    echo evler | status 1 tree/stemlist >out 2>err
    is_empty out
    mentions err 'stemlist: lines NOT PROVED'
    mentions err "stemlist: it was not built; $PWD/tree/target/stemlist.log says why"
}

# A command as a user who may write nothing of ours.
as_nobody() {
    if [ "$(id -u)" -eq 0 ]; then setpriv --reuid=65534 --regid=65534 --clear-groups -- "$@"; else "$@"; fi
}

test_a_read_only_tree() {
    tree tree
    stand_in_rt
    : >says
    chmod 755 .
    chmod -R a+rX,a-w tree bin
    echo evler | as_nobody tree/stemlist >out 2>err
    has_text out "$evler"
    is_empty err
    touch -d tomorrow tree/crates.txt
    echo evler | as_nobody tree/stemlist >out 2>err
    has_text out "$evler"
    mentions err "a source is newer than the program, which runs as it was built: $PWD/tree/target cannot be written"
    chmod a+w tree/target
    echo evler | as_nobody tree/stemlist >out 2>err
    has_text out "$evler"
    mentions err "a source is newer than the program, which runs as it was built: $PWD/tree/crates/stemlist cannot be written"
}

test_a_read_only_tree_with_no_program() {
    tree tree
    stand_in_rt
    : >says
    rm -r tree/target
    chmod 755 .
    chmod -R a+rX,a-w tree bin
    echo evler | status 1 as_nobody tree/stemlist >out 2>err
    is_empty out
    has_text err "stemlist: the program cannot be built: $PWD/tree cannot be written"$'\n'
}

test_the_program_runs_alone() {
    cp "$root/target/bin/stemlist" alone
    echo EVLER >words
    echo lar | ./alone --fold words - >out 2>err
    has_text out "$evler$lar"
    is_empty err
}
