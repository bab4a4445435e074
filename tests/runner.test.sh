# tests/run itself: what fails is counted as failed, and nothing that ran is no pass.

# A copy of the runner with one test file, which is read from standard input.
runner() {
    mkdir -p copy/tests
    cp "$root/tests/run" "$root/tests/lib.sh" copy/tests/
    cat >copy/tests/some.test.sh
}

test_the_runner_counts() {
    runner <<'END'
test_passes() { status 1 false; }
test_fails_before_its_end() { false; true; }
test_fails_in_a_pipe() { false | true; }
test_fails_by_an_unset_name() { echo "$unheard"; }
test_fails_by_fail() { has_text /dev/null x || true; }
END
    status 1 copy/tests/run >out
    mentions out 'tests: 1 passed, 4 failed'
    copy/tests/run passes | tail -n 1 >out
    has_text out $'tests: 1 passed, 0 failed\n'
    status 1 copy/tests/run 'no such test' >out
    mentions out 'tests: 0 passed, 0 failed'
}

test_in_ci_nothing_is_left_out() {
    runner <<'END'
test_leaves_out() { left_out "a tool"; }
END
    CI='' copy/tests/run >out
    mentions out 'left out: a tool'
    status 1 env CI=true copy/tests/run >out
    mentions out 'tests: 0 passed, 1 failed'
}
