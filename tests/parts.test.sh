# A list cut at line ends may be listed in parts: the theorem any-parts says it, and here GNU parallel does it.

# The stored list many times over, so that it is cut in many places, at other lines each time.
many_words() {
    local i
    for i in $(seq 40); do head -n "$((100 * i))" "$root/crates/stemlist/stdin"; done
    printf 'the last line is not closed'
}

test_parallel_lists_in_parts() {
    local block
    many_words >words
    "$stemlist" words >want
    for block in 10k 77k 10M; do
        parallel --pipe --keep-order --block "$block" "$(printf %q "$stemlist")" <words | cmp want -
    done
}

# Each part into a list of its own, whose number is the part's.
test_parallel_lists_a_file_in_parts() {
    local count
    many_words >words
    parallel --pipepart -a words --block 50k "$(printf %q "$stemlist") > list.{#}"
    count=$(ls list.* | wc -l)
    [ "$count" -gt 5 ]
    for i in $(seq "$count"); do cat "list.$i"; done | cmp <("$stemlist" <words) -
}

# A map step of an engine that hands each worker lines: any cut at line ends, the parts' lists put together in their order.
test_parts_put_together() {
    many_words >words
    split -l 7919 words part.
    [ "$(ls part.* | wc -l)" -gt 5 ]
    "$stemlist" part.* | cmp <("$stemlist" <words) -
    for part in part.*; do "$stemlist" <"$part"; done | cmp <("$stemlist" <words) -
}
