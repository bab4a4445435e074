# `stemlist --clashes`: its groups are those that comparing every entry with every other one finds.

# The groups of a list by brute force, in the form of --tabs: every two entries are compared, field by field as texts. Nothing is sorted
# but the groups, by size and then by their first entry, by looking through all of them for the next.
brute_force() {
    LC_ALL=C awk -F '\t' -v OFS='\t' -v field="$1" '
        { entry[NR] = $1; stem[NR] = NF == 2 ? "" : $field; refused[NR] = NF == 2 ? $2 : "" }
        END {
            for (i = 1; i <= NR; i++)
                for (j = 1; j <= NR; j++)
                    if (stem[i] != "" && (stem[i] "") == (stem[j] "")) { size[i]++; if (!first[i]) first[i] = j }
            for (n = NR; n > 1; n--)
                for (i = 1; i <= NR; i++)
                    if (size[i] == n && first[i] == i)
                        for (j = i; j <= NR; j++) if (first[j] == i) print n, stem[j], j, entry[j]
            for (i = 1; i <= NR; i++) if (stem[i] == "" && refused[i] == "") print 0, "", i, entry[i]
            for (i = 1; i <= NR; i++) if (refused[i] != "") print "!", refused[i], i, ""
        }'
}

# Words of the vocabulary with endings on them, numbers that are equal as numbers alone, refused lines, empty lines and empty stems.
glossary() {
    printf 'siniz\n10\n1e1\n010\n\na\tb\n\377\nleri\nEV\nev\nEv\n'
    printf '%s\n' ev evler evdir evlerdir evlerimizden kitap kitab kitaplar kitabım kitaptır ad adı ada soyad soyadı 0 -0 +0 nan inf 0x10 16
    printf 'k%.0s' $(seq 97)
    echo
    head -n 600 "$root/crates/stemlist/stdin" | cut -f 1
    head -n 300 "$root/crates/stemlist/stdin" | sed 's/$/ler/'
    printf 'no line end'
}

test_groups_are_those_of_brute_force() {
    local fold
    glossary >glossary
    for fold in '' --fold; do
        # shellcheck disable=SC2086
        "$stemlist" $fold glossary >list
        # shellcheck disable=SC2086
        "$stemlist" --clashes --tabs $fold glossary | diff <(brute_force 6 <list) -
        # shellcheck disable=SC2086
        "$stemlist" --clashes --tabs --whole $fold - <glossary | diff <(brute_force 7 <list) -
    done
    [ "$("$stemlist" --clashes --tabs glossary | grep -c '^[2-9]')" -gt 20 ]
}

test_numbers_are_texts() {
    printf '10\n1e1\n' | "$stemlist" --clashes --tabs >out
    is_empty out
}

test_a_null_character_is_kept() {
    printf '\000\nev\n\000\n' | "$stemlist" --clashes --tabs >out
    printf '2\t\000\t1\t\000\n2\t\000\t3\t\000\n' | cmp - out
}

test_clashes_for_a_person() {
    printf 'ev\nkanat\nevler\nsiniz\n\na\tb\nkanatlar\nevdir\n\377\n' | "$stemlist" --clashes >out
    has_text out "3 entries become ev
  line 1       ev
  line 3       evler
  line 8       evdir

2 entries become kanat
  line 2       kanat
  line 7       kanatlar

an empty stem, which is nobody's
  line 4       siniz
  line 5       (an empty line)

refused, and so in no group
  line 6       4, a tab in the line
  line 9       2, not UTF-8

9 entries: 5 in 2 groups of one stem, 2 with an empty stem, 2 refused
"
}

test_clashes_of_a_missing_glossary() {
    status 1 "$stemlist" --clashes missing >out 2>err
    has_text err $'stemlist: missing: No such file or directory\n'
    is_empty out
}
