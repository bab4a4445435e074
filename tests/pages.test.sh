# The editors' page and the README: what they show of the sheet, and the commands that the first gives, each run as it stands there.

page=$root/docs/EDITORS.md

# The command that the page gives with this beginning, which it gives once.
command_of() {
    local found
    found=$(sed -n 's/^      \([^ ].* words\.txt > mended\.txt\)$/\1/p' "$page" | grep -F -- "$1")
    [ "$(wc -l <<<"$found")" -eq 1 ] || fail "the page has no command, or several, with: $1"
    printf '%s\n' "$found"
}

# The broken words have no right sheet; mended by the page's command, in either locale, they have that of the right words.
mends() {
    local command locale
    command=$(command_of "$1")
    printf "$2" >words.txt
    printf "$3" | "$stemlist" >want
    "$stemlist" words.txt >sheet
    if cmp -s want sheet; then fail "nothing is wrong with the words"; fi
    for locale in C C.UTF-8; do
        LC_ALL=$locale bash -c "$command"
        "$stemlist" mended.txt | diff want - || fail "not mended by: $command"
    done
}

test_a_byte_order_mark() {
    mends '1s/^' '\xEF\xBB\xBFderleyiciler\nevler\n' 'derleyiciler\nevler\n'
    sed -n 1p sheet | cut -f 6 | od -c | grep -q '357 273 277'
}

test_carriage_returns() { mends "tr -d" 'evler\r\nkitaplar\r\n' 'evler\nkitaplar\n'; }

test_spaces_behind_a_word() { mends 'LC_ALL=C sed -E' 'evler \nkitaplar\xC2\xA0\xC2\xA0\nağaçlar\n' 'evler\nkitaplar\nağaçlar\n'; }

test_marks_behind_a_word() { mends ';:' 'evler.\nkitaplar?)\nağaçlar,\nlar]\n' 'evler\nkitaplar\nağaçlar\nlar\n'; }

test_decomposed_letters() { mends 'NFC' 'ayag\xCC\x86\ndag\xCC\x86lar\ngo\xCC\x88zler\n' 'ayağ\ndağlar\ngözler\n'; }

test_utf_16() {
    mends 'iconv' "$(printf 'evler\nkitaplar\nağaçlar\n' | iconv -f UTF-8 -t UTF-16 | od -An -v -tx1 | tr -d '\n' | sed 's/ /\\x/g')" 'evler\nkitaplar\nağaçlar\n'
    head -n 1 sheet | grep -qx '!.2'
    tr '\000' . <sheet | grep -q '^\.k\.i\.t\.a'
}

test_capital_first_letters() {
    grep -qF './stemlist --fold words.txt > sheet.txt' "$page"
    printf 'Evler\nAğaçlar\n' >words.txt
    "$stemlist" words.txt | cut -f 3,6 >sheet
    has_text sheet $'N\tEvler\nY\tAğaç\n'
    "$stemlist" --fold words.txt | cut -f 3,6 >sheet
    has_text sheet $'Y\tev\nY\tağaç\n'
}

# A page has these lines as a block, indented.
shows() {
    perl -0777 -e '
        open my $file, "<", $ARGV[0] or die;
        my ($page, $block) = (scalar <$file>, scalar <STDIN>);
        $block =~ s/^(?=.)/    /gm;
        exit(index($page, "\n\n$block\n") < 0)' "$1" || fail "$1 does not show this"
}

test_the_readmes_list() {
    grep -qxF '    ./stemlist examples/words.txt' "$root/README.md"
    "$stemlist" "$root/examples/words.txt" | shows "$root/README.md"
}

test_the_pages_clashes() {
    grep -qF './stemlist --clashes examples/terms.txt' "$page"
    "$stemlist" --clashes "$root/examples/terms.txt" | shows "$page"
    "$stemlist" --clashes --whole "$root/examples/terms.txt" | grep -A 2 'become ev$' | grep -q evlerdir
}

# Each row of the worked example is the program's line of that word.
test_the_pages_worked_example() {
    sed -n '/^## A worked example/,/^- /s/^| \([a-zğıış]*\) | \([YN]\) | \([YN]\) | \([01]\) | *\(.*\) |$/\1 | \2 | \3 | \4 | \5/p' "$page" >rows
    [ "$(wc -l <rows)" -eq 9 ]
    cut -d ' ' -f 1 rows | "$stemlist" | sed 's/\t/ | /g; s/ *$//; s/  */ /g' | diff <(sed 's/ *$//; s/  */ /g' rows) -
}
