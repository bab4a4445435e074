# What a host in C or C++ meets: the header and the example in C++. cc and c++ have to be there; clang and clang++ are tried too where
# they are. FANNAVY_STATICLIB names the archive's folder.

archive=${FANNAVY_STATICLIB:-${root-}/target/staticlib}/libfannavy.a
hosts=${root-}/tests/hosts
strict=(-Wall -Wextra -Wpedantic -Wconversion -Wsign-conversion -Wshadow -Wcast-qual -Werror)

# The compilers to try: one that has to be there and one that may be.
compilers() {
    printf '%s\n' "$1"
    if command -v "$2" >/dev/null; then printf '%s\n' "$2"; else not_tried "$2 is not there"; fi
}

# A warning, where the compiler knows it.
warning() { if "$1" -Werror "$2" -fsyntax-only -x c++ /dev/null 2>/dev/null; then printf '%s\n' "$2"; fi; }

# Compiles without a warning: as_c COMPILER FILE OPTION .., as_cpp likewise, whatever the file's name ends in.
as_c() { "$1" -std=c11 "${strict[@]}" -Wstrict-prototypes -Wmissing-prototypes -I "$root/include" "${@:2}"; }
as_cpp() {
    "$1" -std=c++17 "${strict[@]}" -Wold-style-cast $(warning "$1" -Wuseless-cast) -I "$root/include" -x c++ "$2" -x none "${@:3}"
}

# The header in one language, not inlined and inlined: clean_in as_c COMPILER, clean_in as_cpp COMPILER.
clean_in() {
    local level
    for level in -O0 -O2; do
        "$1" "$2" "$hosts/uses.c" "$archive" "$level" -o uses
        ./uses
    done
}

test_header_is_clean_in_c() {
    local compiler
    for compiler in $(compilers cc clang); do clean_in as_c "$compiler"; done
}

test_header_is_clean_in_cpp() {
    local compiler edition
    for compiler in $(compilers c++ clang++); do
        clean_in as_cpp "$compiler"
        for edition in c++11 c++20; do as_cpp "$compiler" "$hosts/uses.c" "-std=$edition" -fsyntax-only; done
    done
}

# Two files of one program may both include it, in C and in C++ at once.
test_header_is_included_twice() {
    printf '#include "fannavy.h"\nbool answer(void);\nbool answer(void) { return fannavy_is_utf8(NULL, 0); }\n' >one.c
    printf '#include "fannavy.h"\nbool more(); bool more() { return fannavy_is_utf8(nullptr, 0); }\n' >two.cpp
    printf '#include "fannavy.h"\nextern "C" bool answer(void); bool more();\n' >three.cpp
    printf 'int main() { return answer() && more() && fannavy_is_utf8(nullptr, 0) ? 0 : 1; }\n' >>three.cpp
    as_c cc one.c -c
    as_cpp c++ two.cpp -c
    as_cpp c++ three.cpp -c
    c++ one.o two.o three.o "$archive" -o both
    ./both
}

# The linker's options that put guard.c before each of the archive's calls: one that guard.c has not got is not found.
guards() { nm -g --defined-only "$archive" | sed -n 's/^.* T \(fannavy_.*\)$/-Wl,--wrap=\1/p'; }

# Every call with null pointers in one language: no_nulls as_c COMPILER OPTION .. Of length 0 none reaches the archive; one of length 1
# does, which shows that the guard stands there.
no_nulls() {
    cc -std=c11 -I "$root/include" -c "$hosts/guard.c" -o guard.o
    "$1" "$2" "$hosts/empty.c" guard.o "$archive" $(guards) "${@:3}" -o empty
    ./empty
    status 134 ./empty wrongly
}

test_null_pointer_with_length_0_in_c() {
    local compiler
    for compiler in $(compilers cc clang); do
        no_nulls as_c "$compiler" -O0
        no_nulls as_c "$compiler" -O2
    done
}

test_null_pointer_with_length_0_in_cpp() {
    local compiler
    for compiler in $(compilers c++ clang++); do
        no_nulls as_cpp "$compiler" -O0
        no_nulls as_cpp "$compiler" -O2
    done
}

# The same under the compilers' sanitizers, where they are installed.
test_null_pointer_with_length_0_sanitized() {
    local sanitize=(-fsanitize=address,undefined -fno-sanitize-recover=all)
    if ! c++ "${sanitize[@]}" -x c++ - -o probe <<<'int main() {}' 2>/dev/null || ! ./probe; then
        not_tried "the sanitizers are not there"
        return
    fi
    no_nulls as_c cc "${sanitize[@]}"
    no_nulls as_cpp c++ "${sanitize[@]}"
}

test_glossary_example() {
    local compiler
    for compiler in $(compilers c++ clang++); do
        as_cpp "$compiler" "$root/examples/glossary.cpp" "$archive" -o glossary
        ./glossary >glossary.out
        diff "$root/examples/glossary.out" glossary.out
    done
}
