#!/usr/bin/env bash
# What packaging/test.sh tries, in the new system, where dist/ is /given. Packages are installed one after the other, each just before it is
# tried, so that one that doesn't name what it depends on is found.
set -uo pipefail
# (in pipes grep reads all there is: one that ends early would fail what writes to it)
cd /root || exit 1
mount -t proc proc /proc
mount -t devpts -o newinstance,ptmxmode=0666 devpts /dev/pts
passed=0 failed=0
doc=/usr/share/doc/hugepool
replay_in_python='import hugepool, sys; sys.stdout.write(hugepool.replay(sys.stdin.read()))'
find_in_python='import hugepool, sys
script, asked = sys.stdin.read(), ["answer 1:1=SIGSEGV"]
found = hugepool.minimize(hugepool.find(script, asked).trace, asked)
sys.stdout.write(found if hugepool.find_every(script, asked) == found else "")'
trace=$doc/examples/map-four-of-four.trace

# Whether a command ends well. If not, what it printed is shown.
try() {
    local what=$1
    shift
    if "$@" > /tmp/said 2>&1; then
        passed=$((passed + 1))
    else
        failed=$((failed + 1))
        echo "  not so: $what"
        tail -n 20 /tmp/said | sed 's/^/    /'
    fi
}

has_none_of() {
    local it
    for it in "$@"; do ! command -v "$it" || return 1; done
}

installs() { apt-get -qq -y --no-install-recommends install "$@" < /dev/null; }

installs_given() { installs /given/"$1"_*.deb; }

# The traces of the package, through a program that replays: each prints what stands beside it. (A trace with a status isn't right.)
replays_all() {
    local it count=0
    for it in "$doc"/examples/*.trace; do
        [ ! -e "${it%.trace}.status" ] || continue
        "$@" < "$it" | cmp - "${it%.trace}.out" || return 1
        count=$((count + 1))
    done
    [ "$count" -ge 10 ]
}

# Only the outcomes, in a program that prints these: as many lines as there are events.
prints_outcomes() {
    local events
    events=$(($(wc -l < "$trace") - 1))
    "$@" < "$trace" | cmp - <(head -n "$events" "${trace%.trace}.out")
}

# A small run of a script by conditions, as a program prints it: a task loads a page that it didn't map.
finds() {
    printf 'pool 1 1 1 1\nbegin 1 load 0\n' | "$@" | cmp - <(printf 'pool 1 1 1 1\nbegin 1 load 0\nstep 1\n')
}

finds_and_minimizes() { hugepool find --answer 1:1=SIGSEGV | hugepool minimize --answer 1:1=SIGSEGV; }

# Runs what the manual page of each command shows, in the folder that it names
runs_its_examples() {
    local words
    man hugepool-replay | col -bx | sed -n 's/^ *\(hugepool [a-z]* \(< \)\?examples[^>|]*\).*/\1/p' > /tmp/examples
    [ "$(wc -l < /tmp/examples)" -ge 4 ] || return 1
    while read -r words; do (cd "$doc" && eval "$words" > /dev/null) || return 1; done < /tmp/examples
}

# Whether a manual page has this text.
has_page() {
    local wanted=$1
    shift
    man "$@" | grep -F -- "$wanted" > /dev/null
}

has_all_pages() {
    local it
    for it in $(hugepool --help | sed -n '/^Commands:/,/^$/s/^  \([a-z]*\) .*/\1/p'); do
        [ "$it" = help ] || man "hugepool-$it" | grep "hugepool $it" > /dev/null || return 1
    done
}

same_version() { [ "$(hugepool --version)" = "hugepool $(pkg-config --modversion hugepool)" ]; }

# shellcheck disable=SC2046  # (pkg-config prints several words)
compiles() {
    cp /usr/share/doc/libhugepool-dev/examples/* . &&
        cc -Wall -Werror -o branches branches.c $(pkg-config --cflags --libs hugepool) && ldd branches | grep 'libhugepool.so.1 => /' > /dev/null &&
        cc -Wall -Werror -o find find.c $(pkg-config --cflags --libs hugepool)
}

compiles_statically() { cc -Wall -Werror -o branches-static branches.c -l:libhugepool.a && ! ldd branches-static | grep hugepool; }

# shellcheck disable=SC2046
compiles_with_tar() {
    local own=/opt/hugepool
    mkdir -p $own && tar -C $own --strip-components=1 -xzf /given/hugepool-*-x86_64.tar.gz &&
        cc -o branches-tar branches.c $(PKG_CONFIG_PATH=$own/lib/pkgconfig pkg-config --cflags --libs hugepool) -Wl,-rpath,$own/lib &&
        ldd branches-tar | grep "$own" > /dev/null
}

exports_only_its_calls() {
    local names
    names=$(nm -D --defined-only /usr/lib/x86_64-linux-gnu/libhugepool.so.1 | awk '$2 != "A" { print $3 }')
    [ -n "$names" ] && ! grep -v '^hugepool_.*@@HUGEPOOL_1$' <<< "$names"
}

says_what_is_proved() { grep -q '^commit [0-9a-f]\{40\}' "$1" && grep -q 'sha256 [0-9a-f]\{64\}' "$1"; }

# the program in the .tar.gz is the one whose checksum PROVED has
is_the_proved_program() { grep -q "^hugepool, sha256 $(sha256sum < "$1" | cut -d' ' -f1)$" "$doc/PROVED"; }

# A program in Rust that replays, by the crate that lies in /given.
writes_in_rust() {
    mkdir -p in-rust/src &&
        printf '[package]\nname = "in-rust"\nversion = "0.0.0"\nedition = "2021"\n[dependencies]\nhugepool = { path = "%s" }\n' \
            /given/library/rust/hugepool > in-rust/Cargo.toml &&
        cat > in-rust/src/main.rs << 'END'
use std::io::{stdin, Read};

fn main() {
    let mut trace = Vec::new();
    stdin().read_to_end(&mut trace).unwrap();
    print!("{}", hugepool::replay(&trace).unwrap());
}
END
}

# (each time anew: what cargo kept of another way to find the library would be taken)
compiles_in_rust() {
    rm -rf in-rust/target && env "$@" cargo build --quiet --offline --manifest-path in-rust/Cargo.toml &&
        ldd in-rust/target/debug/in-rust | grep 'libhugepool.so.1 => /lib/' > /dev/null
}

# The crates' own tests, which read the traces where a clone has them
passes_in_rust() {
    ln -sfn $doc/examples /given/examples && CARGO_TARGET_DIR=/root/tests cargo test --quiet --offline --manifest-path /given/library/rust/Cargo.toml
}

# What bash offers for a line, by what the package bash-completion loads for the program.
offers_in_bash() {
    bash -c '. /usr/share/bash-completion/bash_completion; wanted=$1; shift
        _completion_loader hugepool; COMP_WORDS=("$@") COMP_CWORD=$(($# - 1))
        "$(complete -p hugepool | sed "s/.*-F \([^ ]*\).*/\1/")"
        echo "${COMPREPLY[*]}"; [ "${COMPREPLY[*]}" = "$wanted" ]' - "$@"
}

offers_in_fish() {
    local offered
    offered=$(fish -c "complete -C '$2'" | cut -f1)
    echo "$offered"
    [ "${offered//$'\n'/ }" = "$1" ]
}

completes_in_zsh() {
    zsh -f /given/test_zsh.zsh
    cmp <(hugepool schedule --seed 7 < $doc/examples/truncate-against-store.script) /tmp/completed
}

# (it brings its own library: that of the package is moved away meanwhile)
installs_wheel() {
    local own=/usr/lib/x86_64-linux-gnu/libhugepool.so.1
    python3 -m venv /root/venv && /root/venv/bin/pip install --no-index /given/hugepool-*.whl && mv $own $own.away || return 1
    /root/venv/bin/python -c 'import hugepool; print(hugepool.library_version())'
    local status=$?
    mv $own.away $own
    return $status
}

leaves_nothing() {
    dpkg --purge python3-hugepool libhugepool-dev libhugepool1 hugepool && ! find /usr /etc /var/lib/dpkg/info -name '*hugepool*' | grep .
}

try "packages are found" apt-get -qq update
try "there is no toolchain, compiler or program" has_none_of rt rattle cc hugepool
try "hugepool installs" installs_given hugepool
try "hugepool replay prints what stands beside the traces" replays_all hugepool replay
try "hugepool find and minimize" finds finds_and_minimizes
try "hugepool find --every" finds hugepool find --every --answer 1:1=SIGSEGV
try "PROVED names a commit and checksums" says_what_is_proved $doc/PROVED

try "python3-hugepool finds no libhugepool1 by itself" bash -c '! apt-get -qq -y install /given/python3-hugepool_*.deb < /dev/null'
try "libhugepool1 installs" installs_given libhugepool1
try "python3-hugepool installs" installs_given python3-hugepool
try "python3 -c 'import hugepool'" python3 -c 'import hugepool'
try "Python replays the traces" replays_all python3 -c "$replay_in_python"
try "Python finds and minimizes" finds python3 -c "$find_in_python"
try "PROVED stands beside the library" says_what_is_proved /usr/share/doc/libhugepool1/PROVED

try "pip and venv install" installs python3-venv python3-pip
try "the wheel installs in an environment of its own" installs_wheel
try "PROVED stands in the wheel" says_what_is_proved /root/venv/lib/python3.*/site-packages/hugepool/PROVED
try "there Python replays the traces, too" replays_all /root/venv/bin/python -c "$replay_in_python"
try "there Python finds and minimizes, too" finds /root/venv/bin/python -c "$find_in_python"

try "man-db installs" installs man-db bsdextrautils
try "man hugepool-trace" has_page "Outcomes" 5 hugepool-trace
try "man hugepool" has_page "hugepool-replay(1)" hugepool
try "each command has a page" has_all_pages
try "the commands of a page run" runs_its_examples

try "libhugepool-dev installs" installs_given libhugepool-dev
try "gcc and pkg-config install" installs gcc libc6-dev pkg-config
try "pkg-config has the program's version" same_version
try "C programs compile by pkg-config" compiles
try "one prints the outcomes" prints_outcomes ./branches
try "the other finds and minimizes" finds ./find 'answer 1:1=SIGSEGV'
try "the first compiles with the static library" compiles_statically
try "it prints the same" prints_outcomes ./branches-static
try "the library exports hugepool_ names alone" exports_only_its_calls

try "cargo installs" installs cargo
try "a program in Rust is written" writes_in_rust
try "it compiles where pkg-config names the library" compiles_in_rust PKG_CONFIG=pkg-config
try "it prints what stands beside the traces" replays_all in-rust/target/debug/in-rust
try "it compiles where the linker finds the library, too" compiles_in_rust PKG_CONFIG=/bin/false
try "it prints the same, too" replays_all in-rust/target/debug/in-rust
try "the crates' own tests pass over the installed library" passes_in_rust

try "shells install" installs bash-completion fish zsh
try "bash: commands" offers_in_bash "explain explore" hugepool expl
try "bash: options" offers_in_bash "--times --trace" hugepool race --t
try "bash: nothing where a value is wanted" offers_in_bash "" hugepool race --times ""
try "bash: commands after help" offers_in_bash "schedule" hugepool help sc
try "fish: commands" offers_in_fish "explain explore" "hugepool expl"
try "fish: options" offers_in_fish "--trace" "hugepool race --tr"
try "fish: no option of another command" offers_in_fish "" "hugepool check --tr"
try "zsh: a command and an option" completes_in_zsh

try "a C program compiles with the .tar.gz" compiles_with_tar
try "it prints the outcomes, too" prints_outcomes ./branches-tar
try "its program replays" replays_all /opt/hugepool/bin/hugepool replay
try "its program is the one that PROVED names" is_the_proved_program /opt/hugepool/bin/hugepool
try "the packages go and leave nothing" leaves_nothing

echo "package test: $passed passed, $failed failed"
[ "$failed" = 0 ]
