#!/bin/sh
# Plays every script of examples/ and compares what it prints with the stored output; then the inputs at the limits.
# The program is target/bin/play, which tools/player makes, or the first argument. Exits non-zero and names what differs.
here=$(cd "$(dirname "$0")/.." && pwd)
[ $# -gt 0 ] || sh "$here/tools/player" || exit 1
play=${1:-$here/target/bin/play}
dir=$(mktemp -d) || exit 2
trap 'rm -rf "$dir"' EXIT
bad=0

same() { # NAME WANTED GOT
    if ! cmp -s "$2" "$3"; then
        echo "differs: $1"
        bad=1
    fi
}

for script in "$here"/examples/*.script; do
    name=$(basename "$script" .script)
    "$play" < "$script" > "$dir/got"
    same "examples/$name" "$here/examples/$name.out" "$dir/got"
done

# 65,536 bytes of empty lines: no line one.
yes '' | head -c 65536 > "$dir/in"
printf '?\n' > "$dir/want"
"$play" < "$dir/in" > "$dir/got"
same "empty lines" "$dir/want" "$dir/got"

# line one, and empty lines up to 65,536 bytes and beyond: what is past is not read
{ printf 'group 2\n'; yes '' | head -c 70000; } > "$dir/in"
yes '?' | head -n 65528 > "$dir/want"
"$play" < "$dir/in" > "$dir/got"
same "a group and empty lines" "$dir/want" "$dir/got"

# one endless line
{ printf 'group 2\nwrite 0 '; head -c 70000 /dev/zero | tr '\0' 'a'; } > "$dir/in"
printf '8 V 0 0 -\n' > "$dir/want"
"$play" < "$dir/in" > "$dir/got"
same "one endless line" "$dir/want" "$dir/got"

# NULs
head -c 65536 /dev/zero > "$dir/in"
printf '?\n' > "$dir/want"
"$play" < "$dir/in" > "$dir/got"
same "NULs" "$dir/want" "$dir/got"

# 300 resends: the log takes 256 messages, and the rest print `?`, as does a write; a read, which sends nothing, answers as always
{ printf 'group 2\n'; yes 'resend 0' | head -n 300; printf 'write 0 x\nread 0\n'; } > "$dir/in"
{ k=0; while [ $k -lt 256 ]; do echo "0 V 0 0 $k"; k=$((k + 1)); done; yes '?' | head -n 45; echo '0 V 0 0 -'; } > "$dir/want"
"$play" < "$dir/in" > "$dir/got"
same "a full log" "$dir/want" "$dir/got"

# a full log and acknowledgements: laptop 1's sends nothing and is counted; laptop 2's is the last, its VAL has no room, and it is not counted,
# so that it prints `?` again and not 13. The same VAL by validate, once laptop 2 is struck off
{
    printf 'group 3\nwrite 0 x\ndeliver 1 0\ndeliver 2 0\n'
    yes 'resend 0' | head -n 253
    printf 'deliver 0 1\ndeliver 0 1\ndeliver 0 2\ndeliver 0 2\nvalidate 0\nview 0 1 3\nvalidate 0\nread 0\n'
} > "$dir/in"
{
    printf '0 W 1 0 0\n0 I 1 0 1\n0 I 1 0 2\n'
    k=3; while [ $k -lt 256 ]; do echo "0 W 1 0 $k"; k=$((k + 1)); done
    printf '0 W 1 0 -\n13 W 1 0 -\n?\n?\n15 W 1 0 -\n0 W 1 0 -\n?\n6 W 1 0 -\n'
} > "$dir/want"
"$play" < "$dir/in" > "$dir/got"
same "a full log and the last acknowledgement" "$dir/want" "$dir/got"

# 300 writes: after the first the record is in state write, so question 7 refuses
{ printf 'group 2\n'; yes 'write 0 x' | head -n 300; } > "$dir/in"
{ echo '0 W 1 0 0'; yes '7 W 1 0 -' | head -n 299; } > "$dir/want"
"$play" < "$dir/in" > "$dir/got"
same "300 writes" "$dir/want" "$dir/got"

# no line one, a wrong one, a group with no line feed and nothing after it
printf '' | "$play" > "$dir/got"; printf '?\n' > "$dir/want"; same "empty input" "$dir/want" "$dir/got"
printf 'group 5\nread 0\n' | "$play" > "$dir/got"; same "group 5" "$dir/want" "$dir/got"
printf 'group 2' | "$play" > "$dir/got"; : > "$dir/want"; same "group 2 alone" "$dir/want" "$dir/got"
printf 'group 2\nread 1' | "$play" > "$dir/got"; echo '0 V 0 0 -' > "$dir/want"; same "a last line without line feed" "$dir/want" "$dir/got"

[ $bad = 0 ] && echo "examples: all as stored"
exit $bad
