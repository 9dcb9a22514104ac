# What tests/fresh.sh does inside the clean system: /origin.git is what was committed.
export LC_ALL=C
fail() {
    echo "fresh: $1"
    exit 1
}

# The milliseconds since the moment that is given.
since() { # since MILLISECONDS
    echo $(($(date +%s%3N) - $1))
}

within() { # within WHAT MILLISECONDS MOST
    echo "$1: $2 ms"
    [ "$2" -le "$3" ] || fail "$1 takes more than $3 ms"
}

for command in rt python3 cc; do
    command -v $command && fail "this system is not clean: $command is there"
done
began=$(date +%s%3N)
git clone -q /origin.git /repo && cd /repo || fail 'the repository cannot be cloned'
within 'git clone' "$(since "$began")" 20000

began=$(date +%s%3N)
found=$(./run answer --session 4660 --serial 5 --vrps samples/list.json 0102000000000008) || fail './run answer fails'
within 'the first ./run answer' "$(since "$began")" 2000
[ "$(echo "$found" | tail -n 1)" = 01071234000000180000000500000e100000025800001c20 ] || fail "./run answer prints $found"
began=$(date +%s%3N)
for _ in 1 2 3 4 5 6 7 8 9 10; do
    ./run route --vrps samples/list.json 192.0.2.0/24 64496 >/dev/null || fail './run route fails'
done
within 'ten further starts' "$(since "$began")" 1000

serves_bird() {
    [ "$(birdc show route table r4 count | tail -n 1)" = '2 of 2 routes for 2 networks in table r4' ] &&
        [ "$(birdc show route table r6 count | tail -n 1)" = '1 of 1 routes for 1 networks in table r6' ]
}
began=$(date +%s%3N)
./rpkirtrd --vrps samples/rpki-client.json --once >/tmp/log 2>&1 &
sleep 0.5
mkdir -p /run/bird && bird || fail 'BIRD does not start'
until serves_bird 2>/dev/null; do
    [ "$(since "$began")" -le 5000 ] || fail "BIRD has no records: $(cat /tmp/log)"
    sleep 0.05
done
within './rpkirtrd, to the records in BIRD' "$(since "$began")" 5000
birdc down >/dev/null
wait

began=$(date +%s%3N)
package=$(tools/package.sh /tmp) && dpkg -i "$package" >/dev/null || fail 'no package can be made and installed'
within 'tools/package.sh and dpkg -i' "$(since "$began")" 20000
[ "$(rpkirtrd --version | head -n 1)" = "rpkirtrd $(sed -n 's/^rpkirtrd \([^ ]*\) .*/\1/p' dist/x86_64-linux/SOURCES)" ] || fail 'another version was installed'
[ -z "$(git status --porcelain)" ] || fail "the clone is changed: $(git status --porcelain)"
echo 'all as it should be'
